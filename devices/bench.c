/*
 * What is counted for speed on the devices: one piece of work, done so many times. scripts/speed counts its
 * instructions, once for n times and once for 2n, and the difference is n times the work. Texts, settings and words
 * are those of oracle/src/bench.rs.
 *
 * usage: bench layout|events english|prose BYTES GLYPHS ALIGNMENT TIMES CLUES
 *
 * CLUES is the file that has the clues, a line each; prose are the same in one text of so many bytes. Prints how many
 * bytes and lines there are.
 */
#include <bisquemop.h>

#include <stdio.h>
#include <stdlib.h>
#include <string.h>

enum { FILE_ROOM = 2000, TEXTS_ROOM = 20 };

static char file[FILE_ROOM + 1];
static uint8_t prose[BISQUEMOP_TEXT_MAX];
static struct {
    const uint8_t *bytes;
    size_t len;
} texts[TEXTS_ROOM];
static size_t text_count;
static uint32_t table[BISQUEMOP_LINE_NUMBERS * BISQUEMOP_LINES_MAX];
static uint32_t events[BISQUEMOP_EVENT_NUMBERS * BISQUEMOP_EVENTS_MAX];
#define TABLE table, sizeof table / sizeof table[0]
#define EVENTS events, sizeof events / sizeof events[0]

static void fail(const char *what)
{
    fprintf(stderr, "bench: %s\n", what);
    exit(1);
}

/* ---- texts */

static void read_file(const char *name)
{
    FILE *from = fopen(name, "rb");
    size_t len = from == NULL ? 0 : fread(file, 1, FILE_ROOM, from);
    if (len == 0 || len == FILE_ROOM || file[len - 1] != '\n') {
        fail("the clues are not there, too long or without a last end of line");
    }
}

static void add_text(const uint8_t *bytes, size_t len)
{
    if (text_count == TEXTS_ROOM) {
        fail("there are too many clues");
    }
    texts[text_count].bytes = bytes;
    texts[text_count++].len = len;
}

static void add_clues(void)
{
    char *end;
    for (char *at = file; *at != 0; at = end + 1) {
        end = strchr(at, '\n');
        add_text((const uint8_t *)at, (size_t)(end - at));
    }
}

/* All clues with a space after each, again and again. */
static void add_prose(size_t bytes)
{
    const char *from = file;
    if (bytes > sizeof prose) {
        fail("the prose is too long");
    }
    for (size_t k = 0; k < bytes; k++) {
        prose[k] = (uint8_t)(*from == '\n' ? ' ' : *from);
        from = from[1] == 0 ? file : from + 1;
    }
    add_text(prose, bytes);
}

/* ---- work */

static uint64_t lay(const struct bisquemop_settings *s, int with_events, size_t k)
{
    uint64_t lines, drawn;
    uint32_t refused =
        with_events ? bisquemop_settings_layout_events(s, texts[k].bytes, texts[k].len, TABLE, EVENTS, &lines, &drawn)
                    : bisquemop_settings_layout(s, texts[k].bytes, texts[k].len, TABLE, &lines);
    if (refused != BISQUEMOP_OK) {
        fail("a text was refused");
    }
    return lines;
}

/* Lays each text so many times and prints their size. */
static void work(const struct bisquemop_settings *s, int with_events, unsigned long times)
{
    unsigned long bytes = 0, lines = 0;
    for (size_t k = 0; k < text_count; k++) {
        bytes += (unsigned long)texts[k].len;
        lines += (unsigned long)lay(s, with_events, k);
    }
    for (size_t k = 0; k < text_count * times; k++) {
        lay(s, with_events, k % text_count);
    }
    printf("%lu %lu\n", bytes, lines);
}

int main(int argc, char **argv)
{
    struct bisquemop_settings s = {
        .glyph = 6, .tab = 24, .spacing = 10, .paragraph = 3, .base = 8, .height = 40, .top = -5, .leading = 1};
    if (argc != 8) {
        fail("usage: bench layout|events english|prose BYTES GLYPHS ALIGNMENT TIMES CLUES");
    }
    read_file(argv[7]);
    if (strcmp(argv[2], "prose") == 0) {
        add_prose(strtoul(argv[3], NULL, 10));
    } else {
        add_clues();
    }
    s.width = s.glyph * (uint32_t)strtoul(argv[4], NULL, 10);
    s.alignment = (uint32_t)strtoul(argv[5], NULL, 10);
    work(&s, strcmp(argv[1], "events") == 0, strtoul(argv[6], NULL, 10));
    return 0;
}
