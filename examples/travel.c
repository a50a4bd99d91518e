/*
 * A layout that travels: the phone lays a clue and writes a layout file, the handheld reads it, shows the clue, edits it
 * and lays again what the edit affects. Of the layout only the file's bytes go from one to the other; the text is sent
 * too, but the handheld need not lay it. scripts/run-example travel runs it.
 */
#include <bisquemop.h>

#include <inttypes.h>
#include <stdio.h>
#include <stdlib.h>
#include <string.h>

enum { LINES_ROOM = 16, TEXT_ROOM = 128, TABLE_LEN = BISQUEMOP_LINE_NUMBERS * LINES_ROOM };

static const char clue[] = "Who lied?\nnot the baker, not his wife.";

/* What goes from the phone to the handheld. */
static uint8_t sent[BISQUEMOP_FILE_BYTES(LINES_ROOM)];
static uint64_t sent_len;

/* Every call returns a number, and 0 alone is good. */
static void must(uint32_t number)
{
    if (number != BISQUEMOP_OK) {
        printf("refused: %" PRIu32 "\n", number);
        exit(1);
    }
}

/* ---- the phone */

static void phone(void)
{
    struct bisquemop_settings settings = {.glyph = 6,
                                          .width = 72,
                                          .tab = 24,
                                          .spacing = 9,
                                          .base = 8,
                                          .height = 64,
                                          .top = -4,
                                          .leading = 1,
                                          .wrap = BISQUEMOP_WRAP_WAIT};
    uint32_t table[TABLE_LEN];
    uint64_t lines;
    must(bisquemop_settings_layout(&settings, (const uint8_t *)clue, sizeof clue - 1, table, TABLE_LEN, &lines));
    must(bisquemop_settings_write_file(&settings, table, TABLE_LEN, lines, sent, sizeof sent, &sent_len));
    printf("The phone lays %" PRIu64 " lines and sends a file of %" PRIu64 " bytes.\n", lines, sent_len);
}

/* ---- the handheld */

static struct bisquemop_settings settings;
static uint8_t text[TEXT_ROOM];
static uint32_t table[TABLE_LEN];
static uint64_t len, lines;

static void receive(void)
{
    uint32_t numbers[BISQUEMOP_SETTINGS_NUMBERS];
    must(bisquemop_read_file(sent, sent_len, numbers, BISQUEMOP_SETTINGS_NUMBERS, table, TABLE_LEN, &lines, &len));
    settings = bisquemop_settings_from(numbers);
    memcpy(text, clue, (size_t)len);
    printf("The handheld reads %" PRIu64 " lines of a text of %" PRIu64 " bytes, in a box %" PRIu32 " wide at %" PRId32
           ":\n",
           lines, len, settings.width, settings.top);
}

static void show(void)
{
    for (uint64_t k = 0; k < lines; k++) {
        const uint32_t *line = table + BISQUEMOP_LINE_NUMBERS * k;
        uint64_t end = k + 1 < lines ? line[BISQUEMOP_LINE_NUMBERS + BISQUEMOP_LINE_START] : len, shows;
        int32_t y;
        must(bisquemop_settings_line_y(&settings, table, TABLE_LEN, lines, k, &shows, &y));
        if (end > 0 && text[end - 1] == '\n') {
            end--;
        }
        printf("  y %3" PRId32 "%s |%.*s\n", y, shows == BISQUEMOP_SHOWS ? " " : "*",
               (int)(end - line[BISQUEMOP_LINE_START]), (const char *)text + line[BISQUEMOP_LINE_START]);
    }
}

/* Replaces the bytes from `a` up to `b`, and lays again what that affects. */
static void edit(uint32_t a, uint32_t b, const char *by)
{
    uint32_t inserted = (uint32_t)strlen(by);
    uint64_t first, laid;
    must(bisquemop_first_affected(table, TABLE_LEN, lines, a, b, inserted, &first));
    memmove(text + a + inserted, text + b, (size_t)(len - b));
    memcpy(text + a, by, inserted);
    len = len - (b - a) + inserted;
    uint32_t start = table[BISQUEMOP_LINE_NUMBERS * first + BISQUEMOP_LINE_START];
    must(bisquemop_settings_lay_again(&settings, text + start, len - start, table, TABLE_LEN, lines, a, b, inserted,
                                      &lines, &laid));
    printf("The baker becomes the cook; from line %" PRIu64 " on, %" PRIu64 " of %" PRIu64 " lines are laid again:\n",
           first, laid, lines);
}

int main(void)
{
    uint32_t baker = (uint32_t)(strstr(clue, "baker") - clue);
    phone();
    receive();
    show();
    edit(baker, baker + 5, "cook");
    show();
    return 0;
}
