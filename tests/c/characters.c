/*
 * The characters before each line, counted a second time from the text's bytes: in fresh layouts of random texts, whose
 * characters have one to four bytes, and after each edit of a chain. The seed is fixed.
 * Rule 12, laying again.
 */
#include "chance.h"
#include "harness.h"
#include "rules.h"
#include "utf8.h"

#include <stdio.h>
#include <string.h>

#define TEXTS share_of(10000)
#define CHAIN 4    /* edits of one text */
#define LONGEST 60 /* characters of a text */
#define BYTES (4 * LONGEST)
#define LINE BISQUEMOP_LINE_NUMBERS
#define EVENT BISQUEMOP_EVENT_NUMBERS

static uint8_t text[BYTES], edited[BYTES], inserted[BYTES];
static size_t len;
static uint32_t table[LINE * (BYTES + 1)], drawn[EVENT * BYTES];
static uint64_t lines;

/* How many lines have fewer characters before them than bytes; and how many edits have old lines follow, how many of
   them with other characters before them, and how many of those with the same bytes. */
static unsigned long fewer, follow, otherwise, in_place;

/* As many letters and spaces of each length, and line feeds. */
static size_t characters_of_each_length(uint8_t *to, size_t characters)
{
    static const uint32_t list[] = {'a', 'b', 0xE9, 0x3B1, 0x6F22, 0x3042, 0x1F600, 0x10FFFF,
                                    ' ', ' ', 0x85, 0xA0,  0x3000, 0x2003, 0xAD,    '\n'};
    size_t bytes = 0;
    for (size_t i = 0; i < characters; i++) {
        bytes += encode(list[below(sizeof list / sizeof list[0])], to + bytes);
    }
    return bytes;
}

/* Does each line count the characters whose first byte stands before its start. */
static int counts_truly(void)
{
    for (uint64_t k = 0; k < lines; k++) {
        uint32_t start = line_number(table, k, BISQUEMOP_LINE_START);
        uint32_t characters = line_number(table, k, BISQUEMOP_LINE_CHARS);
        if (characters != characters_in(text, start)) {
            return 0;
        }
        fewer += characters < start;
    }
    return 1;
}

/* Counts an edit by its kinds, from the first old line that follows, if one does. */
static void count_kinds(const uint32_t *old, uint64_t met, uint64_t old_lines, uint64_t now, struct edit e)
{
    if (met == old_lines) {
        return;
    }
    follow++;
    if (line_number(old, met, BISQUEMOP_LINE_CHARS) != line_number(table, now, BISQUEMOP_LINE_CHARS)) {
        otherwise++;
        in_place += length_change(e) == 0;
    }
}

/* An edit, at times one character of four bytes for as many bytes, so that lines that follow stay where they stood. */
static struct edit edit_of_characters(void)
{
    struct edit e = random_edit(text, len, BYTES, inserted);
    uint32_t b = e.a + 4;
    if (below(2) == 0 && b <= len && (b == len || (text[b] & 0xC0) != 0x80)) {
        e.b = b;
        e.inserted = (uint32_t)encode(0x1F600, inserted);
    }
    return e;
}

static void one_edit(const char *what, struct bisquemop_settings s)
{
    static uint32_t old[LINE * (BYTES + 1)];
    struct edit e = edit_of_characters();
    uint64_t first = affected_line(table, lines, e.a), laid = 0, met = 0, old_lines = lines;
    size_t start = line_number(table, first, BISQUEMOP_LINE_START);
    memcpy(old, table, sizeof old);
    len = put_edited(edited, text, len, e, inserted);
    memcpy(text, edited, len);
    expect(what, bisquemop_settings_lay_again(&s, text + start, len - start, table, LINE * (BYTES + 1), lines, e.a, e.b,
                                              e.inserted, &lines, &laid) == BISQUEMOP_OK);
    struct relay given = {text + start, len - start, old, 0, old_lines, e};
    expect(what, lines_laid(&given, first, table, lines, &met) == laid);
    count_kinds(old, met, old_lines, first + laid, e);
    expect(what, counts_truly());
}

static void one_text(const char *what, struct bisquemop_settings s)
{
    uint64_t events = 0;
    size_t characters = below(LONGEST + 1);
    len = below(2) ? random_text(text, characters) : characters_of_each_length(text, characters);
    expect(what, bisquemop_settings_layout(&s, text, len, table, LINE * (len + 1), &lines) == BISQUEMOP_OK);
    expect(what, counts_truly());
    expect(what, bisquemop_settings_layout_events(&s, text, len, table, LINE * (len + 1), drawn, EVENT * len, &lines,
                                                  &events) == BISQUEMOP_OK);
    expect(what, counts_truly());
    for (int i = 0; i < CHAIN; i++) {
        one_edit(what, s);
    }
}

void test_characters(void)
{
    test_by_chance(109, TEXTS, "in characters", one_text);
    printf(
        "%lu texts: %lu lines with fewer characters than bytes before them; old lines follow %lu edits, with other "
        "characters before them %lu, where they stood %lu\n",
        TEXTS, fewer, follow, otherwise, in_place);
    expect_of_all("lines with fewer characters than bytes before them", fewer >= 10 * TEXTS);
    expect_of_all("edits that old lines follow, with other characters before them, and where they stood",
                  follow >= TEXTS / 2 && otherwise >= TEXTS / 4 && in_place >= TEXTS / 100);
}
