/*
 * bisquemop_open and bisquemop_one_line: the lines of a text laid one by one are those that it is laid in, for as many
 * lines as one likes. Examples, long texts, random texts; and lines from starts and rests that no layout has, which are
 * held to the layout of the text from there on and to laying again. The seeds are fixed.
 * Rule 9, rule 10, rule 12, refusal 8.
 */
#include "chance.h"
#include "examples.h"
#include "harness.h"
#include "long_texts.h"
#include "rules.h"

#include <stdio.h>
#include <string.h>

#define TEXTS share_of(10000)
#define LONGEST 60 /* characters of a text */
#define BYTES (4 * LONGEST)
#define LINE BISQUEMOP_LINE_NUMBERS

/* How many texts are laid in more than one line; and how many lines start with a rest, where the text ends, and, from
   anywhere, within a word. */
static unsigned long several, with_rest, at_end, within;

/* Where line k of a table starts, and past the last one the text's end. */
static struct stand stand_of(const uint32_t *table, uint64_t lines, uint64_t k, size_t len)
{
    struct stand end = {(uint32_t)len, 0, 0};
    if (k == lines) {
        return end;
    }
    struct stand of_line = {line_number(table, k, BISQUEMOP_LINE_START), line_number(table, k, BISQUEMOP_LINE_REST_END),
                            line_number(table, k, BISQUEMOP_LINE_REST_COUNT)};
    return of_line;
}

/* Line k laid by itself, in an entry of so many numbers. */
static void line_is(const char *what, struct bisquemop_settings s, const uint8_t *text, size_t len,
                    const uint32_t *table, uint64_t lines, uint64_t k, size_t room)
{
    expect_one_line(what, s, text, len, stand_of(table, lines, k, len), room, table + LINE * k,
                    stand_of(table, lines, k + 1, len));
}

/* ---- the examples, in entries that are just large enough, larger, and smaller */

static void test_example(const char *what, struct bisquemop_settings s, const uint8_t *text, size_t len,
                         const struct example *x)
{
    static const size_t rooms[] = {LINE, LINE + 1, 2 * LINE, 5 * LINE + 3}, small[] = {LINE - 1, 1, 0};
    expect_open(what, s, text, len, BISQUEMOP_OK, 0);
    for (uint64_t k = 0; k < x->count; k++) {
        struct stand from = stand_of(x->lines, x->count, k, len);
        for (size_t i = 0; i < sizeof rooms / sizeof rooms[0]; i++) {
            line_is(what, s, text, len, x->lines, x->count, k, rooms[i]);
        }
        for (size_t i = 0; i < sizeof small / sizeof small[0]; i++) {
            expect_no_line(what, s, text, len, from, small[i], BISQUEMOP_TOO_SMALL, 1);
        }
    }
}

/* ---- the longest texts: the first lines, some, and the last ones */

static void test_long_text(const struct long_text *x)
{
    const size_t len = sizeof x->text, few = x->count < 3 ? x->count : 3, step = 1 + x->count / 7;
    expect_open(x->what, x->settings, x->text, len, BISQUEMOP_OK, 0);
    for (size_t k = 0; k < x->count; k += k < few || k + few >= x->count ? 1 : step) {
        line_is(x->what, x->settings, x->text, len, x->lines, x->count, k, LINE);
    }
    line_is(x->what, x->settings, x->text, len, x->lines, x->count, x->count - 1, LINE);
}

/* ---- random texts */

/* The lines of a text as the whole layout has them, and what the calls write one by one: after k lines the first k of
   the whole, and in the entry behind them what was there. */
static uint32_t whole[LINE * (BYTES + 1)], by_line[LINE * (BYTES + 3)];

#define UNTOUCHED UINT32_C(0x71717171)

static int holds_first(uint64_t k)
{
    for (size_t i = LINE * (size_t)k; i < LINE * (size_t)(k + 1); i++) {
        if (by_line[i] != UNTOUCHED) {
            return 0;
        }
    }
    return memcmp(by_line, whole, LINE * (size_t)k * sizeof *whole) == 0;
}

/* Lays a text to its end, a line at a time, going on by nothing but what the calls answer. */
static void walk(const char *what, struct bisquemop_settings s, const uint8_t *text, size_t len, uint64_t lines)
{
    uint64_t next = UINT64_MAX, k = 0;
    uint32_t rest_end = 0, rest_count = 0, refused = bisquemop_settings_open(&s, text, len, &next), ended = 0;
    for (size_t i = 0; i < LINE * (len + 3); i++) {
        by_line[i] = UNTOUCHED;
    }
    expect(what, refused == BISQUEMOP_OK && next == 0);
    while (refused == BISQUEMOP_OK && !ended && k <= lines) {
        uint32_t *entry = by_line + LINE * k;
        at_end += next == len;
        with_rest += rest_end > 0;
        refused = bisquemop_settings_one_line(&s, text, len, (uint32_t)next, rest_end, rest_count, entry,
                                              LINE * (len + 2 - k), &next, &rest_end, &rest_count);
        ended = entry[BISQUEMOP_LINE_END] == BISQUEMOP_END_END_OF_TEXT;
        expect(what, refused == BISQUEMOP_OK && holds_first(++k));
    }
    expect(what, ended && k == lines && next == len && rest_end == 0 && rest_count == 0);
}

static void one_text(const char *what, struct bisquemop_settings s)
{
    static uint8_t text[BYTES];
    size_t len = random_text(text, below(LONGEST + 1));
    uint64_t lines = lay_text(what, s, text, len, whole, LINE * (len + 1));
    several += lines > 1;
    walk(what, s, text, len, lines);
    uint32_t k = below((uint32_t)lines), room = LINE + below(4 * LINE);
    line_is(what, s, text, len, whole, lines, k, room);
}

/* ---- starts that no layout has */

/* The first line of a text from a place on, moved to its place, and where the line after it starts. */
static struct stand by_suffix(const char *what, struct bisquemop_settings s, const uint8_t *text, size_t len,
                              uint32_t start, uint32_t *entry)
{
    static uint32_t table[LINE * (BYTES + 1)], next[LINE];
    uint64_t lines = lay_text(what, s, text + start, len - start, table, LINE * (len - start + 1));
    move_line(table, start, characters_in(text, start), entry);
    if (lines == 1) {
        return stand_of(table, 1, 1, len);
    }
    move_line(table + LINE, start, 0, next);
    return stand_of(next, 1, 0, len);
}

/* The same after a rest: the line that laying again gives, where a table of no text has that line as its second and all
   behind the rest has been edited. */
static struct stand by_again(const char *what, struct bisquemop_settings s, const uint8_t *text, size_t len,
                             struct stand from, uint32_t *entry)
{
    static uint32_t table[LINE * (BYTES + 3)], next[LINE];
    const uint32_t part = (uint32_t)len - from.start, edge = from.rest_end - from.start + 1;
    /* clang-format off */
    const uint32_t old[2 * LINE] = {0, 0, 0, 3, 0, 0, 0, 0, 0, edge, 0, /**/
                                    1, edge, from.rest_count, 2, 0, 0, 0, 0, 0, edge + 2, 1};
    /* clang-format on */
    uint64_t lines = 0, laid = 0;
    memcpy(table, old, sizeof old);
    expect(what, bisquemop_settings_lay_again(&s, text + from.start, part, table, sizeof table / sizeof table[0], 2,
                                              edge, edge + 1, part + 1 - edge, &lines, &laid) == BISQUEMOP_OK);
    move_line(table + LINE, (int64_t)from.start - 1, (int64_t)characters_in(text, from.start) - 1, entry);
    if (lines == 2) {
        return stand_of(table, 2, 2, len);
    }
    move_line(table + 2 * LINE, (int64_t)from.start - 1, 0, next);
    return stand_of(next, 1, 0, len);
}

/* A place between two characters of a text that is UTF-8, or one of its ends, not before another. */
static uint32_t random_place(const uint8_t *text, size_t len, uint32_t from)
{
    uint32_t at = from + below((uint32_t)len - from + 1);
    while (at < len && (text[at] & 0xC0) == 0x80) {
        at++;
    }
    return at;
}

/* A line from anywhere, with no rest, with a rest of anything, and at times with one that counts all its characters. */
static void one_start(const char *what, struct bisquemop_settings s)
{
    static uint8_t text[BYTES];
    uint32_t entry[LINE], room = LINE + below(2 * LINE);
    size_t len = random_text(text, below(LONGEST + 1));
    struct stand from = {random_place(text, len, 0), 0, 0}, next;
    within += 0 < from.start && from.start < len && text[from.start - 1] > ' ' && text[from.start] > ' ';
    next = by_suffix(what, s, text, len, from.start, entry);
    expect_one_line(what, s, text, len, from, room, entry, next);
    from.rest_end = random_place(text, len, from.start);
    if (from.rest_end == from.start) {
        return;
    }
    uint32_t most = characters_in(text + from.start, from.rest_end - from.start);
    from.rest_count = below(2) ? most : below(most + 1);
    next = by_again(what, s, text, len, from, entry);
    expect_one_line(what, s, text, len, from, room, entry, next);
    with_rest++;
}

/* Lines from starts and rests of no layout. The numbers come from the rules, by hand. */
static void test_by_hand(void)
{
    /* clang-format off */
    static const struct {
        const char *what, *text;
        uint32_t width;
        struct stand from;
        uint32_t entry[LINE];
        struct stand next;
    } list[] = {
        {"the empty text", "", 30, {0, 0, 0}, {0, 0, 0, 2, 0, 6, 0, 0, 0, 1, 0}, {0, 0, 0}},
        {"the end of a text", "ab cde", 30, {6, 0, 0}, {6, 0, 0, 2, 0, 6, 0, 0, 0, 7, 6}, {6, 0, 0}},
        {"the last line of a text that ends by a line feed", "a\n", 30, {2, 0, 0},
         {2, 0, 0, 2, 0, 6, 0, 0, 0, 3, 2}, {2, 0, 0}},
        {"the middle of a word", "abcdefg", 30, {3, 0, 0}, {3, 0, 0, 2, 0, 6, 0, 24, 0, 8, 3}, {7, 0, 0}},
        {"a space that the line before has taken", "ab cde", 30, {2, 0, 0}, {2, 0, 0, 2, 0, 6, 0, 24, 0, 7, 2},
         {6, 0, 0}},
        /* characters are those of the whole text */
        {"after two characters of five bytes", "\xC3\xA9\xE3\x80\x80x\ny", 30, {5, 0, 0},
         {5, 0, 0, 0, 0, 6, 0, 6, 0, 7, 2}, {7, 0, 0}},
        {"a line that leaves a rest", "xabc   d", 18, {1, 0, 0}, {1, 0, 0, 3, 0, 6, 0, 18, 0, 8, 1}, {5, 7, 2}},
        {"a rest at the text's front", "  d", 18, {0, 2, 2}, {0, 2, 2, 2, 0, 6, 0, 18, 0, 4, 0}, {3, 0, 0}},
        {"the same, and it counts one", "  d", 18, {0, 2, 1}, {0, 2, 1, 2, 0, 6, 0, 12, 0, 4, 0}, {3, 0, 0}},
        {"the same, and it counts none", "  d", 18, {0, 2, 0}, {0, 2, 0, 2, 0, 6, 0, 6, 0, 4, 0}, {3, 0, 0}},
        {"a rest of letters", "xyde", 18, {0, 2, 2}, {0, 2, 2, 3, 0, 6, 0, 18, 0, 5, 0}, {3, 0, 0}},
        {"a rest that is the whole text", "    ", 30, {0, 4, 4}, {0, 4, 4, 2, 0, 6, 0, 0, 0, 5, 0}, {4, 0, 0}},
        {"a rest that is cut again", "a      b", 18, {1, 7, 6}, {1, 7, 6, 3, 0, 6, 0, 0, 0, 8, 1}, {5, 7, 2}},
    };
    /* clang-format on */
    for (size_t i = 0; i < sizeof list / sizeof list[0]; i++) {
        expect_one_line(list[i].what, laid(6, list[i].width, LEFT, 1, DROP), (const uint8_t *)list[i].text,
                        strlen(list[i].text), list[i].from, LINE, list[i].entry, list[i].next);
    }
}

void test_one_line(void)
{
    each_example(test_example);
    test_by_hand();
    each_long_text(test_long_text);
    test_by_chance(106, TEXTS, "line by line", one_text);
    unsigned long rests = with_rest;
    test_by_chance(1061, TEXTS, "from anywhere", one_start);
    printf(
        "%lu texts: %lu in several lines, %lu lines with a rest, %lu at the text's end; from anywhere %lu within words, "
        "%lu with a rest\n",
        TEXTS, several, rests, at_end, within, with_rest - rests);
    expect_of_all("texts in several lines, lines with a rest and lines at the end",
                  several >= TEXTS / 2 && rests >= TEXTS / 10 && at_end >= TEXTS / 10);
    expect_of_all("starts within words, and starts with a rest",
                  within >= TEXTS / 10 && with_rest - rests >= TEXTS / 2);
}
