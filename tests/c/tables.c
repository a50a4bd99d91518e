/* The calls that read a table: good tables, bad ones, edits that are bad or too long. */
/* Refusal 3, refusal 5, refusal 6. */
#include "harness.h"

#include <stdio.h>
#include <string.h>

#define NUMBERS BISQUEMOP_LINE_NUMBERS

/* Spacing 10, paragraph 3, base 8, and the top at -5. */
static struct bisquemop_settings standing(uint32_t width, uint32_t height, uint32_t vertical)
{
    struct bisquemop_settings s = {6, width, 24, 10, 3, 8, height, -5, BISQUEMOP_ALIGN_LEFT, vertical, 1, 0, 0};
    return s;
}

static uint32_t table[NUMBERS * (BISQUEMOP_TEXT_MAX + 1)];

/* The lines of a text, laid into the front of the table. The numbers after them are none of a line. */
static uint64_t lay(struct bisquemop_settings s, const uint8_t *text, size_t len)
{
    uint64_t lines = 0;
    for (size_t i = 0; i < sizeof table / sizeof table[0]; i++) {
        table[i] = 7;
    }
    expect("the text is laid",
           bisquemop_settings_layout(&s, text, len, table, sizeof table / sizeof table[0], &lines) == BISQUEMOP_OK);
    return lines;
}

/* A line by its start, rest end, rest count, end type and reach; with any characters before it, and with as few as a
   first or a second line can have. */
#define LINE_AFTER(chars, start, end, count, ending, reach) start, end, count, ending, 0, 6, 0, 0, 0, reach, chars
#define LINE(start, end, count, ending, reach) LINE_AFTER((start) > 0, start, end, count, ending, reach)

#define GOOD UINT64_MAX

struct table_example {
    uint64_t lines;
    size_t held; /* how many lines the table has room for */
    uint32_t numbers[3 * NUMBERS];
    uint64_t bad; /* the first bad line, or GOOD */
};

static const struct table_example table_examples[] = {
    {2, 2, {LINE(0, 0, 0, 3, 7), LINE(4, 6, 2, 2, 8)}, GOOD},
    /* no line, more lines than the table holds, a last reach of 0 or past 65,536 */
    {0, 1, {LINE(0, 0, 0, 2, 1)}, 0},
    {2, 1, {LINE(0, 0, 0, 2, 1)}, 0},
    {1, 1, {LINE(0, 0, 0, 2, 0)}, 0},
    {1, 1, {LINE(0, 0, 0, 2, 65537)}, 0},
    {1, 1, {LINE(0, 0, 0, 2, 65536)}, GOOD},
    {1, 1, {LINE(0, 0, 0, 2, UINT32_MAX)}, 0},
    {2, 2, {LINE(0, 0, 0, 3, 7), LINE(4, 0, 0, 2, 0)}, 0},
    /* a first start that is not 0, a start that does not rise, one past the reach before it, one past the text */
    {1, 1, {LINE_AFTER(0, 1, 0, 0, 2, 8)}, 0},
    {2, 2, {LINE(0, 0, 0, 3, 7), LINE(0, 0, 0, 2, 8)}, 1},
    {3, 3, {LINE(0, 0, 0, 3, 7), LINE(4, 0, 0, 3, 8), LINE_AFTER(2, 4, 0, 0, 2, 8)}, 2},
    {3, 3, {LINE(0, 0, 0, 3, 7), LINE(4, 0, 0, 3, 8), LINE_AFTER(2, 5, 0, 0, 2, 8)}, GOOD},
    {2, 2, {LINE(0, 0, 0, 3, 3), LINE(4, 0, 0, 2, 8)}, 1},
    {2, 2, {LINE(0, 0, 0, 3, 8), LINE(8, 0, 0, 2, 8)}, 1},
    {2, 2, {LINE(0, 0, 0, 3, 8), LINE(7, 0, 0, 2, 8)}, GOOD},
    /* end types: 2 on the last line and only there, none above 3 */
    {2, 2, {LINE(0, 0, 0, 2, 7), LINE(4, 0, 0, 2, 8)}, 0},
    {2, 2, {LINE(0, 0, 0, 3, 7), LINE(4, 0, 0, 3, 8)}, 1},
    {2, 2, {LINE(0, 0, 0, 4, 7), LINE(4, 0, 0, 2, 8)}, 0},
    {2, 2, {LINE(0, 0, 0, 1, 7), LINE(4, 0, 0, 2, 8)}, GOOD},
    {2, 2, {LINE(0, 0, 0, 0, 7), LINE(4, 0, 0, 2, 8)}, GOOD},
    /* a reach past the last one */
    {2, 2, {LINE(0, 0, 0, 3, 9), LINE(4, 0, 0, 2, 8)}, 0},
    /* a rest on line 0; at its start; past the reach before it; past the text; of more than its bytes; a count alone */
    {1, 1, {LINE(0, 2, 1, 2, 8)}, 0},
    {2, 2, {LINE(0, 0, 0, 3, 7), LINE(4, 4, 0, 2, 8)}, 1},
    {2, 2, {LINE(0, 0, 0, 3, 5), LINE(4, 6, 2, 2, 8)}, 1},
    {2, 2, {LINE(0, 0, 0, 3, 8), LINE(4, 8, 2, 2, 8)}, 1},
    {2, 2, {LINE(0, 0, 0, 3, 7), LINE(4, 6, 3, 2, 8)}, 1},
    {2, 2, {LINE(0, 0, 0, 3, 7), LINE(4, 0, 1, 2, 8)}, 1},
    {2, 2, {LINE(0, 0, 0, 3, 7), LINE(4, 6, 0, 2, 8)}, GOOD},
    /* characters before line 0; as many as before the line before; fewer; more than bytes, by one and by many */
    {1, 1, {LINE_AFTER(1, 0, 0, 0, 2, 8)}, 0},
    {1, 1, {LINE_AFTER(UINT32_MAX, 0, 0, 0, 2, 8)}, 0},
    {2, 2, {LINE(0, 0, 0, 3, 7), LINE_AFTER(0, 4, 0, 0, 2, 8)}, 1},
    {3, 3, {LINE(0, 0, 0, 3, 7), LINE_AFTER(2, 4, 0, 0, 3, 8), LINE_AFTER(2, 5, 0, 0, 2, 8)}, 2},
    {3, 3, {LINE(0, 0, 0, 3, 7), LINE_AFTER(2, 4, 0, 0, 3, 8), LINE_AFTER(1, 5, 0, 0, 2, 8)}, 2},
    {2, 2, {LINE(0, 0, 0, 3, 7), LINE_AFTER(5, 4, 0, 0, 2, 8)}, 1},
    {2, 2, {LINE(0, 0, 0, 3, 7), LINE_AFTER(65536, 4, 0, 0, 2, 8)}, 1},
    {2, 2, {LINE(0, 0, 0, 3, 7), LINE_AFTER(UINT32_MAX, 4, 0, 0, 2, 8)}, 1},
    {3, 3, {LINE(0, 0, 0, 3, 7), LINE_AFTER(5, 4, 0, 0, 3, 8), LINE_AFTER(6, 6, 0, 0, 2, 8)}, 1},
    {3, 3, {LINE_AFTER(1, 0, 0, 0, 3, 7), LINE_AFTER(2, 4, 0, 0, 3, 8), LINE_AFTER(3, 6, 0, 0, 2, 8)}, 0},
    {3, 3, {LINE(0, 0, 0, 3, 7), LINE_AFTER(4, 4, 0, 0, 3, 8), LINE_AFTER(5, 6, 0, 0, 2, 8)}, GOOD},
    /* a line's characters and another's fault: the first of the two lines is told */
    {3, 3, {LINE(0, 0, 0, 3, 7), LINE_AFTER(5, 4, 0, 0, 3, 8), LINE_AFTER(2, 4, 0, 0, 2, 8)}, 1},
    {3, 3, {LINE(0, 0, 0, 3, 7), LINE(4, 4, 0, 3, 8), LINE_AFTER(1, 5, 0, 0, 2, 8)}, 1},
    /* lines past the count may be anything */
    {1, 2, {LINE(0, 0, 0, 2, 8), LINE(9, 9, 9, 9, 9)}, GOOD},
};

/* The height and each y are refused by the same tests, that of a line that is not there too. */
static void no_height(const char *what, struct bisquemop_settings s, const uint32_t *numbers, size_t len,
                      uint64_t lines, uint32_t number, uint64_t value)
{
    expect_height(what, s, numbers, len, lines, number, value);
    expect_y(what, s, numbers, len, lines, 0, number, value, KEPT);
    expect_y(what, s, numbers, len, lines, lines, number, value, KEPT);
}

/* Laying again is refused by the same tests, whatever the edit is. */
static void not_again(const char *what, struct bisquemop_settings s, const char *part, size_t part_len,
                      const uint32_t *numbers, size_t len, uint64_t lines, uint32_t number, uint64_t value)
{
    static const struct edit edits[] = {{0, 0, 0}, {1, 0, 0}, {0, 0, UINT32_MAX}, {UINT32_MAX, UINT32_MAX, 0}};
    for (size_t i = 0; i < sizeof edits / sizeof edits[0]; i++) {
        struct relay given = {(const uint8_t *)part, part_len, numbers, len, lines, edits[i]};
        expect_refused(what, s, &given, number, value);
    }
}

/* A bad table comes before a bad edit and an edited text that is too long, and after the settings and a lent text. */
static void bad_table(const char *what, const uint32_t *numbers, size_t len, uint64_t lines, uint64_t bad)
{
    static char too_long[BISQUEMOP_TEXT_MAX + 1];
    struct bisquemop_settings s = standing(30, 40, 0);
    expect_affected(what, numbers, len, lines, 0, 0, 0, BISQUEMOP_BAD_LINE, bad);
    expect_affected(what, numbers, len, lines, 1, 0, 0, BISQUEMOP_BAD_LINE, bad);
    expect_affected(what, numbers, len, lines, 0, 0, UINT32_MAX, BISQUEMOP_BAD_LINE, bad);
    no_height(what, s, numbers, len, lines, BISQUEMOP_BAD_LINE, bad);
    not_again(what, s, NULL, 0, numbers, len, lines, BISQUEMOP_BAD_LINE, bad);
    not_again(what, s, "ab cde", 6, numbers, len, lines, BISQUEMOP_BAD_LINE, bad);
    not_again(what, s, "ab\xFF", 3, numbers, len, lines, BISQUEMOP_NOT_UTF8, 2);
    not_again(what, s, too_long, sizeof too_long, numbers, len, lines, BISQUEMOP_TEXT_TOO_LONG, 65536);
    s.vertical = 3;
    no_height(what, s, numbers, len, lines, BISQUEMOP_UNKNOWN_ALIGNMENT, 3);
    not_again(what, s, too_long, sizeof too_long, numbers, len, lines, BISQUEMOP_UNKNOWN_ALIGNMENT, 3);
    s.alignment = 4;
    no_height(what, s, numbers, len, lines, BISQUEMOP_UNKNOWN_ALIGNMENT, 4);
    not_again(what, s, too_long, sizeof too_long, numbers, len, lines, BISQUEMOP_UNKNOWN_ALIGNMENT, 4);
    s.trailing = 1;
    no_height(what, s, numbers, len, lines, BISQUEMOP_SETTING_OUT_OF_RANGE, 0);
    not_again(what, s, too_long, sizeof too_long, numbers, len, lines, BISQUEMOP_SETTING_OUT_OF_RANGE, 0);
    s.trailing = 0;
    s.wrap = 2;
    no_height(what, s, numbers, len, lines, BISQUEMOP_SETTING_OUT_OF_RANGE, 0);
    not_again(what, s, too_long, sizeof too_long, numbers, len, lines, BISQUEMOP_SETTING_OUT_OF_RANGE, 0);
    s.wrap = 1;
    s.base = 0;
    no_height(what, s, numbers, len, lines, BISQUEMOP_SETTING_OUT_OF_RANGE, 0);
    not_again(what, s, too_long, sizeof too_long, numbers, len, lines, BISQUEMOP_SETTING_OUT_OF_RANGE, 0);
}

static void test_table_examples(void)
{
    for (size_t i = 0; i < sizeof table_examples / sizeof table_examples[0]; i++) {
        const struct table_example *x = &table_examples[i];
        char what[64];
        size_t len = NUMBERS * x->held;
        snprintf(what, sizeof what, "table example %lu", (unsigned long)i);
        if (x->bad != GOOD) {
            bad_table(what, x->numbers, len, x->lines, x->bad);
            continue;
        }
        uint64_t added = 0;
        for (uint64_t k = 0; k + 1 < x->lines; k++) {
            uint32_t end = x->numbers[NUMBERS * k + BISQUEMOP_LINE_END];
            const uint32_t *next = x->numbers + NUMBERS * (k + 1);
            int last_and_empty = k + 2 == x->lines && next[BISQUEMOP_LINE_START] + 1 == next[BISQUEMOP_LINE_REACH];
            added += end == 0 ? 13 : end == 3 && !last_and_empty ? 10 : 0;
        }
        expect_affected(what, x->numbers, len, x->lines, 0, 0, 0, BISQUEMOP_OK, 0);
        expect_height(what, standing(30, 40, 0), x->numbers, len, x->lines, BISQUEMOP_OK, 8 + added);
        /* a table that lacks a number has no room for its last line */
        if (x->lines == x->held) {
            bad_table(what, x->numbers, len - 1, x->lines, 0);
        }
    }
}

/* Counts of lines that no table has room for, among them such as are small when multiplied or cut. */
static void test_counts(void)
{
    static const uint64_t counts[] = {3,
                                      UINT64_C(0xFFFFFFFF),
                                      UINT64_C(0x100000000),
                                      UINT64_C(0x100000001),
                                      UINT64_C(0x100000002),
                                      UINT64_MAX / NUMBERS + 1, /* so many numbers are less than NUMBERS, in 64 bits */
                                      UINT64_C(0x8000000000000001),
                                      UINT64_MAX};
    const uint32_t *good = table_examples[0].numbers;
    for (size_t i = 0; i < sizeof counts / sizeof counts[0]; i++) {
        bad_table("too many lines", good, 2 * NUMBERS, counts[i], 0);
        bad_table("no table at all", NULL, 0, counts[i], 0);
    }
    bad_table("no table, no line", NULL, 0, 0, 0);
    bad_table("no table, one line", NULL, 0, 1, 0);
    bad_table("no line", good, 2 * NUMBERS, 0, 0);
    bad_table("one line of two, which does not end the text", good, 2 * NUMBERS, 1, 0);
}

/* Each edit of a table: all a and b up to a few past the text, and what is inserted. */
static void every_edit(const char *what, uint64_t lines)
{
    size_t len = NUMBERS * (size_t)lines + 13;
    uint32_t length = table[NUMBERS * (lines - 1) + BISQUEMOP_LINE_REACH] - 1;
    for (uint32_t a = 0; a <= length + 2; a++) {
        uint64_t line = 0;
        while (line + 1 < lines && table[NUMBERS * line + BISQUEMOP_LINE_REACH] <= a) {
            line++;
        }
        for (uint32_t b = 0; b <= length + 2; b++) {
            uint64_t most = BISQUEMOP_TEXT_MAX - length + (uint64_t)b - a;
            if (a > b || b > length) {
                expect_affected(what, table, len, lines, a, b, 0, BISQUEMOP_BAD_EDIT, 0);
                expect_affected(what, table, len, lines, a, b, UINT32_MAX, BISQUEMOP_BAD_EDIT, 0);
                continue;
            }
            expect_affected(what, table, len, lines, a, b, 0, BISQUEMOP_OK, line);
            expect_affected(what, table, len, lines, a, b, (uint32_t)most, BISQUEMOP_OK, line);
            expect_affected(what, table, len, lines, a, b, (uint32_t)most + 1, BISQUEMOP_TEXT_TOO_LONG, 65536);
            expect_affected(what, table, len, lines, a, b, UINT32_MAX, BISQUEMOP_TEXT_TOO_LONG,
                            UINT32_MAX + (uint64_t)length - (b - a));
        }
    }
    expect_affected(what, table, len, lines, UINT32_MAX, UINT32_MAX, 0, BISQUEMOP_BAD_EDIT, 0);
    expect_affected(what, table, len, lines, 0, UINT32_MAX, UINT32_MAX, BISQUEMOP_BAD_EDIT, 0);
    expect_affected(what, table, len, lines, UINT32_MAX, 0, 0, BISQUEMOP_BAD_EDIT, 0);
}

/* The examples of edits: an old text, the edit, and the first line that it affects. */
static void test_edit_examples(void)
{
    static const struct {
        uint32_t width;
        const char *old;
        uint32_t a, b, inserted;
        uint64_t line;
    } list[] = {
        {30, "aa\nbb\ncc", 3, 3, 1, 1},
        /* "e" stands on line 1, and without it "cd" fits on line 0 */
        {30, "ab cde", 5, 6, 0, 0},
        {30, "aa\nbb\ncc", 3, 3, 0, 1},
        {18, "zz\nabc   d", 0, 0, 1, 0},
        {18, "abc   d", 4, 4, 1, 0},
        {18, "abc   d", 3, 4, 1, 0},
        {30, "ab", 0, 2, 3, 0},
        {30, "ab cde", 0, 6, 0, 0},
        /* at the end of a text only the lines that met the end are affected */
        {30, "aa\nbb\ncc", 8, 8, 1, 2},
        {18, "zz\nabc   d", 10, 10, 1, 2},
        {30, "", 0, 0, 1, 0},
    };
    for (size_t i = 0; i < sizeof list / sizeof list[0]; i++) {
        char what[64];
        uint64_t lines = lay(standing(list[i].width, 40, 0), (const uint8_t *)list[i].old, strlen(list[i].old));
        snprintf(what, sizeof what, "edit example %lu", (unsigned long)i);
        expect_affected(what, table, 5 * NUMBERS, lines, list[i].a, list[i].b, list[i].inserted, BISQUEMOP_OK,
                        list[i].line);
        every_edit(what, lines);
    }
}

/* A text of 65,535 bytes: nothing can be put in unless as much is taken out. */
static void test_long(void)
{
    static uint8_t text[BISQUEMOP_TEXT_MAX];
    static const uint32_t one[NUMBERS] = {LINE(0, 0, 0, 2, 65536)};
    expect_affected("as long as may be", one, NUMBERS, 1, 65535, 65535, 0, BISQUEMOP_OK, 0);
    expect_affected("one byte too long", one, NUMBERS, 1, 65535, 65535, 1, BISQUEMOP_TEXT_TOO_LONG, 65536);
    expect_affected("one byte for another", one, NUMBERS, 1, 65534, 65535, 1, BISQUEMOP_OK, 0);
    expect_affected("two bytes for one", one, NUMBERS, 1, 65534, 65535, 2, BISQUEMOP_TEXT_TOO_LONG, 65536);
    expect_affected("all for as much", one, NUMBERS, 1, 0, 65535, 65535, BISQUEMOP_OK, 0);
    expect_affected("all for more", one, NUMBERS, 1, 0, 65535, 65536, BISQUEMOP_TEXT_TOO_LONG, 65536);
    expect_affected("much more", one, NUMBERS, 1, 0, 0, UINT32_MAX, BISQUEMOP_TEXT_TOO_LONG, UINT64_C(4295032830));
    expect_affected("past the text", one, NUMBERS, 1, 0, 65536, 1, BISQUEMOP_BAD_EDIT, 0);
    expect_affected("past the text", one, NUMBERS, 1, 65536, 65536, 1, BISQUEMOP_BAD_EDIT, 0);

    const size_t len = sizeof table / sizeof table[0];
    struct bisquemop_settings most = {64, 4096, 4096, 4096, 4096, 64, 4096, 4096, 3, 2, 1, 0, 1};
    memset(text, '\n', sizeof text);
    uint64_t lines = lay(most, text, sizeof text);
    expect("65,536 lines", lines == 65536);
    expect_height("the largest height", most, table, len, lines, BISQUEMOP_OK, UINT64_C(64) + 65535 * 8192);
    expect_y("the lowest y", most, table, len, lines, 0, BISQUEMOP_OK, BISQUEMOP_HIDDEN, 8128 - 65535 * 8192);
    expect_y("the last line at the bottom", most, table, len, lines, 65535, BISQUEMOP_OK, BISQUEMOP_SHOWS, 8128);
    most.vertical = BISQUEMOP_VERTICAL_TOP;
    expect_y("the highest y", most, table, len, lines, 65535, BISQUEMOP_OK, BISQUEMOP_HIDDEN, 4096 + 65535 * 8192);
    expect_affected("the first byte", table, len, lines, 0, 1, 1, BISQUEMOP_OK, 0);
    expect_affected("a byte", table, len, lines, 30000, 30001, 1, BISQUEMOP_OK, 30000);
    expect_affected("the last byte", table, len, lines, 65534, 65535, 0, BISQUEMOP_OK, 65534);
    expect_affected("the end", table, len, lines, 65535, 65535, 0, BISQUEMOP_OK, 65535);
    expect_affected("the end, too long", table, len, lines, 65535, 65535, 1, BISQUEMOP_TEXT_TOO_LONG, 65536);
    expect_affected("one line less", table, len, lines - 1, 0, 0, 0, BISQUEMOP_BAD_LINE, 65534);
    table[NUMBERS * 40000 + BISQUEMOP_LINE_START] = 39999;
    expect_affected("a start that does not rise", table, len, lines, 0, 0, 0, BISQUEMOP_BAD_LINE, 40000);
    no_height("a start that does not rise", most, table, len, lines, BISQUEMOP_BAD_LINE, 40000);
}

void test_tables(void)
{
    test_table_examples();
    test_counts();
    test_edit_examples();
    test_long();
}
