/*
 * bisquemop_index, bisquemop_index_again and bisquemop_find_line: the y of every line, after an edit too, and the line
 * under a y. The ys are computed a second time here, line by line from the table, and lines are looked for one by one.
 * Rule 11, refusal 8, refusal 10.
 */
#include "chance.h"
#include "harness.h"
#include "rules.h"

#include <stdio.h>
#include <string.h>

#define NUMBERS BISQUEMOP_LINE_NUMBERS
#define TEXTS share_of(1500)
#define CHAIN 6       /* edits of one text */
#define CHARACTERS 60 /* of a text */
#define BYTES (8 * CHARACTERS)
#define MOST (BYTES + 1) /* lines of a text */

/* A text with its lines and their ys. */
static uint8_t text[BYTES], edited[BYTES], inserted[BYTES];
static size_t len;
static uint32_t table[NUMBERS * MOST];
static uint64_t lines;
static int32_t ys[MOST + 3];

/* ---- rule 11, once more */

static uint32_t end_adds(struct bisquemop_settings s, uint64_t line)
{
    switch (line_number(table, line, BISQUEMOP_LINE_END)) {
    case BISQUEMOP_END_NEW_LINE:
        return s.spacing + s.paragraph;
    case BISQUEMOP_END_LINE_BREAK:
        return s.spacing;
    default:
        return 0;
    }
}

static int32_t height_of(struct bisquemop_settings s)
{
    uint32_t height = s.base;
    uint32_t bytes = line_number(table, lines - 1, BISQUEMOP_LINE_REACH) - 1;
    for (uint64_t k = 0; k < lines; k++) {
        int before_empty = k + 2 == lines && line_number(table, k + 1, BISQUEMOP_LINE_START) == bytes;
        if (!before_empty || line_number(table, k, BISQUEMOP_LINE_END) != BISQUEMOP_END_LINE_BREAK) {
            height += end_adds(s, k);
        }
    }
    return (int32_t)height;
}

static void put_ys(struct bisquemop_settings s, int32_t *to)
{
    int32_t room = (int32_t)s.height - height_of(s), y = s.top;
    y += s.vertical == BISQUEMOP_VERTICAL_MIDDLE ? room / 2 : s.vertical == BISQUEMOP_VERTICAL_BOTTOM ? room : 0;
    for (uint64_t k = 0; k < lines; k++) {
        to[k] = y;
        y += (int32_t)end_adds(s, k);
    }
}

/* The last line with y at most this one, looked for from the last line up. */
static uint64_t line_under(const int32_t *index, int32_t y)
{
    for (uint64_t k = lines; k > 0; k--) {
        if (index[k - 1] <= y) {
            return k - 1;
        }
    }
    return BISQUEMOP_NONE;
}

/* ---- the calls */

static void found(const char *what, int32_t y)
{
    expect_found(what, table, NUMBERS * lines, lines, ys, lines, y, BISQUEMOP_OK, line_under(ys, y));
}

/* Every y at which another line comes, and those beside it; far above and far below. */
static void find_all(const char *what)
{
    for (uint64_t k = 0; k < lines; k++) {
        found(what, ys[k] - 1);
        found(what, ys[k]);
        found(what, ys[k] + 1);
    }
    found(what, INT32_MIN);
    found(what, INT32_MAX);
}

/* The index in every room: too little, just enough, and more. */
static void make_all(const char *what, struct bisquemop_settings s)
{
    size_t n = (size_t)lines, table_len = NUMBERS * n;
    expect_index(what, s, table, table_len, lines, n, BISQUEMOP_OK, lines, ys);
    expect_index(what, s, table, table_len + 3, lines, n + 3, BISQUEMOP_OK, lines, ys);
    expect_index(what, s, table, table_len, lines, n - 1, BISQUEMOP_TOO_SMALL, lines, NULL);
    expect_index(what, s, table, table_len, lines, 0, BISQUEMOP_TOO_SMALL, lines, NULL);
    expect_index(what, s, table, table_len - 1, lines, n, BISQUEMOP_BAD_LINE, 0, NULL);
}

/* ---- refused */

/* One y too few, one too many, none: the length is looked at before the ys, and the table before both. */
static void wrong_lengths(const char *what)
{
    size_t n = (size_t)lines, table_len = NUMBERS * n;
    ys[n] = ys[0] - 1;
    expect_found(what, table, table_len, lines, ys, n + 1, 0, BISQUEMOP_BAD_INDEX, lines + 1);
    expect_found(what, table, table_len, lines, ys, n - 1, 0, BISQUEMOP_BAD_INDEX, lines - 1);
    expect_found(what, table, table_len, lines, ys, 0, 0, BISQUEMOP_BAD_INDEX, 0);
    expect_found(what, table, table_len - 1, lines, ys, n + 1, 0, BISQUEMOP_BAD_LINE, 0);
    expect_found(what, table, table_len, 0, ys, n, 0, BISQUEMOP_BAD_LINE, 0);
}

/* A y that is smaller than the one before it, at each line, and nothing but the first such counts. */
static void falling_ys(const char *what)
{
    size_t n = (size_t)lines;
    for (size_t k = 1; k < n; k++) {
        int32_t first = ys[0], kept = ys[k], last = ys[n - 1];
        ys[k] = ys[k - 1] - 1;
        expect_found(what, table, NUMBERS * n, lines, ys, n, ys[k], BISQUEMOP_BAD_INDEX, k);
        ys[n - 1] = INT32_MIN;
        expect_found(what, table, NUMBERS * n, lines, ys, n, 0, BISQUEMOP_BAD_INDEX, k);
        ys[n - 1] = last;
        ys[k] = kept;
        if (k > 1) {
            ys[0] = INT32_MAX;
            expect_found(what, table, NUMBERS * n, lines, ys, n, 0, BISQUEMOP_BAD_INDEX, 1);
            ys[0] = first;
        }
    }
}

static void refused_settings(const char *what, struct bisquemop_settings s)
{
    size_t n = (size_t)lines, table_len = NUMBERS * n;
    struct bisquemop_settings bad = s;
    bad.base = 0;
    bad.vertical = 3;
    expect_index(what, bad, table, table_len - 1, lines, 0, BISQUEMOP_SETTING_OUT_OF_RANGE, 0, NULL);
    expect_index_again(what, bad, table, table_len - 1, lines, 0, ys, 0, BISQUEMOP_SETTING_OUT_OF_RANGE, 0, NULL);
    bad.base = s.base;
    expect_index(what, bad, table, table_len - 1, lines, 0, BISQUEMOP_UNKNOWN_ALIGNMENT, 3, NULL);
    expect_index_again(what, bad, table, table_len - 1, lines, 0, ys, n, BISQUEMOP_UNKNOWN_ALIGNMENT, 3, NULL);
    expect_index(what, s, table, table_len - 1, lines, 0, BISQUEMOP_BAD_LINE, 0, NULL);
    expect_index_again(what, s, table, table_len - 1, lines, 0, ys, n - 1, BISQUEMOP_BAD_LINE, 0, NULL);
    expect_index_again(what, s, table, table_len, lines, lines, ys, n - 1, BISQUEMOP_TOO_SMALL, lines, NULL);
}

/* ---- examples: spacing 10, paragraph 3, base 8, the top at -5, five characters to a line */

struct example {
    uint32_t box, vertical;
    const char *text;
    uint64_t lines;
    int32_t ys[4];
};

static const struct example examples[] = {
    {40, 0, "", 1, {-5}},
    {40, 0, "aa\nbb", 2, {-5, 8}},
    {40, 1, "aa\nbb", 2, {4, 17}},
    {40, 2, "aa\nbb", 2, {14, 27}},
    /* half of -21 toward zero */
    {0, 1, "aa\nbb", 2, {-15, -2}},
    {10, 2, "aa\nbb\ncc", 3, {-29, -16, -3}},
    /* lines joined by a carriage return share a y */
    {40, 0, "aa\rbb", 2, {-5, -5}},
    {40, 2, "aa\rbb\ncc\rdd", 4, {14, 14, 27, 27}},
    {40, 0, "\r\r\r", 4, {-5, -5, -5, -5}},
    /* a full line before an empty last line */
    {40, 0, "aaaaab", 2, {-5, 5}},
    {40, 1, "     ab", 2, {11, 21}},
};

static void test_example(const char *what, const struct example *x)
{
    struct bisquemop_settings s = {6, 30, 24, 10, 3, 8, x->box, -5, BISQUEMOP_ALIGN_LEFT, x->vertical, 1, 0, 0};
    len = strlen(x->text);
    lines = lay_text(what, s, (const uint8_t *)x->text, len, table, NUMBERS * (len + 1));
    expect(what, lines == x->lines);
    put_ys(s, ys);
    expect(what, memcmp(ys, x->ys, (size_t)lines * sizeof *ys) == 0);
    make_all(what, s);
    find_all(what);
    refused_settings(what, s);
    wrong_lengths(what);
    s.height = 0;
    s.vertical = BISQUEMOP_VERTICAL_TOP;
    put_ys(s, ys);
    falling_ys(what);
}

/* With the text at the top, a line past the last one writes nothing; elsewhere all is written. */
static void past_the_last(const char *what, struct bisquemop_settings s)
{
    static const uint64_t beyond[] = {0, 1, UINT64_C(0x100000000), UINT64_MAX};
    static int32_t held[MOST], after[MOST];
    size_t n = (size_t)lines;
    for (size_t i = 0; i < sizeof beyond / sizeof beyond[0]; i++) {
        uint64_t first = beyond[i] > UINT64_MAX - lines ? beyond[i] : lines + beyond[i];
        for (size_t k = 0; k < n; k++) {
            held[k] = (int32_t)k - 100;
        }
        memcpy(after, s.vertical == BISQUEMOP_VERTICAL_TOP ? held : ys, n * sizeof *after);
        expect_index_again(what, s, table, NUMBERS * n, lines, first, held, n, BISQUEMOP_OK, lines, after);
    }
}

/* ---- edits by chance */

static unsigned long kept_some, grown, shrunk, joined;

/* The index of the new lines, by one vertical alignment. What it held was the index of the old ones. */
static void index_after(const char *what, struct bisquemop_settings s, uint64_t first, int32_t *old, uint64_t old_lines)
{
    static int32_t after[MOST + 3];
    size_t most = (size_t)(lines > old_lines ? lines : old_lines) + below(3), n = (size_t)lines;
    for (size_t k = (size_t)old_lines; k < most; k++) {
        old[k] = (int32_t)below(1000) - 500;
    }
    put_ys(s, ys);
    expect_index(what, s, table, NUMBERS * n, lines, n, BISQUEMOP_OK, lines, ys);
    memcpy(after, old, most * sizeof *after);
    memcpy(after, ys, n * sizeof *after);
    expect_index_again(what, s, table, NUMBERS * n, lines, first, old, most, BISQUEMOP_OK, lines, after);
    expect_index_again(what, s, table, NUMBERS * n, lines, first, old, n - 1, BISQUEMOP_TOO_SMALL, lines, NULL);
    if (s.vertical == BISQUEMOP_VERTICAL_TOP && first > 0 && first < lines) {
        /* an entry before the first affected line is not written, even if it is wrong */
        old[first - 1] = after[first - 1] = INT32_MIN;
        expect_index_again(what, s, table, NUMBERS * n, lines, first, old, most, BISQUEMOP_OK, lines, after);
        kept_some++;
    }
    found(what, ys[below((uint32_t)lines)] + (int32_t)below(3) - 1);
}

static void one_edit(const char *what, struct bisquemop_settings s)
{
    static int32_t old[3][MOST + 3];
    struct edit e = random_edit(text, len, BYTES, inserted);
    uint64_t first = affected_line(table, lines, e.a), old_lines = lines, laid;
    size_t start = line_number(table, first, BISQUEMOP_LINE_START),
           new_len = put_edited(edited, text, len, e, inserted);
    for (s.vertical = 0; s.vertical < 3; s.vertical++) {
        put_ys(s, old[s.vertical]);
    }
    s.vertical = 0;
    expect(what, bisquemop_settings_lay_again(&s, edited + start, new_len - start, table, NUMBERS * MOST, old_lines,
                                              e.a, e.b, e.inserted, &lines, &laid) == BISQUEMOP_OK);
    memcpy(text, edited, new_len);
    len = new_len;
    grown += lines > old_lines;
    shrunk += lines < old_lines;
    for (s.vertical = 0; s.vertical < 3; s.vertical++) {
        index_after(what, s, first, old[s.vertical], old_lines);
    }
}

static void one_text(const char *what, struct bisquemop_settings s)
{
    len = random_text(text, below(CHARACTERS));
    lines = lay_text(what, s, text, len, table, NUMBERS * (len + 1));
    put_ys(s, ys);
    make_all(what, s);
    find_all(what);
    past_the_last(what, s);
    for (uint64_t k = 0; k + 1 < lines; k++) {
        joined += line_number(table, k, BISQUEMOP_LINE_END) == BISQUEMOP_END_CARRIAGE_RETURN;
    }
    for (int i = 0; i < CHAIN; i++) {
        redraw_heights(&s);
        one_edit(what, s);
    }
}

void test_index(void)
{
    for (size_t i = 0; i < sizeof examples / sizeof examples[0]; i++) {
        char what[64];
        snprintf(what, sizeof what, "index example %lu", (unsigned long)i);
        test_example(what, &examples[i]);
    }
    test_by_chance(107, TEXTS, "and its index", one_text);
    expect_of_all("edits that keep ys, to more lines and to fewer",
                  kept_some > TEXTS && grown > TEXTS && shrunk > TEXTS);
    expect_of_all("lines that are joined", joined > TEXTS / 4);
}
