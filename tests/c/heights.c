/* bisquemop_height and bisquemop_line_y: how high a text is, where each of its lines stands, and whether it shows. */
/* Rule 11. */
#include "harness.h"

#include <stdio.h>
#include <string.h>

#define NUMBERS BISQUEMOP_LINE_NUMBERS
#define MOST 4 /* lines of an example */

/* clang-format off */
#define SHOWN(y) {BISQUEMOP_SHOWS, y}
#define UNSEEN(y) {BISQUEMOP_HIDDEN, y}
/* clang-format on */

/* Spacing 10, paragraph 3, base 8, the top at -5, and five characters to a line. */
static const struct bisquemop_settings plain = {6, 30, 24, 10, 3, 8, 0, -5, BISQUEMOP_ALIGN_LEFT, 0, 1, 0, 0};

/* The box's height, the vertical alignment, a text, its height and its lines. */
struct example {
    uint32_t box, vertical;
    const char *text;
    uint64_t height, lines;
    struct {
        uint64_t showing;
        int32_t y;
    } at[MOST];
};

static const struct example examples[] = {
    {40, 0, "", 8, 1, {SHOWN(-5)}},
    {40, 0, "aa\nbb", 21, 2, {SHOWN(-5), SHOWN(8)}},
    {40, 0, "aa\n", 21, 2, {SHOWN(-5), SHOWN(8)}},
    {40, 0, "\n\n", 34, 3, {SHOWN(-5), SHOWN(8), SHOWN(21)}},
    /* half of 19 in the middle, and 19 at the bottom, where the last line just shows */
    {40, 1, "aa\nbb", 21, 2, {SHOWN(4), SHOWN(17)}},
    {40, 2, "aa\nbb", 21, 2, {SHOWN(14), SHOWN(27)}},
    {21, 1, "aa\nbb", 21, 2, {SHOWN(-5), SHOWN(8)}},
    {21, 2, "aa\nbb", 21, 2, {SHOWN(-5), SHOWN(8)}},
    /* a text higher than the box: half of -1, -3 and -21 toward zero */
    {20, 1, "aa\nbb", 21, 2, {SHOWN(-5), UNSEEN(8)}},
    {18, 1, "aa\nbb", 21, 2, {UNSEEN(-6), UNSEEN(7)}},
    {0, 1, "aa\nbb", 21, 2, {UNSEEN(-15), UNSEEN(-2)}},
    {10, 2, "aa\nbb\ncc", 34, 3, {UNSEEN(-29), UNSEEN(-16), SHOWN(-3)}},
    {10, 0, "aa\nbb\ncc", 34, 3, {SHOWN(-5), UNSEEN(8), UNSEEN(21)}},
    /* a box as high as one line, and one that is lower */
    {8, 0, "aa", 8, 1, {SHOWN(-5)}},
    {8, 2, "aa\nbb", 21, 2, {UNSEEN(-18), SHOWN(-5)}},
    {7, 0, "aa", 8, 1, {UNSEEN(-5)}},
    {7, 2, "aa", 8, 1, {UNSEEN(-6)}},
    {0, 0, "", 8, 1, {UNSEEN(-5)}},
    /* a carriage return keeps the same y */
    {40, 0, "aa\rbb", 8, 2, {SHOWN(-5), SHOWN(-5)}},
    {40, 2, "aa\rbb\ncc", 21, 3, {SHOWN(14), SHOWN(14), SHOWN(27)}},
    /* a full line counts; before an empty last line it counts for that line's y, but not for the height */
    {40, 0, "aaaaab", 18, 2, {SHOWN(-5), SHOWN(5)}},
    {40, 0, "     ab", 8, 2, {SHOWN(-5), SHOWN(5)}},
    {40, 1, "     ab", 8, 2, {SHOWN(11), SHOWN(21)}},
    {40, 2, "     ab", 8, 2, {SHOWN(27), UNSEEN(37)}},
    {40, 0, "     not the baker", 28, 3, {SHOWN(-5), SHOWN(5), SHOWN(15)}},
};

/* The lines of a text, laid into the front of a table with room for one line more. */
static uint32_t table[NUMBERS * (MOST + 1)];

static void lay(const char *what, const struct bisquemop_settings *s, const struct example *x)
{
    uint64_t lines = 0;
    uint32_t number = bisquemop_settings_layout(s, (const uint8_t *)x->text, strlen(x->text), table,
                                                sizeof table / sizeof table[0], &lines);
    expect(what, number == BISQUEMOP_OK && lines == x->lines);
}

/* There is no line from the count on, whatever the table holds there. */
static void no_line(const char *what, struct bisquemop_settings s, size_t len, uint64_t lines)
{
    static const uint64_t beyond[] = {UINT64_C(0xFFFFFFFF), UINT64_C(0x100000000), UINT64_C(0x8000000000000000),
                                      UINT64_MAX};
    expect_y(what, s, table, len, lines, lines, BISQUEMOP_OK, BISQUEMOP_NO_LINE, KEPT);
    expect_y(what, s, table, len, lines, lines + 1, BISQUEMOP_OK, BISQUEMOP_NO_LINE, KEPT);
    for (size_t i = 0; i < sizeof beyond / sizeof beyond[0]; i++) {
        expect_y(what, s, table, len, lines, beyond[i], BISQUEMOP_OK, BISQUEMOP_NO_LINE, KEPT);
    }
}

static void test_example(const char *what, const struct example *x)
{
    struct bisquemop_settings s = plain;
    size_t len = NUMBERS * (size_t)x->lines;
    s.height = x->box;
    s.vertical = x->vertical;
    lay(what, &s, x);
    expect_height(what, s, table, len, x->lines, BISQUEMOP_OK, x->height);
    expect_height(what, s, table, len + 7, x->lines, BISQUEMOP_OK, x->height);
    expect_height(what, s, table, len - 1, x->lines, BISQUEMOP_BAD_LINE, 0);
    for (uint64_t k = 0; k < x->lines; k++) {
        expect_y(what, s, table, len, x->lines, k, BISQUEMOP_OK, x->at[k].showing, x->at[k].y);
        expect_y(what, s, table, len + 7, x->lines, k, BISQUEMOP_OK, x->at[k].showing, x->at[k].y);
        expect_y(what, s, table, len - 1, x->lines, k, BISQUEMOP_BAD_LINE, 0, KEPT);
    }
    no_line(what, s, len, x->lines);
    no_line(what, s, len + NUMBERS, x->lines);
    /* the top moves all lines, and what shows stays */
    s.top = 4096;
    for (uint64_t k = 0; k < x->lines; k++) {
        expect_y(what, s, table, len, x->lines, k, BISQUEMOP_OK, x->at[k].showing, x->at[k].y + 4101);
    }
    s.spacing = s.paragraph = 0;
    expect_height("no spacing", s, table, len, x->lines, BISQUEMOP_OK, 8);
}

void test_heights(void)
{
    for (size_t i = 0; i < sizeof examples / sizeof examples[0]; i++) {
        char what[64];
        snprintf(what, sizeof what, "height example %lu", (unsigned long)i);
        test_example(what, &examples[i]);
    }
}
