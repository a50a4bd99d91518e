/*
 * bisquemop_columns_fit and bisquemop_columns_plan: whether a text has at most so many lines and loses no character, and
 * the smallest width by which that is so. Both are read off tables here: a text is laid by the width at hand, or by one
 * width after the other. The seed is fixed.
 * Rule 10, refusal 1, refusal 2, refusal 3, refusal 4.
 */
#include "chance.h"
#include "examples.h"
#include "harness.h"
#include "long_texts.h"
#include "rules.h"

#include <stdio.h>
#include <string.h>

#define NUMBERS BISQUEMOP_LINE_NUMBERS
#define TEXTS share_of(4000)
#define PLANS share_of(150)
#define CHARACTERS 40 /* of a text */
#define BYTES (4 * CHARACTERS)
#define MOST (BYTES + 1) /* lines of a text */

static uint8_t text[BYTES];
static size_t len;

/* ---- rule 10, once more */

/* A text's lines by some settings, and whether none of them drops anything. */
struct fitted {
    uint64_t lines;
    int whole;
};

static struct fitted fitted_in(const uint32_t *table, uint64_t lines)
{
    struct fitted f = {lines, 1};
    for (uint64_t k = 0; k < lines; k++) {
        f.whole = f.whole && line_number(table, k, BISQUEMOP_LINE_DROPPED) == 0;
    }
    return f;
}

static struct fitted fitted_by(struct bisquemop_settings s, const uint8_t *of, size_t bytes)
{
    static uint32_t table[NUMBERS * MOST];
    uint64_t lines = 0;
    if (bisquemop_settings_layout(&s, of, bytes, table, NUMBERS * MOST, &lines) != BISQUEMOP_OK) {
        expect("the tests' own text is laid", 0);
    }
    return fitted_in(table, lines);
}

static int fits(struct bisquemop_settings s, const uint8_t *of, size_t bytes, uint32_t h)
{
    struct fitted f = fitted_by(s, of, bytes);
    return f.lines <= h && f.whole;
}

/* Every width from 0 on, until one is good. */
static uint64_t smallest_width(struct bisquemop_settings s, const uint8_t *of, size_t bytes, uint32_t h)
{
    for (s.width = 0; s.width <= BISQUEMOP_WIDTH_MAX; s.width++) {
        if (fits(s, of, bytes, h)) {
            return s.width;
        }
    }
    return BISQUEMOP_NONE;
}

/* The width that is planned, whatever width the settings have, if it is one. */
static void plan(const char *what, struct bisquemop_settings s, const uint8_t *of, size_t bytes, uint32_t h,
                 uint64_t width)
{
    static const uint32_t widths[] = {0, 1, 30, BISQUEMOP_WIDTH_MAX};
    s.width = below(2) ? widths[below(4)] : s.width;
    expect_plan(what, s, of, bytes, h, BISQUEMOP_OK, width);
    s.width = BISQUEMOP_WIDTH_MAX + 1 + below(2);
    expect_plan(what, s, of, bytes, h, BISQUEMOP_SETTING_OUT_OF_RANGE, 0);
}

/* ---- examples */

/* clang-format off */
static const struct {
    uint32_t glyph, alignment, wrap;
    const char *text;
    uint32_t h;
    uint64_t width;
} planned[] = {
    /* a text of nothing has its one line in no room at all */
    {6, LEFT, DROP, "", 1, 0},
    {6, RIGHT, WAIT, "", UINT32_MAX, 0},
    /* one line, two, and a letter on each */
    {6, LEFT, DROP, "ab cde", 1, 36},
    {6, LEFT, DROP, "ab cde", 2, 18},
    {6, LEFT, DROP, "ab cde", UINT32_MAX, 6},
    /* a line feed makes a line in every box, and so does the text's end behind one */
    {6, LEFT, DROP, "a\nb", 1, BISQUEMOP_NONE},
    {6, LEFT, DROP, "a\nb", 2, 6},
    {6, CENTRE, WAIT, "a\n", 1, BISQUEMOP_NONE},
    {6, CENTRE, WAIT, "a\n", 2, 6},
    /* the clue that lost a streak: by the old rule it has three lines in a box of 30 too, but "not" is dropped there */
    {6, LEFT, DROP, "     not the baker", 3, 36},
    {6, LEFT, WAIT, "     not the baker", 4, 30},
    /* a carriage return, and characters of several bytes, each one glyph wide */
    {6, LEFT, DROP, "a\rbc", 2, 12},
    {10, LEFT, DROP, "\xC3\xA9\xE3\x81\x82\xF0\x9F\x98\x80", 1, 30},
    /* soft hyphens: with the "-" or without it */
    {6, LEFT, DROP, "ab\xC2\xAD" "cd", 1, 24},
    {6, LEFT, DROP, "ab\xC2\xAD" "cd", 2, 18},
    /* a tab, and one in a line to the right, where a wider box has more lines */
    {6, LEFT, DROP, "a\tb", 1, 30},
    {6, RIGHT, DROP, "a\ta", 1, 30},
};
/* clang-format on */

static void test_planned(void)
{
    for (size_t i = 0; i < sizeof planned / sizeof planned[0]; i++) {
        const uint8_t *of = (const uint8_t *)planned[i].text;
        size_t bytes = strlen(planned[i].text);
        struct bisquemop_settings s = laid(planned[i].glyph, 0, planned[i].alignment, 1, planned[i].wrap);
        char what[64];
        snprintf(what, sizeof what, "width %lu", (unsigned long)i);
        expect(what, smallest_width(s, of, bytes, planned[i].h) == planned[i].width);
        plan(what, s, of, bytes, planned[i].h, planned[i].width);
        /* the call that checks a width says no to all below, and yes to this one */
        for (s.width = 0; s.width < planned[i].width && s.width <= BISQUEMOP_WIDTH_MAX; s.width++) {
            expect_fit(what, s, of, bytes, planned[i].h, BISQUEMOP_OK, 0);
        }
        if (planned[i].width != BISQUEMOP_NONE) {
            expect_fit(what, s, of, bytes, planned[i].h, BISQUEMOP_OK, 1);
        }
    }
}

/* A word that is as wide as the widest box, and one that is wider. */
static void test_widest(void)
{
    uint8_t word[65];
    struct bisquemop_settings s = laid(64, 7, LEFT, 1, WAIT);
    memset(word, 'a', sizeof word);
    plan("the widest box", s, word, 64, 1, BISQUEMOP_WIDTH_MAX);
    plan("none is wide enough", s, word, 65, 1, BISQUEMOP_NONE);
    plan("two lines of it", s, word, 65, 2, 33 * 64);
    s.alignment = RIGHT;
    plan("the widest box, to the right", s, word, 64, 1, BISQUEMOP_WIDTH_MAX);
    plan("none is wide enough, to the right", s, word, 65, 1, BISQUEMOP_NONE);
}

/* That a wider box has no more lines is not so: "a", tab, "a" to the right has one line in a box of 30, two in one of 48,
   and one again in one of 54. */
static void test_wider(void)
{
    static const uint8_t of[] = "a\ta";
    static const struct {
        uint32_t width;
        uint64_t lines;
    } boxes[] = {{29, 2}, {30, 1}, {47, 1}, {48, 2}, {53, 2}, {54, 1}, {71, 1}, {72, 2}};
    for (size_t i = 0; i < sizeof boxes / sizeof boxes[0]; i++) {
        struct bisquemop_settings s = laid(6, boxes[i].width, RIGHT, 1, DROP);
        struct fitted f = fitted_by(s, of, 3);
        expect("a wider box with more lines", f.lines == boxes[i].lines && f.whole);
        expect_fit("a wider box with more lines", s, of, 3, 1, BISQUEMOP_OK, boxes[i].lines == 1);
        expect_fit("a wider box with more lines", s, of, 3, 2, BISQUEMOP_OK, 1);
    }
}

/* ---- refused */

static void test_unlaid(const struct unlaid *x, size_t table_room, size_t events_room)
{
    (void)table_room;
    (void)events_room;
    expect_fit(x->what, x->settings, x->text, x->len, 1, x->number, x->value);
    expect_plan(x->what, x->settings, x->text, x->len, 1, x->number, x->value);
    expect_fit(x->what, x->settings, x->text, x->len, UINT32_MAX, x->number, x->value);
    expect_plan(x->what, x->settings, x->text, x->len, UINT32_MAX, x->number, x->value);
    expect_fit(x->what, x->settings, x->text, x->len, 0, BISQUEMOP_SETTING_OUT_OF_RANGE, 0);
    expect_plan(x->what, x->settings, x->text, x->len, 0, BISQUEMOP_SETTING_OUT_OF_RANGE, 0);
}

static void test_no_lines(void)
{
    struct bisquemop_settings s = laid(6, 30, LEFT, 1, DROP);
    expect_fit("no lines", s, NULL, 0, 0, BISQUEMOP_SETTING_OUT_OF_RANGE, 0);
    expect_plan("no lines", s, (const uint8_t *)"a", 1, 0, BISQUEMOP_SETTING_OUT_OF_RANGE, 0);
    s.alignment = JUSTIFIED + 1;
    expect_fit("no lines, before settings", s, NULL, 0, 0, BISQUEMOP_SETTING_OUT_OF_RANGE, 0);
    expect_plan("no lines, before settings", s, NULL, 0, 0, BISQUEMOP_SETTING_OUT_OF_RANGE, 0);
}

/* ---- the longest texts */

static void test_long_text(const struct long_text *x)
{
    struct fitted f = fitted_in(x->lines, x->count);
    const uint32_t lines = (uint32_t)x->count;
    expect_fit(x->what, x->settings, x->text, sizeof x->text, lines, BISQUEMOP_OK, f.whole);
    expect_fit(x->what, x->settings, x->text, sizeof x->text, UINT32_MAX, BISQUEMOP_OK, f.whole);
    if (lines > 1) {
        expect_fit(x->what, x->settings, x->text, sizeof x->text, lines - 1, BISQUEMOP_OK, 0);
    }
}

/* ---- by chance */

/* How often a text fits, has too many lines, and drops something in as many as it may have. */
static unsigned long yes, too_many, dropping;

static void one_fit(const char *what, struct bisquemop_settings s)
{
    len = random_text(text, below(CHARACTERS));
    struct fitted f = fitted_by(s, text, len);
    const uint32_t lines = (uint32_t)f.lines,
                   limits[] = {1, 2, lines, lines + 1, lines - 1, 1 + below(lines), UINT32_MAX};
    for (size_t i = 0; i < sizeof limits / sizeof limits[0]; i++) {
        if (limits[i] > 0) {
            int good = f.lines <= limits[i] && f.whole;
            expect_fit(what, s, text, len, limits[i], BISQUEMOP_OK, (uint64_t)good);
            yes += (unsigned long)good;
            too_many += f.lines > limits[i];
            dropping += f.lines <= limits[i] && !f.whole;
        }
    }
}

/* How often there is a width and none, and how often one that is not as wide as some glyphs; left aligned texts without
   tabs, where only such widths matter, and others. */
static unsigned long found, none, between, plain, others;

static void one_plan(const char *what, struct bisquemop_settings s)
{
    len = random_text(text, 1 + below(CHARACTERS - 1));
    int is_plain = (int)below(2);
    for (size_t i = 0; is_plain && i < len; i++) {
        s.alignment = LEFT;
        text[i] = text[i] == '\t' ? ' ' : text[i];
    }
    struct fitted f = fitted_by(s, text, len);
    const uint32_t limits[] = {1 + below(4), 1 + below((uint32_t)f.lines)};
    for (size_t i = 0; i < sizeof limits / sizeof limits[0]; i++) {
        uint64_t width = smallest_width(s, text, len, limits[i]);
        plan(what, s, text, len, limits[i], width);
        found += width != BISQUEMOP_NONE;
        none += width == BISQUEMOP_NONE;
        between += width != BISQUEMOP_NONE && width % s.glyph != 0;
        plain += (unsigned long)is_plain;
        others += (unsigned long)!is_plain;
    }
}

void test_columns(void)
{
    test_planned();
    test_widest();
    test_wider();
    each_unlaid(test_unlaid, 0, 0);
    test_no_lines();
    each_long_text(test_long_text);
    test_by_chance(114, TEXTS, "and whether it fits", one_fit);
    expect_of_all("texts that fit, that have too many lines and that drop something",
                  yes > TEXTS && too_many > TEXTS && dropping > TEXTS / 8);
    test_by_chance(115, PLANS, "and a width for it", one_plan);
    expect_of_all("widths found and none, some between glyphs, of plain texts and others",
                  found > PLANS / 2 && none > PLANS / 4 && between > 0 && plain > PLANS / 2 && others > PLANS / 2);
}
