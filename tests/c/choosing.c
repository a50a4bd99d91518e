/*
 * bisquemop_choose: the long text if it has at most so many lines, else the beginning of the short one that so many
 * lines take. Both texts are laid here, and the choice is read off their tables; left-out characters are counted byte
 * by byte. The seed is fixed.
 * Rule 10, refusal 1, refusal 2, refusal 3, refusal 4.
 */
#include "chance.h"
#include "examples.h"
#include "harness.h"
#include "long_texts.h"
#include "rules.h"

#include <stdio.h>
#include <string.h>

#define NUMBERS BISQUEMOP_LINE_NUMBERS
#define TEXTS share_of(4000)
#define CHARACTERS 60 /* of a text */
#define BYTES (4 * CHARACTERS)
#define MOST (BYTES + 1) /* lines of a text */

static const struct two_texts nothing = {NULL, 0, NULL, 0};

static struct two_texts two(const char *long_text, const char *short_text)
{
    struct two_texts t = {(const uint8_t *)long_text, strlen(long_text), (const uint8_t *)short_text,
                          strlen(short_text)};
    return t;
}

/* ---- examples */

struct choice {
    uint32_t width, h;
    const char *long_text, *short_text;
    uint64_t part;
    uint32_t which;
    uint64_t left_out;
};

enum { WHOLE = BISQUEMOP_LONG_TEXT, SHORT };

static const struct choice choices[] = {
    /* the long text at exactly its two lines, and with room to spare */
    {30, 2, "ab cde", "x", 6, WHOLE, 0},
    {30, 3, "ab cde", "x", 6, WHOLE, 0},
    {30, UINT32_MAX, "ab cde", "x", 6, WHOLE, 0},
    /* one line too few for it: the short text whole, an empty one too */
    {30, 1, "ab cde", "ab", 2, SHORT, 0},
    {30, 1, "ab cde", "", 0, SHORT, 0},
    /* no text at all has a line, which is one */
    {30, 1, "", "ab", 0, WHOLE, 0},
    /* an empty last line counts as any */
    {30, 1, "ab\n", "x", 1, SHORT, 0},
    {30, 2, "ab\n", "x", 3, WHOLE, 0},
    {30, 1, "ab cde", "x\n", 2, SHORT, 0},
    /* a short text that has more lines than the long one */
    {30, 1, "ab\ncd", "a\nb\nc", 2, SHORT, 3},
    {30, 2, "ab\ncd\nef", "a\nb\nc\nd", 4, SHORT, 3},
    {30, 2, "ab\ncd", "a\nb\nc\nd", 5, WHOLE, 0},
    /* its first line takes "e' ", of three bytes, and three characters of four bytes are left out */
    {12, 1, "ab cde", "\xC3\xA9 bc\xC3\xA9", 3, SHORT, 3},
    {12, 1, "ab cde", "a\n\xF0\x9F\x98\x80\xE3\x81\x82\xC3\xA9", 2, SHORT, 3},
    /* a word that is broken between characters of three bytes, and of four */
    {12, 1, "ab cde", "\xE3\x81\x82\xE3\x81\x84\xE3\x81\x86", 6, SHORT, 1},
    {6, 2, "ab cde", "\xF0\x9F\x98\x80\xF0\x9F\x98\x81\xF0\x9F\x98\x82\xF0\x9F\x98\x83", 8, SHORT, 2},
    /* a space run that its last line cuts: two of three spaces are left out */
    {18, 1, "ab cde", "abc   d", 4, SHORT, 3},
    /* what a line drops is in the part */
    {30, 1, "ab cde", "     ab cd", 7, SHORT, 3},
};

static void test_choices(void)
{
    for (size_t i = 0; i < sizeof choices / sizeof choices[0]; i++) {
        const struct choice *x = &choices[i];
        struct two_texts given = two(x->long_text, x->short_text);
        char what[64];
        snprintf(what, sizeof what, "choice %lu", (unsigned long)i);
        expect_choice(what, laid(6, x->width, LEFT, 1, DROP), &given, x->h, x->part, x->which, x->left_out);
    }
    expect_choice("two texts of nothing, lent as NULL", laid(6, 30, LEFT, 1, DROP), &nothing, 1, 0, WHOLE, 0);
}

/* ---- refused */

/* The order: the limit, the settings, the long text's length and bytes, and then the short one's. */
static void test_order(void)
{
    static uint8_t long_one[BISQUEMOP_TEXT_MAX + 1], longer[BISQUEMOP_TEXT_MAX + 2];
    static const uint8_t bad[] = {'a', 'b', 0xC3}, worse[] = {0xFF, 'a'};
    struct bisquemop_settings good = laid(6, 30, JUSTIFIED, 1, WAIT), unknown = good, both;
    const struct two_texts too_long = {long_one, sizeof long_one, longer, sizeof longer};
    const struct two_texts too_long_and_bad = {longer, sizeof longer, worse, sizeof worse};
    const struct two_texts bad_and_too_long = {bad, sizeof bad, longer, sizeof longer};
    const struct two_texts bad_and_worse = {bad, sizeof bad, worse, sizeof worse};
    const struct two_texts good_and_too_long = {bad, 2, longer, sizeof longer};
    const struct two_texts good_and_worse = {bad, 2, worse, sizeof worse};
    const struct two_texts nothing_and_bad = {NULL, 0, bad, sizeof bad};
    memset(long_one, 'a', sizeof long_one);
    memset(longer, 0xFF, sizeof longer);
    unknown.alignment = JUSTIFIED + 1;
    both = unknown;
    both.glyph = BISQUEMOP_GLYPH_MAX + 1;
    expect_no_choice("no lines, before settings", unknown, &too_long, 0, BISQUEMOP_SETTING_OUT_OF_RANGE, 0);
    expect_no_choice("no lines, before texts", good, &bad_and_worse, 0, BISQUEMOP_SETTING_OUT_OF_RANGE, 0);
    expect_no_choice("no lines, and all else good", good, &nothing, 0, BISQUEMOP_SETTING_OUT_OF_RANGE, 0);
    expect_no_choice("a setting before an alignment", both, &too_long, 1, BISQUEMOP_SETTING_OUT_OF_RANGE, 0);
    expect_no_choice("an alignment before texts", unknown, &too_long, 1, BISQUEMOP_UNKNOWN_ALIGNMENT, 4);
    expect_no_choice("both too long", good, &too_long, 1, BISQUEMOP_TEXT_TOO_LONG, sizeof long_one);
    expect_no_choice("too long and not UTF-8, both", good, &too_long_and_bad, 1, BISQUEMOP_TEXT_TOO_LONG,
                     sizeof longer);
    expect_no_choice("not UTF-8 before too long", good, &bad_and_too_long, 1, BISQUEMOP_NOT_UTF8, 2);
    expect_no_choice("both not UTF-8", good, &bad_and_worse, 1, BISQUEMOP_NOT_UTF8, 2);
    /* the short text is looked at though the long one is chosen */
    expect_no_choice("the short text too long", good, &good_and_too_long, 1, BISQUEMOP_TEXT_TOO_LONG, sizeof longer);
    expect_no_choice("the short text not UTF-8", good, &good_and_worse, UINT32_MAX, BISQUEMOP_NOT_UTF8, 0);
    expect_no_choice("nothing, and not UTF-8", good, &nothing_and_bad, 1, BISQUEMOP_NOT_UTF8, 2);
}

/* Settings and texts that no call lays, as the long text beside a good one, and as the short one. A limit of no lines
   comes before all of them. */
static void test_unlaid(const struct unlaid *x, size_t table_room, size_t events_room)
{
    static const uint8_t good[] = "a b";
    const struct two_texts first = {x->text, x->len, good, 3}, second = {good, 3, x->text, x->len};
    const struct two_texts twice = {x->text, x->len, x->text, x->len};
    (void)table_room;
    (void)events_room;
    expect_no_choice(x->what, x->settings, &first, 1, x->number, x->value);
    expect_no_choice(x->what, x->settings, &second, UINT32_MAX, x->number, x->value);
    expect_no_choice(x->what, x->settings, &twice, 2, x->number, x->value);
    expect_no_choice(x->what, x->settings, &twice, 0, BISQUEMOP_SETTING_OUT_OF_RANGE, 0);
}

/* ---- the choice, once more */

/* What so many lines take of a text, by its table. */
static size_t taken(const uint32_t *table, uint64_t lines, size_t len, uint32_t h)
{
    return lines <= h ? len : line_number(table, h, BISQUEMOP_LINE_START);
}

/* How often each text was chosen, the short one whole and in part; and parts after which a character of several bytes
   is left out. */
static unsigned long long_ones, whole_ones, parts, many_bytes;

static void choose(const char *what, struct bisquemop_settings s, const struct two_texts *t,
                   const uint32_t *short_table, uint64_t long_lines, uint64_t short_lines, uint32_t h)
{
    size_t part = taken(short_table, short_lines, t->short_len, h);
    uint32_t left_out = characters_in(t->short_text + part, t->short_len - part);
    if (long_lines <= h) {
        expect_choice(what, s, t, h, t->long_len, WHOLE, 0);
        long_ones++;
        return;
    }
    expect_choice(what, s, t, h, part, SHORT, left_out);
    expect(what, part == t->short_len || (t->short_text[part] & 0xC0) != 0x80);
    whole_ones += part == t->short_len;
    parts += part < t->short_len;
    many_bytes += left_out < t->short_len - part;
}

/* By the limits at which another text is chosen or another part, and by some others. */
static void one_pair(const char *what, struct bisquemop_settings s)
{
    static uint8_t long_text[BYTES], short_text[BYTES];
    static uint32_t table[NUMBERS * MOST];
    struct two_texts t = {long_text, random_text(long_text, below(CHARACTERS)), short_text, 0};
    t.short_len = random_text(short_text, below(CHARACTERS));
    uint32_t long_lines = (uint32_t)lay_text(what, s, long_text, t.long_len, table, NUMBERS * MOST);
    uint32_t short_lines = (uint32_t)lay_text(what, s, short_text, t.short_len, table, NUMBERS * MOST);
    const uint32_t limits[] = {
        1,         2, 1 + below(long_lines), long_lines, long_lines + 1, long_lines - 1, short_lines, short_lines - 1,
        UINT32_MAX};
    for (size_t i = 0; i < sizeof limits / sizeof limits[0]; i++) {
        if (limits[i] > 0) {
            choose(what, s, &t, table, long_lines, short_lines, limits[i]);
        }
    }
}

/* A text as long as may be, as both texts. */
static void test_long_text(const struct long_text *x)
{
    const struct two_texts t = {x->text, sizeof x->text, x->text, sizeof x->text};
    const uint32_t lines = (uint32_t)x->count, limits[] = {1, 2, lines / 2 + 1, lines, UINT32_MAX, lines - 1};
    for (size_t i = 0; i < sizeof limits / sizeof limits[0]; i++) {
        if (limits[i] > 0) {
            choose(x->what, x->settings, &t, x->lines, lines, lines, limits[i]);
        }
    }
}

void test_choosing(void)
{
    expect("the numbers of the texts", BISQUEMOP_LONG_TEXT == 0 && BISQUEMOP_SHORT_TEXT == 1);
    test_choices();
    test_order();
    each_unlaid(test_unlaid, 0, 0);
    each_long_text(test_long_text);
    test_by_chance(110, TEXTS, "and another to choose from", one_pair);
    expect_of_all("long texts, short ones, parts, and characters of several bytes left out",
                  long_ones > TEXTS && whole_ones > TEXTS && parts > TEXTS && many_bytes > TEXTS);
}
