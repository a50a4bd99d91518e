/* bisquemop_lay_again: the examples, edits of every kind, tables of every size that matters, long texts. */
/* Refusal 8, laying again. */
#include "examples.h"
#include "harness.h"

#include <string.h>

#define NUMBERS BISQUEMOP_LINE_NUMBERS
#define MOST 4 /* lines of an example */

/* Glyph 6, tab 24, left, leading on. */
static struct bisquemop_settings boxed(uint32_t width, uint32_t wrap)
{
    return laid(6, width, LEFT, 1, wrap);
}

static uint8_t text[BISQUEMOP_TEXT_MAX];
static uint32_t table[NUMBERS * (BISQUEMOP_LINES_MAX + 1)], after[NUMBERS * (BISQUEMOP_LINES_MAX + 1)];

/* Numbers that are none of a line, in so many entries of the table. */
static void clear_lines(size_t entries)
{
    for (size_t i = 0; i < NUMBERS * entries; i++) {
        table[i] = UINT32_C(0x70000000) + (uint32_t)i;
    }
}

/* The table as it is after a call that is done: these lines, and behind them what it held. */
static const uint32_t *holding(const uint32_t *lines, size_t count, size_t table_len)
{
    memcpy(after, table, table_len * sizeof *table);
    memcpy(after, lines, NUMBERS * count * sizeof *table);
    return after;
}

/* Lays again the old lines of the table, in tables that are just large enough, larger, and smaller. */
static void lines_become(const char *what, struct bisquemop_settings s, struct relay given, uint64_t laid,
                         const uint32_t *lines, uint64_t count)
{
    static const size_t more[] = {0, 1, NUMBERS - 1, NUMBERS, 3 * NUMBERS + 5};
    size_t old = NUMBERS * given.lines, need = NUMBERS * count;
    for (size_t i = 0; i < sizeof more / sizeof more[0]; i++) {
        given.table_len = (old < need ? need : old) + more[i];
        expect_again(what, s, &given, BISQUEMOP_OK, count, laid, holding(lines, count, given.table_len));
        given.table_len = old + more[i];
        if (given.table_len < need) {
            expect_refused(what, s, &given, BISQUEMOP_TOO_SMALL, count);
        }
    }
    if (old < need) {
        given.table_len = need - 1;
        expect_refused(what, s, &given, BISQUEMOP_TOO_SMALL, count);
        given.table_len = need - NUMBERS;
        expect_refused(what, s, &given, BISQUEMOP_TOO_SMALL, count);
    }
    given.table_len = old - 1;
    expect_refused(what, s, &given, BISQUEMOP_BAD_LINE, 0);
}

/* A line: start, rest end, rest count, end type, left, space width, extra, width, dropped, reach, characters before. */
struct edit_example {
    const char *what;
    uint32_t width;
    const char *old;
    uint32_t a, b;
    const char *inserted;
    uint64_t first, laid, count;
    uint32_t lines[MOST * NUMBERS];
};

static void test_example(const struct edit_example *x, uint32_t wrap)
{
    struct bisquemop_settings s = boxed(x->width, wrap);
    uint8_t edited[64];
    uint32_t fresh[NUMBERS * MOST];
    size_t old_len = strlen(x->old);
    struct edit e = {x->a, x->b, (uint32_t)strlen(x->inserted)};
    size_t len = put_edited(edited, (const uint8_t *)x->old, old_len, e, (const uint8_t *)x->inserted);

    clear_lines(4 * MOST);
    uint64_t lines = lay_text(x->what, s, (const uint8_t *)x->old, old_len, table, NUMBERS * MOST);
    expect_affected(x->what, table, NUMBERS * lines, lines, e.a, e.b, e.inserted, BISQUEMOP_OK, x->first);
    size_t start = table[NUMBERS * x->first + BISQUEMOP_LINE_START];
    struct relay given = {edited + start, len - start, table, 0, lines, e};
    lines_become(x->what, s, given, x->laid, x->lines, x->count);
    if (given.part_len == 0) {
        given.part = NULL;
        lines_become(x->what, s, given, x->laid, x->lines, x->count);
    }
    expect(x->what, lay_text(x->what, s, edited, len, fresh, sizeof fresh / sizeof fresh[0]) == x->count &&
                        memcmp(fresh, x->lines, NUMBERS * x->count * sizeof *fresh) == 0);
}

/* Edits of texts that drop nothing, and so are laid by both wraps alike. */
static void test_examples(void)
{
    /* clang-format off */
    static const struct edit_example list[] = {
        /* the scope's: "x" put in; "e" taken out, which stands on line 1 and affects line 0 */
        {"the scope's first", 30, "aa\nbb\ncc", 3, 3, "x", 1, 1, 3,
         {0, 0, 0, 0, 0, 6, 0, 12, 0, 3, 0, /**/ 3, 0, 0, 0, 0, 6, 0, 18, 0, 7, 3, /**/
          7, 0, 0, 2, 0, 6, 0, 12, 0, 10, 7}},
        {"the scope's second", 30, "ab cde", 5, 6, "", 0, 1, 1, {0, 0, 0, 2, 0, 6, 0, 30, 0, 6, 0}},

        {"at the start", 30, "aa\nbb\ncc", 0, 0, "x", 0, 1, 3,
         {0, 0, 0, 0, 0, 6, 0, 18, 0, 4, 0, /**/ 4, 0, 0, 0, 0, 6, 0, 12, 0, 7, 4, /**/
          7, 0, 0, 2, 0, 6, 0, 12, 0, 10, 7}},
        {"at the end", 30, "aa\nbb\ncc", 8, 8, "x", 2, 1, 3,
         {0, 0, 0, 0, 0, 6, 0, 12, 0, 3, 0, /**/ 3, 0, 0, 0, 0, 6, 0, 12, 0, 6, 3, /**/
          6, 0, 0, 2, 0, 6, 0, 18, 0, 10, 6}},
        {"the last character", 30, "aa\nbb\ncc", 7, 8, "", 2, 1, 3,
         {0, 0, 0, 0, 0, 6, 0, 12, 0, 3, 0, /**/ 3, 0, 0, 0, 0, 6, 0, 12, 0, 6, 3, /**/
          6, 0, 0, 2, 0, 6, 0, 6, 0, 8, 6}},

        /* nothing: no line is laid where one starts, and else the line that holds the place */
        {"nothing at the start", 30, "aa\nbb\ncc", 0, 0, "", 0, 0, 3,
         {0, 0, 0, 0, 0, 6, 0, 12, 0, 3, 0, /**/ 3, 0, 0, 0, 0, 6, 0, 12, 0, 6, 3, /**/
          6, 0, 0, 2, 0, 6, 0, 12, 0, 9, 6}},
        {"nothing where a line starts", 30, "aa\nbb\ncc", 3, 3, "", 1, 0, 3,
         {0, 0, 0, 0, 0, 6, 0, 12, 0, 3, 0, /**/ 3, 0, 0, 0, 0, 6, 0, 12, 0, 6, 3, /**/
          6, 0, 0, 2, 0, 6, 0, 12, 0, 9, 6}},
        {"nothing within a line", 30, "aa\nbb\ncc", 4, 4, "", 1, 1, 3,
         {0, 0, 0, 0, 0, 6, 0, 12, 0, 3, 0, /**/ 3, 0, 0, 0, 0, 6, 0, 12, 0, 6, 3, /**/
          6, 0, 0, 2, 0, 6, 0, 12, 0, 9, 6}},
        {"nothing at the end", 30, "aa\nbb\ncc", 8, 8, "", 2, 1, 3,
         {0, 0, 0, 0, 0, 6, 0, 12, 0, 3, 0, /**/ 3, 0, 0, 0, 0, 6, 0, 12, 0, 6, 3, /**/
          6, 0, 0, 2, 0, 6, 0, 12, 0, 9, 6}},
        {"nothing at an empty last line", 30, "aa\n", 3, 3, "", 1, 0, 2,
         {0, 0, 0, 0, 0, 6, 0, 12, 0, 3, 0, /**/ 3, 0, 0, 2, 0, 6, 0, 0, 0, 4, 3}},
        {"the same again", 30, "aa\nbb\ncc", 3, 6, "bb\n", 1, 1, 3,
         {0, 0, 0, 0, 0, 6, 0, 12, 0, 3, 0, /**/ 3, 0, 0, 0, 0, 6, 0, 12, 0, 6, 3, /**/
          6, 0, 0, 2, 0, 6, 0, 12, 0, 9, 6}},

        /* everything, and the empty text; an old line that starts at the end is met at once */
        {"everything", 30, "aa\nbb\ncc", 0, 8, "xy", 0, 1, 1, {0, 0, 0, 2, 0, 6, 0, 12, 0, 3, 0}},
        {"everything taken out", 30, "aa\nbb\ncc", 0, 8, "", 0, 1, 1, {0, 0, 0, 2, 0, 6, 0, 0, 0, 1, 0}},
        {"everything but an empty line", 30, "aa\n", 0, 3, "", 0, 0, 1, {0, 0, 0, 2, 0, 6, 0, 0, 0, 1, 0}},
        {"from the empty text", 30, "", 0, 0, "ab", 0, 1, 1, {0, 0, 0, 2, 0, 6, 0, 12, 0, 3, 0}},
        {"from the empty text, with its line behind", 30, "", 0, 0, "ab\n", 0, 1, 2,
         {0, 0, 0, 0, 0, 6, 0, 12, 0, 3, 0, /**/ 3, 0, 0, 2, 0, 6, 0, 0, 0, 4, 3}},
        {"nothing in the empty text", 30, "", 0, 0, "", 0, 0, 1, {0, 0, 0, 2, 0, 6, 0, 0, 0, 1, 0}},

        /* more lines, and fewer */
        {"a line made two", 30, "aa\nbb\ncc", 1, 1, "\n", 0, 2, 4,
         {0, 0, 0, 0, 0, 6, 0, 6, 0, 2, 0, /**/ 2, 0, 0, 0, 0, 6, 0, 6, 0, 4, 2, /**/
          4, 0, 0, 0, 0, 6, 0, 12, 0, 7, 4, /**/ 7, 0, 0, 2, 0, 6, 0, 12, 0, 10, 7}},
        {"a line put before all", 30, "aa\nbb\ncc", 0, 0, "z\n", 0, 1, 4,
         {0, 0, 0, 0, 0, 6, 0, 6, 0, 2, 0, /**/ 2, 0, 0, 0, 0, 6, 0, 12, 0, 5, 2, /**/
          5, 0, 0, 0, 0, 6, 0, 12, 0, 8, 5, /**/ 8, 0, 0, 2, 0, 6, 0, 12, 0, 11, 8}},
        {"three lines for nothing", 30, "aa", 1, 1, "\n\n\n", 0, 4, 4,
         {0, 0, 0, 0, 0, 6, 0, 6, 0, 2, 0, /**/ 2, 0, 0, 0, 0, 6, 0, 0, 0, 3, 2, /**/
          3, 0, 0, 0, 0, 6, 0, 0, 0, 4, 3, /**/ 4, 0, 0, 2, 0, 6, 0, 6, 0, 6, 4}},
        {"two lines made one", 30, "aa\nbb\ncc", 2, 3, "", 0, 1, 2,
         {0, 0, 0, 0, 0, 6, 0, 24, 0, 5, 0, /**/ 5, 0, 0, 2, 0, 6, 0, 12, 0, 8, 5}},
        {"a line taken out", 30, "aa\nbb\ncc", 3, 6, "", 1, 0, 2,
         {0, 0, 0, 0, 0, 6, 0, 12, 0, 3, 0, /**/ 3, 0, 0, 2, 0, 6, 0, 12, 0, 6, 3}},
        {"the first line taken out", 30, "aa\nbb\ncc", 0, 3, "", 0, 0, 2,
         {0, 0, 0, 0, 0, 6, 0, 12, 0, 3, 0, /**/ 3, 0, 0, 2, 0, 6, 0, 12, 0, 6, 3}},
        {"the last lines taken out", 30, "aa\nbb\ncc", 2, 8, "", 0, 1, 1, {0, 0, 0, 2, 0, 6, 0, 12, 0, 3, 0}},

        /* rests: of the first affected line; of a line that is moved; the same start with another rest is not met */
        {"a line with a rest", 18, "abc   d", 7, 7, "e", 1, 2, 3,
         {0, 0, 0, 3, 0, 6, 0, 18, 0, 7, 0, /**/ 4, 6, 2, 3, 0, 6, 0, 18, 0, 9, 4, /**/
          7, 0, 0, 2, 0, 6, 0, 6, 0, 9, 7}},
        {"a rest is moved", 18, "zz\nabc   d", 0, 0, "y", 0, 1, 3,
         {0, 0, 0, 0, 0, 6, 0, 18, 0, 4, 0, /**/ 4, 0, 0, 3, 0, 6, 0, 18, 0, 11, 4, /**/
          8, 10, 2, 2, 0, 6, 0, 18, 0, 12, 8}},
        {"a rest is moved down", 18, "zz\nabc   d", 0, 1, "", 0, 1, 3,
         {0, 0, 0, 0, 0, 6, 0, 6, 0, 2, 0, /**/ 2, 0, 0, 3, 0, 6, 0, 18, 0, 9, 2, /**/
          6, 8, 2, 2, 0, 6, 0, 18, 0, 10, 6}},
        {"another rest", 18, "abc   d", 0, 4, "abc\n", 0, 2, 2,
         {0, 0, 0, 0, 0, 6, 0, 18, 0, 4, 0, /**/ 4, 0, 0, 2, 0, 6, 0, 18, 0, 8, 4}},

        /* characters are counted by themselves: they may change where bytes do not, and otherwise than bytes do */
        {"a character of two bytes", 30, "aa\nbb\ncc", 0, 0, "\xC3\xA9", 0, 1, 3,
         {0, 0, 0, 0, 0, 6, 0, 18, 0, 5, 0, /**/ 5, 0, 0, 0, 0, 6, 0, 12, 0, 8, 4, /**/
          8, 0, 0, 2, 0, 6, 0, 12, 0, 11, 7}},
        {"four characters for one of four bytes", 30, "\xF0\x9F\x98\x80\nbb\ncc", 0, 4, "abcd", 0, 1, 3,
         {0, 0, 0, 0, 0, 6, 0, 24, 0, 5, 0, /**/ 5, 0, 0, 0, 0, 6, 0, 12, 0, 8, 5, /**/
          8, 0, 0, 2, 0, 6, 0, 12, 0, 11, 8}},
        {"one character for four of a byte each", 30, "abcd\nbb\ncc", 0, 4, "\xF0\x9F\x98\x80", 0, 1, 3,
         {0, 0, 0, 0, 0, 6, 0, 6, 0, 5, 0, /**/ 5, 0, 0, 0, 0, 6, 0, 12, 0, 8, 2, /**/
          8, 0, 0, 2, 0, 6, 0, 12, 0, 11, 5}},
        {"a line of long characters taken out", 30, "a\n\xC3\xA9\xE6\xBC\xA2\nbb", 2, 8, "", 1, 0, 2,
         {0, 0, 0, 0, 0, 6, 0, 6, 0, 2, 0, /**/ 2, 0, 0, 2, 0, 6, 0, 12, 0, 5, 2}},
        {"a shorter character, and a longer text", 30, "\xE6\xBC\xA2\nb", 0, 3, "ab\ncd", 0, 2, 3,
         {0, 0, 0, 0, 0, 6, 0, 12, 0, 3, 0, /**/ 3, 0, 0, 0, 0, 6, 0, 12, 0, 6, 3, /**/
          6, 0, 0, 2, 0, 6, 0, 6, 0, 8, 6}},
    };
    /* clang-format on */
    for (size_t i = 0; i < sizeof list / sizeof list[0]; i++) {
        test_example(&list[i], DROP);
        test_example(&list[i], WAIT);
    }
}

/* Edits where a word waits, before or after or both. The numbers come from the rules, by hand. */
static void test_waiting(void)
{
    /* clang-format off */
    static const struct edit_example list[] = {
        {"an indent grows to the box, and a word waits", 30, "    ab", 0, 0, " ", 0, 2, 2,
         {0, 0, 0, 3, 0, 6, 0, 0, 0, 8, 0, /**/ 5, 0, 0, 2, 0, 6, 0, 12, 0, 8, 5}},
        {"an indent shrinks, and the word is begun", 30, "     ab", 0, 1, "", 0, 2, 2,
         {0, 0, 0, 3, 0, 6, 0, 30, 0, 7, 0, /**/ 5, 0, 0, 2, 0, 6, 0, 6, 0, 7, 5}},
        /* the line that the word waits after has looked at it, and is the first affected one */
        {"the word that waits grows", 30, "     ab", 7, 7, "c", 0, 2, 2,
         {0, 0, 0, 3, 0, 6, 0, 0, 0, 9, 0, /**/ 5, 0, 0, 2, 0, 6, 0, 18, 0, 9, 5}},
        {"the word that waits goes", 30, "     ab", 5, 7, "", 0, 1, 1, {0, 0, 0, 2, 0, 6, 0, 0, 0, 6, 0}},
        {"the line of a word that waited is met", 30, "     ab cd\nef", 0, 5, "\n", 0, 1, 3,
         {0, 0, 0, 0, 0, 6, 0, 0, 0, 1, 0, /**/ 1, 0, 0, 0, 0, 6, 0, 30, 0, 7, 1, /**/
          7, 0, 0, 2, 0, 6, 0, 12, 0, 10, 7}},
        {"a word that waits is moved", 30, "xx\n     ab", 0, 0, "y", 0, 1, 3,
         {0, 0, 0, 0, 0, 6, 0, 18, 0, 4, 0, /**/ 4, 0, 0, 3, 0, 6, 0, 0, 0, 12, 4, /**/
          9, 0, 0, 2, 0, 6, 0, 12, 0, 12, 9}},
    };
    /* clang-format on */
    for (size_t i = 0; i < sizeof list / sizeof list[0]; i++) {
        test_example(&list[i], WAIT);
    }
}

/* Tables of no text, which are treated by the same steps. The numbers come from the rules, by hand. */
static void test_no_text(void)
{
    /* clang-format off */
    static const struct {
        const char *what;
        uint64_t lines;
        uint32_t old[3 * NUMBERS];
        const char *part;
        struct edit edit;
        uint64_t laid, count;
        uint32_t now[MOST * NUMBERS];
    } list[] = {
        {"nothing, and the lines stay what they are", 2,
         {0, 0, 0, 3, 7, 7, 7, 7, 7, 1, 0, /**/ 1, 0, 0, 2, 8, 8, 8, 8, 8, 3, 1}, "a", {1, 1, 0}, 0, 2,
         {0, 0, 0, 3, 7, 7, 7, 7, 7, 1, 0, /**/ 1, 0, 0, 2, 8, 8, 8, 8, 8, 3, 1}},
        {"lines before the first affected one stay", 2,
         {0, 0, 0, 3, 7, 7, 7, 7, 7, 1, 0, /**/ 1, 0, 0, 2, 8, 8, 8, 8, 8, 3, 1}, "xa", {1, 1, 1}, 1, 2,
         {0, 0, 0, 3, 7, 7, 7, 7, 7, 1, 0, /**/ 1, 0, 0, 2, 0, 6, 0, 12, 0, 4, 1}},
        {"lines that follow are moved and stay else", 3,
         {0, 0, 0, 3, 7, 7, 7, 7, 7, 1, 0, /**/ 1, 0, 0, 1, 8, 8, 8, 8, 8, 4, 1, /**/
          2, 3, 0, 2, 9, 9, 9, 9, 9, 4, 2},
         "\nabc", {0, 0, 1}, 1, 4,
         {0, 0, 0, 0, 0, 6, 0, 0, 0, 1, 0, /**/ 1, 0, 0, 3, 7, 7, 7, 7, 7, 2, 1, /**/
          2, 0, 0, 1, 8, 8, 8, 8, 8, 5, 2, /**/ 3, 4, 0, 2, 9, 9, 9, 9, 9, 5, 3}},
        /* lines laid count on from the first affected one's own number, and those that follow go by the difference */
        {"three bytes of two characters, before lines that count fewer characters than bytes", 3,
         {0, 0, 0, 3, 7, 7, 7, 7, 7, 4, 0, /**/ 4, 0, 0, 1, 8, 8, 8, 8, 8, 6, 2, /**/
          6, 0, 0, 2, 9, 9, 9, 9, 9, 8, 3},
         "\xC3\xA9\nabcdefg", {0, 0, 3}, 1, 4,
         {0, 0, 0, 0, 0, 6, 0, 6, 0, 3, 0, /**/ 3, 0, 0, 3, 7, 7, 7, 7, 7, 7, 2, /**/
          7, 0, 0, 1, 8, 8, 8, 8, 8, 9, 4, /**/ 9, 0, 0, 2, 9, 9, 9, 9, 9, 11, 5}},
        {"a line that counts three characters, where the old table had one", 3,
         {0, 0, 0, 0, 7, 7, 7, 7, 7, 3, 0, /**/ 3, 0, 0, 0, 8, 8, 8, 8, 8, 5, 1, /**/
          5, 0, 0, 2, 9, 9, 9, 9, 9, 8, 2},
         "xb\ncd", {3, 3, 1}, 1, 3,
         {0, 0, 0, 0, 7, 7, 7, 7, 7, 3, 0, /**/ 3, 0, 0, 0, 0, 6, 0, 12, 0, 6, 1, /**/
          6, 0, 0, 2, 9, 9, 9, 9, 9, 9, 4}},
        {"a line taken out, of which the table had more characters than one that follows", 3,
         {0, 0, 0, 0, 7, 7, 7, 7, 7, 3, 0, /**/ 3, 0, 0, 0, 8, 8, 8, 8, 8, 5, 2, /**/
          5, 0, 0, 2, 9, 9, 9, 9, 9, 8, 5},
         "cd", {3, 5, 0}, 0, 2,
         {0, 0, 0, 0, 7, 7, 7, 7, 7, 3, 0, /**/ 3, 0, 0, 2, 9, 9, 9, 9, 9, 6, 2}},
        /* a rest is a run of as many spaces as it counts, whatever its characters are */
        {"a rest of letters", 2,
         {0, 0, 0, 3, 0, 6, 0, 18, 0, 7, 0, /**/ 4, 6, 2, 2, 0, 6, 0, 18, 0, 8, 3}, "xyde", {7, 7, 1}, 2, 3,
         {0, 0, 0, 3, 0, 6, 0, 18, 0, 7, 0, /**/ 4, 6, 2, 3, 0, 6, 0, 18, 0, 9, 3, /**/
          7, 0, 0, 2, 0, 6, 0, 6, 0, 9, 6}},
        {"a rest of one character", 2,
         {0, 0, 0, 3, 0, 6, 0, 18, 0, 7, 0, /**/ 4, 6, 1, 2, 0, 6, 0, 18, 0, 8, 4}, "\xC2\x85xy", {7, 7, 1}, 1, 2,
         {0, 0, 0, 3, 0, 6, 0, 18, 0, 7, 0, /**/ 4, 6, 1, 2, 0, 6, 0, 18, 0, 9, 4}},
        {"a rest that counts 0", 2,
         {0, 0, 0, 3, 0, 6, 0, 18, 0, 7, 0, /**/ 4, 6, 0, 2, 0, 6, 0, 18, 0, 8, 1}, "  de", {7, 7, 1}, 1, 2,
         {0, 0, 0, 3, 0, 6, 0, 18, 0, 7, 0, /**/ 4, 6, 0, 2, 0, 6, 0, 12, 0, 9, 1}},
    };
    /* clang-format on */
    for (size_t i = 0; i < sizeof list / sizeof list[0]; i++) {
        struct relay given = {
            (const uint8_t *)list[i].part, strlen(list[i].part), table, 0, list[i].lines, list[i].edit};
        clear_lines(4 * MOST);
        memcpy(table, list[i].old, NUMBERS * list[i].lines * sizeof *table);
        lines_become(list[i].what, boxed(18, DROP), given, list[i].laid, list[i].now, list[i].count);
    }
}

/* A line of a text of line feeds only. */
static void put_feed(uint32_t *at, uint32_t k, uint32_t end)
{
    const uint32_t line[NUMBERS] = {k, 0, 0, end, 0, 6, 0, 0, 0, k + 1, k};
    memcpy(at + NUMBERS * k, line, sizeof line);
}

/* Lines of as many line feeds. */
static void put_feeds(uint32_t *at, uint32_t feeds)
{
    for (uint32_t k = 0; k < feeds; k++) {
        put_feed(at, k, BISQUEMOP_END_NEW_LINE);
    }
    put_feed(at, feeds, BISQUEMOP_END_END_OF_TEXT);
}

/* The longest texts: all lines are moved by one byte, or laid, and the largest table is just large enough. */
static void test_long(void)
{
    static uint32_t lines[NUMBERS * BISQUEMOP_LINES_MAX];
    const uint32_t most = BISQUEMOP_TEXT_MAX;
    const size_t room = NUMBERS * BISQUEMOP_LINES_MAX;
    struct bisquemop_settings s = boxed(30, DROP);
    memset(text, '\n', sizeof text);
    clear_lines(BISQUEMOP_LINES_MAX + 1);

    put_feeds(table, most);
    put_feeds(lines, most - 1);
    struct relay given = {text, most - 1, table, room, most + 1, {0, 1, 0}};
    expect_again("the first byte taken out", s, &given, BISQUEMOP_OK, most, 0, holding(lines, most, room));

    struct relay back = {text, most, table, room, most, {0, 0, 1}};
    put_feeds(table, most - 1);
    put_feeds(lines, most);
    expect_again("and put in", s, &back, BISQUEMOP_OK, most + 1, 1, lines);
    back.table_len = room - 1;
    expect_refused("a number too small", s, &back, BISQUEMOP_TOO_SMALL, most + 1);
    back.table_len = room - NUMBERS;
    expect_refused("a line too small", s, &back, BISQUEMOP_TOO_SMALL, most + 1);

    put_feed(table, 0, BISQUEMOP_END_END_OF_TEXT);
    struct relay all = {text, most, table, room, 1, {0, 0, most}};
    expect_again("everything from nothing", s, &all, BISQUEMOP_OK, most + 1, most, lines);
    all.table_len = NUMBERS;
    expect_refused("everything in a line", s, &all, BISQUEMOP_TOO_SMALL, most + 1);

    put_feeds(table, most);
    text[30000] = 'a';
    const uint32_t longer[NUMBERS] = {30000, 0, 0, 0, 0, 6, 0, 6, 0, 30002, 30000};
    struct relay one = {text + 30000, most - 30000, table, room, most + 1, {30000, 30001, 1}};
    memcpy(lines + NUMBERS * 30000, longer, sizeof longer);
    memcpy(lines + NUMBERS * 30001, table + NUMBERS * 30002, NUMBERS * (most - 30001) * sizeof *lines);
    expect_again("a line feed made a letter", s, &one, BISQUEMOP_OK, most, 1, holding(lines, most, room));
    one.edit.b = one.edit.a;
    expect_refused("one byte too long", s, &one, BISQUEMOP_TEXT_TOO_LONG, most + 1);
}

void test_again(void)
{
    test_examples();
    test_waiting();
    test_no_text();
    test_long();
}
