/*
 * bisquemop_lay_again: every refusal of settings, parts and edits, and which comes first. Bad tables are in tables.c,
 * and tables that are too small in again.c. Each setting is tried in bisquemop_open, bisquemop_one_line, bisquemop_choose,
 * bisquemop_pages, bisquemop_columns_fit and bisquemop_columns_plan, too; their other refusals are in bad_starts.c,
 * choosing.c, pages.c and columns.c.
 * Refusal 1, refusal 2, refusal 3, refusal 4, refusal 5, refusal 6.
 */
#include "harness.h"
#include "rules.h"

#include <string.h>

#define NUMBERS BISQUEMOP_LINE_NUMBERS

/* Three characters to a line. */
static const struct bisquemop_settings plain = {
    6, 18, 24, 10, 3, 8, 40, 0, BISQUEMOP_ALIGN_LEFT, BISQUEMOP_VERTICAL_TOP, 1, 0, 0};

/* The two lines of "abc   d", of which the second has a rest of two bytes, and room for more. */
static const uint32_t table[12 * NUMBERS] = {0, 0, 0, 3, 0, 6, 0, 18, 0, 7, 0, /**/ 4, 6, 2, 2, 0, 6, 0, 18, 0, 8, 4};

/* A refusal comes after those of settings, and tables of each size are refused for the same. */
static void expect_after_settings(const char *what, struct relay given, uint32_t number, uint64_t value)
{
    static const size_t rooms[] = {2 * NUMBERS, 2 * NUMBERS + 1, 3 * NUMBERS, sizeof table / sizeof table[0]};
    for (size_t i = 0; i < sizeof rooms / sizeof rooms[0]; i++) {
        struct bisquemop_settings s = plain;
        given.table_len = rooms[i];
        expect_refused(what, s, &given, number, value);
        s.vertical = 3;
        expect_refused(what, s, &given, BISQUEMOP_UNKNOWN_ALIGNMENT, 3);
        s.alignment = UINT32_MAX;
        expect_refused(what, s, &given, BISQUEMOP_UNKNOWN_ALIGNMENT, UINT32_MAX);
        s.trailing = 1;
        expect_refused(what, s, &given, BISQUEMOP_SETTING_OUT_OF_RANGE, 0);
        s.trailing = 0;
        s.glyph = 65;
        expect_refused(what, s, &given, BISQUEMOP_SETTING_OUT_OF_RANGE, 0);
    }
}

/* Refusals 3 to 6 of the part and the edit. Where two apply, the one with the lower number is given. */
static void test_refusals(void)
{
    static const struct {
        const char *what, *part;
        struct edit edit;
        uint32_t number;
        uint64_t value;
    } list[] = {
        {"the whole too long", "  d", {7, 7, 65529}, 3, 65536},
        {"the whole too long, nothing lent", "", {7, 7, 65529}, 3, 65536},
        {"the whole too long and not UTF-8", "\xFF", {7, 7, 65529}, 3, 65536},
        {"the whole too long and a bad rest", "\xC3\xA9", {7, 7, 65529}, 3, 65536},
        {"the whole as long as may be, and not lent", "  d", {7, 7, 65528}, 6, 0},
        {"the whole replaced by too much", "", {0, 7, 65536}, 3, 65536},
        {"the whole much too long", "", {0, 0, UINT32_MAX}, 3, UINT64_C(4294967302)},
        {"the whole replaced by much too much", "", {0, 7, UINT32_MAX}, 3, UINT32_MAX},
        /* no length is told of an edit that is malformed */
        {"a above b, and too much", "  d", {7, 6, UINT32_MAX}, 6, 0},
        {"a above b, too much, not UTF-8", "  \xFF", {7, 6, UINT32_MAX}, 4, 2},
        {"b past the text, and too much", "  d", {7, 8, UINT32_MAX}, 6, 0},

        {"not UTF-8", "  d\x80", {7, 7, 1}, 4, 3},
        {"a character cut", "  \xE3\x80", {7, 7, 1}, 4, 2},
        {"not UTF-8, and a bad rest", "\xC3\xA9\xFFx", {7, 7, 1}, 4, 2},
        {"not UTF-8, and the rest past it", "\xFF", {7, 7, 1}, 4, 0},
        {"not UTF-8, and a bad edit", "abc\xC0", {1, 0, 0}, 4, 3},

        {"a rest that ends within a character", "\xE3\x80\x80x", {7, 7, 1}, 5, 1},
        {"a rest that ends past the part", " ", {7, 7, 1}, 5, 1},
        {"a rest of nothing lent", "", {7, 7, 1}, 5, 1},
        {"a rest that counts too much", "\xC2\x85xy", {7, 7, 1}, 5, 1},
        {"a bad rest, and the length wrong", "\xC2\x85x", {7, 7, 1}, 5, 1},
        {"a bad rest, and a above b", "\xC2\x85x", {7, 0, 1}, 5, 1},
        {"a bad rest, and b past the text", "\xC2\x85x", {7, UINT32_MAX, UINT32_MAX}, 5, 1},
        {"a bad rest, and a within a character", "\xF0\x9F\x98\x80", {7, 7, 1}, 5, 1},
        /* another line is the first affected one, or none is */
        {"a bad rest of another line", "\xC2\x85", {0, 7, 1}, 6, 0},
        {"a past the text, and no line affected", "\xC2\x85x", {8, 8, 1}, 6, 0},

        {"a above b", "  d", {7, 6, 0}, 6, 0},
        {"b past the text", "  d", {7, 8, 0}, 6, 0},
        {"a and b past the text", "  d", {8, 8, 0}, 6, 0},
        {"a byte too few", "  d", {7, 7, 1}, 6, 0},
        {"a byte too many", "  def", {7, 7, 1}, 6, 0},
        {"the old length", "abc   d", {0, 0, 1}, 6, 0},
        {"the whole lent, and not from the line on", "abc   de", {7, 7, 1}, 6, 0},
        {"nothing lent", "", {0, 0, 1}, 6, 0},
        {"a within a character", "\xC3\xA9yz   d", {1, 1, 1}, 6, 0},
        {"a within a character, behind the rest", "  \xC3\xA9", {7, 7, 1}, 6, 0},
        {"the inserted end within a character", "\xC3\xA9yz   d", {0, 0, 1}, 6, 0},
        {"both within characters", "\xE3\x80\x80z   d", {1, 1, 1}, 6, 0},
        {"all inserted but the last byte", "ab\xC3\xA9", {0, 6, 3}, 6, 0},
    };
    for (size_t i = 0; i < sizeof list / sizeof list[0]; i++) {
        struct relay given = {(const uint8_t *)list[i].part, strlen(list[i].part), table, 2 * NUMBERS, 2, list[i].edit};
        struct refused second = refused_before(&given);
        expect(list[i].what, second.number == list[i].number && second.value == list[i].value);
        expect_after_settings(list[i].what, given, list[i].number, list[i].value);
        if (given.part_len == 0) {
            given.part = NULL;
            expect_after_settings(list[i].what, given, list[i].number, list[i].value);
        }
    }
}

/* A lent part over 65,535 bytes comes before all else that it is lent. */
static void test_long_parts(void)
{
    static uint8_t part[2 * BISQUEMOP_TEXT_MAX];
    static const size_t lengths[] = {65536, 65537, sizeof part};
    static const struct edit edits[] = {{7, 7, 65533}, {7, 7, UINT32_MAX}, {1, 0, 0}, {UINT32_MAX, UINT32_MAX, 0}};
    for (size_t i = 0; i < sizeof lengths / sizeof lengths[0]; i++) {
        for (size_t j = 0; j < sizeof edits / sizeof edits[0]; j++) {
            struct relay given = {part, lengths[i], table, 0, 2, edits[j]};
            memset(part, ' ', sizeof part);
            expect_after_settings("a part too long", given, BISQUEMOP_TEXT_TOO_LONG, lengths[i]);
            part[0] = 0xFF;
            expect_after_settings("a part too long and not UTF-8", given, BISQUEMOP_TEXT_TOO_LONG, lengths[i]);
            given.lines = 1;
            expect_after_settings("a part too long and a bad table", given, BISQUEMOP_TEXT_TOO_LONG, lengths[i]);
        }
    }
}

/* Numbers of 32 bits that would be small if sums and differences were cut. */
static void test_extremes(void)
{
    static const uint32_t ends[] = {0,          1,          4,          6,          7,          8,
                                    65535,      65536,      0x7FFFFFFF, 0x80000000, 0xFFFF0000, 0xFFFFFFF8,
                                    0xFFFFFFF9, 0xFFFFFFFA, 0xFFFFFFFE, UINT32_MAX};
    static const char *parts[] = {"", "  d", "  de", "abc   d", "abc   de", "\xC2\x85xy", "  \xFF"};
    const size_t count = sizeof ends / sizeof ends[0];
    for (size_t i = 0; i < count * count * count; i++) {
        struct edit e = {ends[i % count], ends[i / count % count], ends[i / count / count]};
        for (size_t j = 0; j < sizeof parts / sizeof parts[0]; j++) {
            struct relay given = {(const uint8_t *)parts[j], strlen(parts[j]), table, 2 * NUMBERS, 2, e};
            struct refused r = refused_before(&given);
            if (r.number != BISQUEMOP_OK) {
                expect_refused("32 bits", plain, &given, r.number, r.value);
            }
        }
    }
}

/* Settings by which nothing is laid again, no line laid, no text chosen, no page listed and no width tried. */
static void expect_settings_refused(const char *what, struct bisquemop_settings s, uint32_t number, uint64_t value)
{
    static const uint8_t part[] = "  de";
    const struct relay given = {part, 4, table, 3 * NUMBERS, 2, {7, 7, 1}};
    const struct stand good = {2, 0, 0}, bad = {5, 0, 0};
    const struct two_texts texts = {part, 4, part, 3};
    expect_refused(what, s, &given, number, value);
    expect_open(what, s, part, 4, number, value);
    expect_no_line(what, s, part, 4, good, NUMBERS, number, value);
    expect_no_line(what, s, part, 4, bad, 0, number, value);
    expect_no_choice(what, s, &texts, 1, number, value);
    expect_pages(what, s, part, 4, 1, 5 * NUMBERS, 5 * BISQUEMOP_PAGE_NUMBERS, number, value, NULL, 0, NULL);
    expect_fit(what, s, part, 4, 1, number, value);
    expect_plan(what, s, part, 4, 1, number, value);
}

/* Each setting is tested. */
static void test_settings_first(void)
{
    struct bisquemop_settings list[13];
    for (size_t i = 0; i < 13; i++) {
        list[i] = plain;
    }
    list[0].glyph = 0;
    list[1].width = 4097;
    list[2].tab = 4097;
    list[3].spacing = 4097;
    list[4].paragraph = 4097;
    list[5].base = 65;
    list[6].height = 4097;
    list[7].top = -4097;
    list[8].leading = 2;
    list[9].trailing = 1;
    list[10].wrap = 2;
    list[11].alignment = 4;
    list[12].vertical = 3;
    for (size_t i = 0; i < 11; i++) {
        expect_settings_refused("a setting", list[i], BISQUEMOP_SETTING_OUT_OF_RANGE, 0);
    }
    expect_settings_refused("alignment", list[11], BISQUEMOP_UNKNOWN_ALIGNMENT, 4);
    expect_settings_refused("vertical", list[12], BISQUEMOP_UNKNOWN_ALIGNMENT, 3);
}

void test_refused(void)
{
    test_refusals();
    test_long_parts();
    test_extremes();
    test_settings_first();
}
