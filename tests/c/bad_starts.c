/*
 * bisquemop_open and bisquemop_one_line, refused: every start and every rest of a small text that is off a boundary,
 * outside the text, turned round or counted too high, and which refusal comes first. Nothing but the value is written.
 * Refusal 1, refusal 2, refusal 3, refusal 4, refusal 5, refusal 8.
 */
#include "examples.h"
#include "harness.h"
#include "rules.h"

#include <string.h>

#define LINE BISQUEMOP_LINE_NUMBERS

/* Characters of one to four bytes, at 0, 1, 3, 4, 7 and 11. */
static const uint8_t text[] = "a\xC3\xA9 \xE3\x80\x80\xF0\x9F\x98\x80z";
#define LEN (sizeof text - 1)

/* Where a character begins, and where the text ends. */
static int is_boundary(uint32_t at)
{
    return at == 0 || at == 1 || at == 3 || at == 4 || at == 7 || at == 11 || at == 12;
}

static int is_good(struct stand from)
{
    if (!is_boundary(from.start)) {
        return 0;
    }
    if (from.rest_end == 0 && from.rest_count == 0) {
        return 1;
    }
    return is_boundary(from.rest_end) && from.start < from.rest_end &&
           from.rest_count <= characters_in(text + from.start, from.rest_end - from.start);
}

/* A bad stand is refused whatever room there is, and after settings and text. */
static void expect_bad(const char *what, struct stand from)
{
    static const size_t rooms[] = {0, LINE - 1, LINE, 3 * LINE};
    struct bisquemop_settings s = laid(6, 30, LEFT, 1, DROP);
    for (size_t i = 0; i < sizeof rooms / sizeof rooms[0]; i++) {
        expect_no_line(what, s, text, LEN, from, rooms[i], BISQUEMOP_BAD_LINE, 0);
    }
    expect_no_line(what, s, (const uint8_t *)"a\xC3\xA9 \xFF", 5, from, LINE, BISQUEMOP_NOT_UTF8, 4);
    s.vertical = 3;
    expect_no_line(what, s, text, LEN, from, LINE, BISQUEMOP_UNKNOWN_ALIGNMENT, 3);
    s.wrap = 2;
    expect_no_line(what, s, text, LEN, from, LINE, BISQUEMOP_SETTING_OUT_OF_RANGE, 0);
}

/* A good one is laid, and refused only where the entry is too small. */
static void expect_good(const char *what, struct stand from)
{
    struct bisquemop_settings s = laid(6, 30, LEFT, 1, DROP);
    uint32_t entry[LINE] = {0}, rest_end = 0, rest_count = 0;
    uint64_t next = 0;
    expect(what, bisquemop_settings_one_line(&s, text, LEN, from.start, from.rest_end, from.rest_count, entry, LINE,
                                             &next, &rest_end, &rest_count) == BISQUEMOP_OK);
    expect(what, entry[BISQUEMOP_LINE_START] == from.start && entry[BISQUEMOP_LINE_REST_END] == from.rest_end &&
                     entry[BISQUEMOP_LINE_REST_COUNT] == from.rest_count &&
                     entry[BISQUEMOP_LINE_CHARS] == characters_in(text, from.start));
    expect_no_line(what, s, text, LEN, from, LINE - 1, BISQUEMOP_TOO_SMALL, 1);
    expect_no_line(what, s, text, LEN, from, 0, BISQUEMOP_TOO_SMALL, 1);
}

/* Each edge by its name. */
static void test_edges(void)
{
    static const struct {
        const char *what;
        struct stand from;
        int good;
    } list[] = {
        {"the text's front", {0, 0, 0}, 1},
        {"a character's first byte", {7, 0, 0}, 1},
        {"within a character of two bytes", {2, 0, 0}, 0},
        {"within a character of three bytes", {5, 0, 0}, 0},
        {"at the last byte of a character of four bytes", {10, 0, 0}, 0},
        {"the text's end", {12, 0, 0}, 1},
        {"a byte past the end", {13, 0, 0}, 0},
        {"far past the end", {UINT32_MAX, 0, 0}, 0},

        {"a rest of a character", {3, 4, 1}, 1},
        {"a rest up to the text's end", {3, 12, 4}, 1},
        {"a rest that ends at its start", {3, 3, 0}, 0},
        {"a rest that ends at its start, and counts", {3, 3, 1}, 0},
        {"a rest that ends below its start", {3, 1, 0}, 0},
        {"a rest that ends below its start, by more than it counts", {7, 1, 1}, 0},
        {"a rest of no end that counts", {3, 0, 1}, 0},
        {"a rest of no end that counts, at the front", {0, 0, 1}, 0},
        {"a rest of no end that counts most", {0, 0, UINT32_MAX}, 0},
        {"a rest that ends within a character", {3, 5, 1}, 0},
        {"a rest that ends at a character's last byte", {3, 6, 1}, 0},
        {"a rest that ends a byte past the end", {3, 13, 1}, 0},
        {"a rest that ends far past the end", {3, UINT32_MAX, 0}, 0},
        {"a rest at the text's end", {12, 12, 0}, 0},
        {"a rest past the text's end", {12, 13, 0}, 0},
        {"a rest that counts nothing", {3, 7, 0}, 1},
        {"a rest that counts all its characters", {3, 7, 2}, 1},
        {"a rest that counts one more", {3, 7, 3}, 0},
        {"a rest that counts its bytes, or the characters before it, too", {3, 7, 4}, 0},
        {"a rest that counts far too much", {3, 7, UINT32_MAX}, 0},
        {"a good rest from within a character", {2, 7, 1}, 0},
    };
    for (size_t i = 0; i < sizeof list / sizeof list[0]; i++) {
        expect(list[i].what, is_good(list[i].from) == list[i].good);
        (list[i].good ? expect_good : expect_bad)(list[i].what, list[i].from);
    }
}

/* Every start, rest end and rest count up to past the text, and numbers that would be small if they were cut. */
static void test_every_stand(void)
{
    static const uint32_t far[] = {65535,      65536,      0x10001,        0x7FFFFFFF,
                                   0x80000000, 0x80000003, UINT32_MAX - 1, UINT32_MAX};
    const uint32_t near = LEN + 3, all = near + sizeof far / sizeof far[0];
    struct bisquemop_settings s = laid(6, 30, LEFT, 1, DROP);
    unsigned long good = 0;
    for (uint32_t i = 0; i < all * all * all; i++) {
        uint32_t number[3] = {i % all, i / all % all, i / all / all};
        for (int k = 0; k < 3; k++) {
            number[k] = number[k] < near ? number[k] : far[number[k] - near];
        }
        struct stand from = {number[0], number[1], number[2]};
        if (is_good(from)) {
            expect_good("a good stand", from);
            good++;
        } else {
            expect_no_line("a bad stand", s, text, LEN, from, LINE, BISQUEMOP_BAD_LINE, 0);
        }
    }
    /* seven starts with no rest; and the rests, as many for each two boundaries as there are characters between, and one */
    expect("as many good stands as there are", good == 7 + 77);
}

/* The empty text has one start. */
static void test_no_text(void)
{
    static const struct stand bad[] = {{1, 0, 0}, {0, 0, 1}, {0, 1, 0}, {0, 1, 1}, {UINT32_MAX, 0, 0}};
    struct bisquemop_settings s = laid(6, 30, LEFT, 1, DROP);
    for (size_t i = 0; i < sizeof bad / sizeof bad[0]; i++) {
        expect_no_line("of no text", s, text, 0, bad[i], LINE, BISQUEMOP_BAD_LINE, 0);
        expect_no_line("of no text, which is not there", s, NULL, 0, bad[i], LINE, BISQUEMOP_BAD_LINE, 0);
    }
    const struct stand front = {0, 0, 0};
    const uint32_t entry[LINE] = {0, 0, 0, 2, 0, 6, 0, 0, 0, 1, 0};
    expect_open("no text, which is not there", s, NULL, 0, BISQUEMOP_OK, 0);
    expect_one_line("no text, which is not there", s, NULL, 0, front, LINE, entry, front);
    expect_no_line("no text, and no entry", s, NULL, 0, front, 0, BISQUEMOP_TOO_SMALL, 1);
}

static void test_unlaid(const struct unlaid *x, size_t room, size_t no_events)
{
    static const struct stand stands[] = {{0, 0, 0}, {0, 1, 1}, {0, 0, 1}, {UINT32_MAX, 0, 0}, {1, 1, 1}};
    (void)no_events;
    expect_open(x->what, x->settings, x->text, x->len, x->number, x->value);
    for (size_t i = 0; i < sizeof stands / sizeof stands[0]; i++) {
        expect_no_line(x->what, x->settings, x->text, x->len, stands[i], room, x->number, x->value);
    }
}

void test_bad_starts(void)
{
    static const size_t rooms[] = {0, LINE - 1, LINE, 2 * LINE};
    test_edges();
    test_every_stand();
    test_no_text();
    for (size_t i = 0; i < sizeof rooms / sizeof rooms[0]; i++) {
        each_unlaid(test_unlaid, rooms[i], 0);
    }
}
