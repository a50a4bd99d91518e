/* bisquemop_check_text: every sequence that UTF-8 has, and every kind that it has not (refusal 4). */
#include "harness.h"
#include "utf8.h"

#include <stdio.h>
#include <string.h>

struct piece {
    size_t length;
    uint8_t bytes[10];
};

/* What stands before a bad sequence: nothing, a character of each length, and all four. */
static const struct piece prefixes[] = {
    {0, {0}},
    {1, {'a'}},
    {2, {0xC3, 0xA9}},
    {3, {0xE2, 0x82, 0xAC}},
    {4, {0xF0, 0x9F, 0x98, 0x80}},
    {10, {'a', 0xC3, 0xA9, 0xE2, 0x82, 0xAC, 0xF0, 0x9F, 0x98, 0x80}},
};

/* A bad sequence after each prefix, at the text's end and before a letter. */
static void bad_sequence(const char *kind, const uint8_t *bytes, size_t len)
{
    for (size_t i = 0; i < sizeof prefixes / sizeof prefixes[0]; i++) {
        const struct piece *p = &prefixes[i];
        uint8_t text[24];
        memcpy(text, p->bytes, p->length);
        memcpy(text + p->length, bytes, len);
        text[p->length + len] = 'z';
        expect_text(kind, text, p->length + len, BISQUEMOP_NOT_UTF8, p->length);
        expect_text(kind, text, p->length + len + 1, BISQUEMOP_NOT_UTF8, p->length);
        expect("the tests' own table refuses it too", longest_prefix(text, p->length + len) == p->length);
    }
}

static void test_bad_sequences(void)
{
    static const struct {
        const char *kind;
        struct piece piece;
    } list[] = {
        {"overlong", {2, {0xC0, 0x80}}},
        {"overlong", {2, {0xC0, 0xBF}}},
        {"overlong", {2, {0xC1, 0x80}}},
        {"overlong", {2, {0xC1, 0xBF}}},
        {"overlong", {3, {0xE0, 0x80, 0x80}}},
        {"overlong", {3, {0xE0, 0x9F, 0xBF}}},
        {"overlong", {4, {0xF0, 0x80, 0x80, 0x80}}},
        {"overlong", {4, {0xF0, 0x8F, 0xBF, 0xBF}}},
        {"too large", {4, {0xF4, 0x90, 0x80, 0x80}}},
        {"too large", {4, {0xF4, 0xBF, 0xBF, 0xBF}}},
        {"too large", {4, {0xF5, 0x80, 0x80, 0x80}}},
        {"too large", {4, {0xF6, 0x80, 0x80, 0x80}}},
        {"too large", {4, {0xF7, 0xBF, 0xBF, 0xBF}}},
        {"too large", {5, {0xF8, 0x88, 0x80, 0x80, 0x80}}},
        {"too large", {6, {0xFC, 0x84, 0x80, 0x80, 0x80, 0x80}}},
        {"no lead", {1, {0xFE}}},
        {"no lead", {1, {0xFF}}},
        {"no lead", {1, {0x80}}},
        {"no lead", {1, {0xBF}}},
        {"two leads", {2, {0xC3, 0xC3}}},
        {"two leads", {3, {0xE2, 0x82, 0xE2}}},
        {"two leads", {4, {0xF0, 0x9F, 0x98, 0xF0}}},
    };
    for (size_t i = 0; i < sizeof list / sizeof list[0]; i++) {
        bad_sequence(list[i].kind, list[i].piece.bytes, list[i].piece.length);
    }
    for (unsigned b = 0xA0; b <= 0xBF; b++) {
        for (unsigned c = 0x80; c <= 0xBF; c++) {
            const uint8_t surrogate[3] = {0xED, (uint8_t)b, (uint8_t)c};
            bad_sequence("surrogate", surrogate, 3);
        }
    }
}

/* The first and the last sequence of each row of Table 3-7, cut at each place. */
static void test_cut_sequences(void)
{
    static const uint32_t ends[] = {0x80,   0x7FF,  0x800,   0xFFF,   0x1000,  0xCFFF,  0xD000,   0xD7FF,
                                    0xE000, 0xFFFF, 0x10000, 0x3FFFF, 0x40000, 0xFFFFF, 0x100000, 0x10FFFF};
    for (size_t i = 0; i < sizeof ends / sizeof ends[0]; i++) {
        uint8_t bytes[4];
        size_t n = encode(ends[i], bytes);
        expect_text("the end of a row", bytes, n, BISQUEMOP_OK, 0);
        for (size_t k = 1; k < n; k++) {
            bad_sequence("cut", bytes, k);
        }
    }
}

/*
 * How many bytes the sequence takes that byte b leads where every byte after it is c, from 80 to BF, and 0 where there
 * is no such sequence. This is Table 3-7 said a second time, by the lead.
 */
static size_t led(unsigned b, unsigned c)
{
    if (b <= 0x7F) {
        return 1;
    }
    if (b <= 0xC1) {
        return 0;
    }
    if (b <= 0xDF) {
        return 2;
    }
    if (b <= 0xEF) {
        return (b == 0xE0 && c < 0xA0) || (b == 0xED && c > 0x9F) ? 0 : 3;
    }
    if (b <= 0xF4) {
        return (b == 0xF0 && c < 0x90) || (b == 0xF4 && c > 0x8F) ? 0 : 4;
    }
    return 0;
}

/* Every byte alone, and followed by one to four bytes that continue a sequence. */
static void test_leads(void)
{
    for (unsigned b = 0; b <= 0xFF; b++) {
        for (unsigned c = 0x80; c <= 0xBF; c++) {
            const uint8_t text[5] = {(uint8_t)b, (uint8_t)c, (uint8_t)c, (uint8_t)c, (uint8_t)c};
            size_t n = led(b, c);
            for (size_t len = 1; len <= 5; len++) {
                if (n == len) {
                    expect_text("a lead and its bytes", text, len, BISQUEMOP_OK, 0);
                } else {
                    expect_text("a lead and other bytes", text, len, BISQUEMOP_NOT_UTF8, n < len ? n : 0);
                }
            }
        }
    }
}

/* Every pair of bytes at the start of a text, held to Table 3-7. */
static void test_pairs(void)
{
    for (unsigned b = 0; b <= 0xFF; b++) {
        for (unsigned c = 0; c <= 0xFF; c++) {
            const uint8_t text[4] = {(uint8_t)b, (uint8_t)c, 0x80, 0x80};
            size_t prefix = longest_prefix(text, 4);
            if (prefix == 4) {
                expect_text("a pair", text, 4, BISQUEMOP_OK, 0);
            } else {
                expect_text("a pair", text, 4, BISQUEMOP_NOT_UTF8, prefix);
            }
        }
    }
}

static uint8_t block[BISQUEMOP_TEXT_MAX];

static void one_block(size_t len, uint32_t last)
{
    char what[64];
    snprintf(what, sizeof what, "scalar values up to %lX", (unsigned long)last);
    expect_text(what, block, len, BISQUEMOP_OK, 0);
    block[len] = 0xFF;
    expect_text(what, block, len + 1, BISQUEMOP_NOT_UTF8, len);
}

/* All scalar values one after the other, in texts that are nearly as long as a text may be. */
static void test_scalars(void)
{
    size_t len = 0;
    uint32_t count = 0;
    for (uint32_t c = 0; c <= 0x10FFFF; c++) {
        if (!is_scalar(c)) {
            continue;
        }
        if (len + 5 > sizeof block) {
            one_block(len, c - 1);
            len = 0;
        }
        len += encode(c, block + len);
        count++;
    }
    one_block(len, 0x10FFFF);
    expect("there are 1,112,064 scalar values", count == 1112064);
}

void test_sequences(void)
{
    test_bad_sequences();
    test_cut_sequences();
    test_leads();
    test_pairs();
    test_scalars();
}
