/* bisquemop_tokens: the examples, every character by itself, long texts, buffers of all sizes that matter, refusals. */
/* Rule 1, rule 2, rule 3, refusal 8. */
#include "harness.h"
#include "utf8.h"

#include <stdio.h>
#include <string.h>

#define NUMBERS BISQUEMOP_TOKEN_NUMBERS

enum { LF = BISQUEMOP_KIND_NEW_LINE, CR, TAB, SPACE, WORD, SHY };

/* A text's tokens, in buffers that are just large enough, larger, and smaller. */
static void tokens_are(const char *what, const uint8_t *text, size_t len, const uint32_t *tokens, size_t count)
{
    size_t need = NUMBERS * count;
    static const size_t more[] = {0, 1, NUMBERS - 1, NUMBERS, 5 * NUMBERS + 2};
    for (size_t i = 0; i < sizeof more / sizeof more[0]; i++) {
        expect_tokens(what, text, len, need + more[i], BISQUEMOP_OK, count, tokens);
    }
    if (count > 0) {
        expect_tokens(what, text, len, need - 1, BISQUEMOP_TOO_SMALL, count, NULL);
        expect_tokens(what, text, len, need - NUMBERS, BISQUEMOP_TOO_SMALL, count, NULL);
        expect_tokens(what, text, len, 0, BISQUEMOP_TOO_SMALL, count, NULL);
    }
}

struct example {
    const char *text;
    size_t count;
    uint32_t tokens[6 * NUMBERS];
};

static void test_examples(void)
{
    /* clang-format off */
    static const struct example examples[] = {
        {"", 0, {0}},
        /* U+200B inside a run counts 0, and at a token's start it stands alone */
        {" \xE2\x80\x8B ", 1, {SPACE, 0, 5, 2}},
        {"a\xE2\x80\x8B\xE2\x80\x8B b",
         5,
         {WORD, 0, 1, 0, SPACE, 1, 4, 0, SPACE, 4, 7, 0, SPACE, 7, 8, 1, WORD, 8, 9, 0}},
        {"\xE2\x80\x8B", 1, {SPACE, 0, 3, 0}},
        {"\xE2\x80\x8B ", 2, {SPACE, 0, 3, 0, SPACE, 3, 4, 1}},
        {" \xE2\x80\x8B", 1, {SPACE, 0, 4, 1}},
        /* LF, CR, tab and U+00AD are single, also beside one another and beside spaces */
        {"\n\r\t\xC2\xAD", 4, {LF, 0, 1, 0, CR, 1, 2, 0, TAB, 2, 3, 0, SHY, 3, 5, 0}},
        {"\r\n\n", 3, {CR, 0, 1, 0, LF, 1, 2, 0, LF, 2, 3, 0}},
        {" \t ", 3, {SPACE, 0, 1, 1, TAB, 1, 2, 0, SPACE, 2, 3, 1}},
        {"a\xC2\xAD\xC2\xAD" "b", 4, {WORD, 0, 1, 0, SHY, 1, 3, 0, SHY, 3, 5, 0, WORD, 5, 6, 0}},
        /* U+00A0 is part of a word; U+3000 and U+2003 are spaces like any other */
        {"\xC2\xA0\xC3\xA9\xE3\x80\x80\xE2\x80\x83", 2, {WORD, 0, 4, 0, SPACE, 4, 10, 2}},
        {"a\xC2\xA0" "b c", 3, {WORD, 0, 4, 0, SPACE, 4, 5, 1, WORD, 5, 6, 0}},
        /* so are U+2007 and U+202F, but not the spaces beside them: U+2006, U+2008, U+2029, U+205F */
        {"12\xE2\x80\xAF" "345", 1, {WORD, 0, 8, 0}},
        {" \xE2\x80\xAF\xE2\x80\x87\xC2\xA0 ", 3, {SPACE, 0, 1, 1, WORD, 1, 9, 0, SPACE, 9, 10, 1}},
        {"\xE2\x80\x86\xE2\x80\x88\xE2\x80\xA9\xE2\x81\x9F", 1, {SPACE, 0, 12, 4}},
        {"ab cde", 3, {WORD, 0, 2, 0, SPACE, 2, 3, 1, WORD, 3, 6, 0}},
        {"     not the",
         4,
         {SPACE, 0, 5, 5, WORD, 5, 8, 0, SPACE, 8, 9, 1, WORD, 9, 12, 0}},
        /* characters of one to four bytes make one word */
        {"a\xC3\xA9\xE2\x82\xAC\xF0\x9F\x98\x80", 1, {WORD, 0, 10, 0}},
    };
    /* clang-format on */
    for (size_t i = 0; i < sizeof examples / sizeof examples[0]; i++) {
        const struct example *x = &examples[i];
        char what[64];
        snprintf(what, sizeof what, "token example %lu", (unsigned long)i);
        tokens_are(what, (const uint8_t *)x->text, strlen(x->text), x->tokens, x->count);
    }
    tokens_are("no bytes at NULL", NULL, 0, NULL, 0);
    static const uint32_t zero[] = {WORD, 0, 3, 0};
    tokens_are("a byte 0 is a character of a word", (const uint8_t *)"a\0b", 3, zero, 1);
}

static uint8_t text[BISQUEMOP_TEXT_MAX + 1];
static uint32_t tokens[NUMBERS * BISQUEMOP_TEXT_MAX];
static size_t length, count;

static void add_token(uint32_t kind, size_t bytes, uint32_t spaces)
{
    uint32_t *t = tokens + NUMBERS * count++;
    t[BISQUEMOP_TOKEN_KIND] = kind;
    t[BISQUEMOP_TOKEN_START] = (uint32_t)length;
    t[BISQUEMOP_TOKEN_END] = (uint32_t)(length + bytes);
    t[BISQUEMOP_TOKEN_COUNT] = spaces;
    length += bytes;
}

/* The kind of a character by itself: White_Space as the Unicode Standard lists it, and what rule 2 says. U+00A0, U+2007
   and U+202F are of words. */
static uint32_t kind_of(uint32_t c)
{
    if (c == 0x0A || c == 0x0D || c == 0x09 || c == 0xAD) {
        return c == 0x0A ? LF : c == 0x0D ? CR : c == 0x09 ? TAB : SHY;
    }
    if (c == 0x0B || c == 0x0C || c == 0x20 || c == 0x85 || c == 0x1680 || (0x2000 <= c && c <= 0x2006) ||
        (0x2008 <= c && c <= 0x200B) || c == 0x2028 || c == 0x2029 || c == 0x205F || c == 0x3000) {
        return SPACE;
    }
    return WORD;
}

static void one_block(uint32_t last)
{
    char what[64];
    snprintf(what, sizeof what, "characters up to %lX", (unsigned long)last);
    expect_tokens(what, text, length, NUMBERS * count, BISQUEMOP_OK, count, tokens);
    length = count = 0;
}

/* Every scalar value, each between two soft hyphens, in texts nearly as long as a text may be. */
static void test_scalars(void)
{
    length = count = 0;
    for (uint32_t c = 0; c <= 0x10FFFF; c++) {
        if (!is_scalar(c)) {
            continue;
        }
        if (length + 6 > BISQUEMOP_TEXT_MAX) {
            one_block(c - 1);
        }
        size_t n = encode(c, text + length);
        add_token(kind_of(c), n, kind_of(c) == SPACE && c != 0x200B);
        encode(0xAD, text + length);
        add_token(SHY, 2, 0);
    }
    one_block(0x10FFFF);
}

/* Texts as long as a text may be: a token for each byte; words of five letters; one word; one space. */
static void test_long(void)
{
    const size_t most = BISQUEMOP_TEXT_MAX;
    memset(text, '\n', sizeof text);
    for (length = count = 0; length < most;) {
        add_token(LF, 1, 0);
    }
    tokens_are("65,535 line feeds", text, most, tokens, count);
    expect("one token for each byte", count == most);

    memset(text, 'a', sizeof text);
    for (length = count = 0; length < most;) {
        if (count % 2 == 0) {
            add_token(WORD, most - length < 5 ? most - length : 5, 0);
        } else {
            text[length] = ' ';
            add_token(SPACE, 1, 1);
        }
    }
    tokens_are("words of five letters", text, most, tokens, count);

    static const uint32_t word[] = {WORD, 0, BISQUEMOP_TEXT_MAX, 0};
    memset(text, 'a', sizeof text);
    tokens_are("one word", text, most, word, 1);
    static const uint32_t space[] = {SPACE, 0, BISQUEMOP_TEXT_MAX, BISQUEMOP_TEXT_MAX};
    memset(text, ' ', sizeof text);
    tokens_are("one run of spaces", text, most, space, 1);
}

/* Each refusal, with room and with none: the text comes before the buffer. */
static void test_refusals(void)
{
    static const size_t rooms[] = {0, 3, 4, 1000};
    memset(text, 'a', sizeof text);
    for (size_t i = 0; i < sizeof rooms / sizeof rooms[0]; i++) {
        expect_tokens("too long", text, 65536, rooms[i], BISQUEMOP_TEXT_TOO_LONG, 65536, NULL);
        text[0] = 0xFF;
        expect_tokens("too long and not UTF-8", text, 65536, rooms[i], BISQUEMOP_TEXT_TOO_LONG, 65536, NULL);
        expect_tokens("not UTF-8", text, 65535, rooms[i], BISQUEMOP_NOT_UTF8, 0, NULL);
        text[0] = 'a';
        expect_tokens("cut", (const uint8_t *)"a b\xE2\x82", 5, rooms[i], BISQUEMOP_NOT_UTF8, 3, NULL);
    }
}

static void test_names(void)
{
    expect("the names of the kinds", BISQUEMOP_KIND_NEW_LINE == 0 && BISQUEMOP_KIND_CARRIAGE_RETURN == 1 &&
                                         BISQUEMOP_KIND_TAB == 2 && BISQUEMOP_KIND_WHITESPACE == 3 &&
                                         BISQUEMOP_KIND_WORD == 4 && BISQUEMOP_KIND_BREAK == 5);
    expect("the columns of a token", BISQUEMOP_TOKEN_KIND == 0 && BISQUEMOP_TOKEN_START == 1 &&
                                         BISQUEMOP_TOKEN_END == 2 && BISQUEMOP_TOKEN_COUNT == 3 &&
                                         BISQUEMOP_TOKEN_NUMBERS == 4);
}

void test_tokens(void)
{
    test_names();
    test_examples();
    test_scalars();
    test_long();
    test_refusals();
}
