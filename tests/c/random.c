/* bisquemop_check_text on random texts that are UTF-8 or nearly so, held to Table 3-7. The seed is fixed. */
/* Refusal 4. */
#include "chance.h"
#include "harness.h"
#include "utf8.h"

#include <stdio.h>
#include <string.h>

#define TEXTS share_of(100000)
#define LONGEST 300

/* A scalar value: any, or one near an end of a row of Table 3-7. */
static uint32_t scalar(void)
{
    static const uint32_t near[] = {0x00,   0x7F,   0x80,   0x7FF,   0x800,   0xFFF,   0x1000,  0xD7FF,
                                    0xE000, 0xFFFF, 0xFEFF, 0x10000, 0x3FFFF, 0x40000, 0xFFFFF, 0x10FFFF};
    static const uint32_t size[] = {0x80, 0x800, 0x10000, 0x110000};
    uint32_t c;
    do {
        c = below(4) == 0 ? near[below(16)] + below(3) - 1 : below(size[below(4)]);
    } while (!is_scalar(c));
    return c;
}

static size_t valid_text(uint8_t *text)
{
    size_t len = 0;
    uint32_t characters = below(10) == 0 ? below(70) : below(12);
    for (uint32_t i = 0; i < characters; i++) {
        len += encode(scalar(), text + len);
    }
    return len;
}

/* Spoils a text in one place: a byte changed, put in or taken out, or the end cut off. */
static size_t spoil(uint8_t *text, size_t len)
{
    static const uint8_t bytes[] = {0x00, 0x7F, 0x80, 0x8F, 0x90, 0x9F, 0xA0, 0xBF, 0xC0, 0xC1, 0xC2, 0xDF,
                                    0xE0, 0xE1, 0xEC, 0xED, 0xEE, 0xEF, 0xF0, 0xF1, 0xF3, 0xF4, 0xF5, 0xFF};
    size_t at = below((uint32_t)len + 1);
    uint8_t b = below(2) == 0 ? bytes[below(sizeof bytes)] : (uint8_t)below(256);
    uint32_t kind = below(5);
    if (kind == 0 || len == 0) {
        memmove(text + at + 1, text + at, len - at);
        text[at] = b;
        return len + 1;
    }
    if (at == len) {
        at--;
    }
    if (kind == 1) {
        memmove(text + at, text + at + 1, len - at - 1);
        return len - 1;
    }
    if (kind == 2) {
        return at;
    }
    if (kind == 3) {
        text[at] ^= (uint8_t)(1u << below(8));
        return len;
    }
    text[at] = b;
    return len;
}

void test_random(void)
{
    unsigned long good = 0;
    for (unsigned long i = 0; i < TEXTS; i++) {
        char what[64];
        uint8_t text[LONGEST], copy[LONGEST];
        size_t len = valid_text(text);
        for (uint32_t times = below(3); times > 0; times--) {
            len = spoil(text, len);
        }
        memcpy(copy, text, len);
        size_t prefix = longest_prefix(text, len);
        snprintf(what, sizeof what, "random text %lu", i);
        if (prefix == len) {
            good++;
            expect_text(what, text, len, BISQUEMOP_OK, 0);
        } else {
            expect_text(what, text, len, BISQUEMOP_NOT_UTF8, prefix);
        }
        if (memcmp(copy, text, len) != 0) {
            expect("the text is only read", 0);
        }
    }
    expect_of_all("a quarter of the random texts or more are UTF-8", good >= TEXTS / 4);
    expect_of_all("a quarter of the random texts or more are not", TEXTS - good >= TEXTS / 4);
}
