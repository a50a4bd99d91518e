/* bisquemop_check_text: texts of every length that matters, and that refusal 3 comes before refusal 4. */
#include "harness.h"

#include <string.h>

#define MOST 200000

static uint8_t text[MOST];

static void fill(const char *unit, size_t len)
{
    size_t n = strlen(unit);
    for (size_t i = 0; i < len; i++) {
        text[i] = (uint8_t)unit[i % n];
    }
}

/* Texts of `len` bytes: valid, bad at the start, bad at the end. */
static void one_length(size_t len)
{
    int too_long = len > BISQUEMOP_TEXT_MAX;
    uint32_t bad = too_long ? BISQUEMOP_TEXT_TOO_LONG : BISQUEMOP_NOT_UTF8;
    fill("a", len);
    expect_text("valid", text, len, too_long ? BISQUEMOP_TEXT_TOO_LONG : BISQUEMOP_OK, too_long ? len : 0);
    if (len == 0) {
        return;
    }
    text[0] = 0x80;
    expect_text("bad at the start", text, len, bad, too_long ? len : 0);
    text[0] = 'a';
    text[len - 1] = 0xC3;
    expect_text("bad at the end", text, len, bad, too_long ? len : len - 1);
}

void test_lengths(void)
{
    static const size_t lengths[] = {0, 1, 2, 4095, 4096, 65534, 65535, 65536, 65537, 131071, 131072, MOST};
    for (size_t i = 0; i < sizeof lengths / sizeof lengths[0]; i++) {
        one_length(lengths[i]);
    }
    expect_text("no bytes at NULL", NULL, 0, BISQUEMOP_OK, 0);

    fill("\xE2\x82\xAC", 65535);
    expect_text("characters of three bytes", text, 65535, BISQUEMOP_OK, 0);
    expect_text("characters of three bytes, the last cut", text, 65534, BISQUEMOP_NOT_UTF8, 65532);
    fill("\xF0\x9F\x98\x80", 65536);
    expect_text("characters of four bytes", text, 65532, BISQUEMOP_OK, 0);
    expect_text("characters of four bytes, the last cut", text, 65535, BISQUEMOP_NOT_UTF8, 65532);
    expect_text("characters of four bytes", text, 65536, BISQUEMOP_TEXT_TOO_LONG, 65536);
}
