/* UTF-8, written and looked at a second time (refusal 4). */
#include "utf8.h"

struct row {
    size_t length;
    uint8_t low[4], high[4];
};

/* Table 3-7, "Well-Formed UTF-8 Byte Sequences", row by row. */
static const struct row rows[] = {
    {1, {0x00, 0, 0, 0}, {0x7F, 0, 0, 0}},
    {2, {0xC2, 0x80, 0, 0}, {0xDF, 0xBF, 0, 0}},
    {3, {0xE0, 0xA0, 0x80, 0}, {0xE0, 0xBF, 0xBF, 0}},
    {3, {0xE1, 0x80, 0x80, 0}, {0xEC, 0xBF, 0xBF, 0}},
    {3, {0xED, 0x80, 0x80, 0}, {0xED, 0x9F, 0xBF, 0}},
    {3, {0xEE, 0x80, 0x80, 0}, {0xEF, 0xBF, 0xBF, 0}},
    {4, {0xF0, 0x90, 0x80, 0x80}, {0xF0, 0xBF, 0xBF, 0xBF}},
    {4, {0xF1, 0x80, 0x80, 0x80}, {0xF3, 0xBF, 0xBF, 0xBF}},
    {4, {0xF4, 0x80, 0x80, 0x80}, {0xF4, 0x8F, 0xBF, 0xBF}},
};

static int fits(const struct row *r, const uint8_t *text, size_t len)
{
    if (len < r->length) {
        return 0;
    }
    for (size_t i = 0; i < r->length; i++) {
        if (text[i] < r->low[i] || r->high[i] < text[i]) {
            return 0;
        }
    }
    return 1;
}

size_t sequence_length(const uint8_t *text, size_t len)
{
    for (size_t i = 0; i < sizeof rows / sizeof rows[0]; i++) {
        if (fits(&rows[i], text, len)) {
            return rows[i].length;
        }
    }
    return 0;
}

size_t longest_prefix(const uint8_t *text, size_t len)
{
    size_t at = 0;
    for (;;) {
        size_t n = sequence_length(text + at, len - at);
        if (n == 0) {
            return at;
        }
        at += n;
    }
}

int is_scalar(uint32_t c)
{
    return c <= 0xD7FF || (0xE000 <= c && c <= 0x10FFFF);
}

size_t encode(uint32_t c, uint8_t *out)
{
    if (c < 0x80) {
        out[0] = (uint8_t)c;
        return 1;
    }
    if (c < 0x800) {
        out[0] = (uint8_t)(0xC0 | c >> 6);
        out[1] = (uint8_t)(0x80 | (c & 0x3F));
        return 2;
    }
    if (c < 0x10000) {
        out[0] = (uint8_t)(0xE0 | c >> 12);
        out[1] = (uint8_t)(0x80 | (c >> 6 & 0x3F));
        out[2] = (uint8_t)(0x80 | (c & 0x3F));
        return 3;
    }
    out[0] = (uint8_t)(0xF0 | c >> 18);
    out[1] = (uint8_t)(0x80 | (c >> 12 & 0x3F));
    out[2] = (uint8_t)(0x80 | (c >> 6 & 0x3F));
    out[3] = (uint8_t)(0x80 | (c & 0x3F));
    return 4;
}
