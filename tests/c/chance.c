#include "chance.h"

#include "utf8.h"

#include <stdio.h>
#include <string.h>

/* xorshift64 */
static uint64_t state = UINT64_C(0x9E3779B97F4A7C15);

uint32_t below(uint32_t n)
{
    state ^= state << 13;
    state ^= state >> 7;
    state ^= state << 17;
    return (uint32_t)((state >> 32) % n);
}

void seed_with(uint64_t seed)
{
    state = UINT64_C(0x9E3779B97F4A7C15) ^ seed;
    if (state == 0) {
        state = 1;
    }
    /* seeds that differ in few bits are soon far apart */
    for (int i = 0; i < 20; i++) {
        below(1);
    }
}

static unsigned long one_in = 1;

void make_one_in(unsigned long many)
{
    one_in = many > 0 ? many : 1;
}

unsigned long share_of(unsigned long cases)
{
    return cases < one_in ? 1 : cases / one_in;
}

size_t step_of(size_t longer)
{
    return one_in > 1 ? longer : 1;
}

void expect_of_all(const char *what, int holds)
{
    if (one_in == 1) {
        expect(what, holds);
    }
}

static const uint32_t white_space[] = {0x09,   0x0A,   0x0B,   0x0C,   0x0D,   0x20,   0x85,   0xA0,   0x1680,
                                       0x2000, 0x2001, 0x2002, 0x2003, 0x2004, 0x2005, 0x2006, 0x2007, 0x2008,
                                       0x2009, 0x200A, 0x2028, 0x2029, 0x202F, 0x205F, 0x3000};

#define KINDS 4
#define MIX 16

/* What most characters of a text are: of every class, spaces, words that can be broken, plain words. */
static const uint32_t mixes[KINDS][MIX] = {
    {'a', 'b', 'c', 'd', ' ', ' ', ' ', '\n', '\r', '\t', 0xA0, 0xAD, 0xE9, 0x200B, 0x3000, 0x1F600},
    {'a', 'b', ' ', ' ', ' ', ' ', ' ', ' ', ' ', ' ', '\n', 0x3000, 0x3000, 0x200B, 0x85, '\t'},
    {'a', 'b', 'c', 'd', 'e', 'f', 'g', ' ', ' ', 0xA0, 0x202F, 0xAD, 0xAD, 0xE9, '\n', 0x1F600},
    {'a', 'b', 'c', 'd', 'e', 'f', 'g', 'h', 'i', 'j', 'k', 0xE9, ' ', ' ', ' ', '\n'},
};

static uint32_t random_character(const uint32_t *mix)
{
    uint32_t c;
    switch (below(32)) {
    case 0:
        return white_space[below(sizeof white_space / sizeof white_space[0])];
    case 1:
        do {
            c = below(2) ? below(0x3100) : below(0x110000);
        } while (!is_scalar(c));
        return c;
    default:
        return mix[below(MIX)];
    }
}

size_t random_text(uint8_t *text, size_t characters)
{
    const uint32_t *mix = mixes[below(KINDS)];
    size_t len = 0;
    for (size_t i = 0; i < characters; i++) {
        len += encode(random_character(mix), text + len);
    }
    return len;
}

struct bisquemop_settings random_settings(void)
{
    struct bisquemop_settings s;
    s.glyph = 1 + below(8);
    s.width = below(12 * s.glyph);
    s.tab = below(6 * s.glyph);
    if (below(16) == 0) {
        s.glyph = BISQUEMOP_GLYPH_MIN + below(BISQUEMOP_GLYPH_MAX);
        s.width = below(BISQUEMOP_WIDTH_MAX + 1);
        s.tab = below(BISQUEMOP_TAB_MAX + 1);
    }
    s.alignment = below(4);
    s.leading = below(2);
    s.trailing = 0;
    s.wrap = below(2);
    redraw_heights(&s);
    return s;
}

void test_by_chance(uint64_t seed, unsigned long times, const char *of,
                    void (*test)(const char *what, struct bisquemop_settings s))
{
    seed_with(seed);
    for (unsigned long i = 0; i < times; i++) {
        char what[64];
        snprintf(what, sizeof what, "text %lu %s", i, of);
        test(what, random_settings());
    }
}

void redraw_heights(struct bisquemop_settings *s)
{
    s->spacing = below(20);
    s->paragraph = below(20);
    s->base = BISQUEMOP_BASE_MIN + below(BISQUEMOP_BASE_MAX);
    s->height = below(200);
    s->top = (int32_t)below(100) - 50;
    s->vertical = below(3);
}

/* The start of the character that holds a byte, or the text's end. */
static size_t place_at(const uint8_t *text, size_t len, size_t at)
{
    while (0 < at && at < len && (text[at] & 0xC0) == 0x80) {
        at--;
    }
    return at;
}

/* The place some characters after another, or the text's end. */
static size_t place_after(const uint8_t *text, size_t len, size_t at, uint32_t characters)
{
    for (; characters > 0 && at < len; characters--) {
        at += sequence_length(text + at, len - at);
    }
    return at;
}

struct edit random_edit(const uint8_t *text, size_t len, size_t most, uint8_t *inserted)
{
    size_t a = place_at(text, len, below((uint32_t)len + 1)), b = a, more = 0;
    switch (below(8)) {
    case 0: /* all from a on, or all */
        a = below(2) ? a : 0;
        b = len;
        break;
    case 1: /* up to anywhere */
        b = place_at(text, len, a + below((uint32_t)(len - a) + 1));
        break;
    case 2:
    case 3:
        break;
    default: /* a few characters */
        b = place_after(text, len, a, 1 + below(5));
    }
    size_t room = most - (len - (b - a));
    switch (below(8)) {
    case 0: /* what stood there */
        more = b - a;
        memcpy(inserted, text + a, more);
        break;
    case 1: /* much */
        more = random_text(inserted, below((uint32_t)room / 4 + 1));
        break;
    case 2:
    case 3:
        break;
    default:
        more = random_text(inserted, room / 4 < 6 ? room / 4 : 1 + below(5));
    }
    struct edit e = {(uint32_t)a, (uint32_t)b, (uint32_t)more};
    return e;
}
