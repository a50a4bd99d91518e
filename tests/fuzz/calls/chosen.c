/* Numbers and bytes that are chosen by some bytes of input. */
#include "chosen.h"

#include <string.h>

static const uint8_t *left;
static size_t left_len;

void choose_by(const uint8_t *bytes, size_t len)
{
    left = bytes;
    left_len = len;
}

uint8_t next_byte(void)
{
    if (left_len == 0) {
        return 0;
    }
    left_len--;
    return *left++;
}

uint32_t below(uint32_t n)
{
    uint32_t number = next_byte();
    if (n > 256) {
        number = number << 8 | next_byte();
    }
    if (n > 65536) {
        number = number << 8 | next_byte();
    }
    return number % n;
}

int one_in(uint32_t many)
{
    return below(many) == many - 1;
}

uint32_t any32(void)
{
    static const uint32_t around[] = {0, 64, 4096, 65535, 1U << 24, 0x7FFFFFFF, 0x80000000, 0xFFFFFFFF};
    uint32_t number = 0;
    switch (below(3)) {
    case 0:
        return below(16);
    case 1:
        return around[below(sizeof around / sizeof around[0])] + below(5) - 2;
    default:
        for (int k = 0; k < 4; k++) {
            number = number << 8 | next_byte();
        }
        return number;
    }
}

uint64_t any64(void)
{
    /* a line has 11 numbers or 44 bytes, and in a file 47; tokens have 4, events 6, pages 3 */
    static const uint64_t shares[] = {1, 2, 3, 4, 6, 8, 11, 12, 16, 24, 44, 47};
    switch (below(3)) {
    case 0:
        return any32();
    case 1:
        return UINT64_MAX / shares[below(sizeof shares / sizeof shares[0])] + below(5) - 2;
    default:
        return (uint64_t)any32() << 32 | any32();
    }
}

void fill(void *at, size_t len)
{
    uint8_t *byte = at;
    uint32_t state = 1U + next_byte();
    for (size_t k = 0; k < len; k++) {
        state = state * 1664525 + 1013904223;
        byte[k] = (uint8_t)(state >> 24);
    }
}

/* ---- texts */

/* A character of every kind: letters, white space, breaks, gluing ones, two to four bytes. Answers its length. */
static size_t put_character(uint8_t *at)
{
    static const char *const characters[] = {"a",
                                             "b",
                                             "i",
                                             " ",
                                             " ",
                                             "\t",
                                             "\n",
                                             "\r",
                                             "\xC2\xAD",
                                             "\xC2\xA0",
                                             "\xC3\xA9",
                                             "\xE2\x80\x8B",
                                             "\xE2\x80\x87",
                                             "\xE2\x80\xAF",
                                             "\xE2\x82\xAC",
                                             "\xE3\x80\x80",
                                             "\xF0\x9F\x9E\x80",
                                             "-"};
    const char *character = characters[below(sizeof characters / sizeof characters[0])];
    size_t len = strlen(character);
    memcpy(at, character, len);
    return len;
}

static size_t put_characters(uint8_t *text, size_t count)
{
    size_t len = 0;
    for (size_t k = 0; k < count; k++) {
        len += put_character(text + len);
    }
    return len;
}

/* A piece again and again, up to about the most bytes that a text may have, and cut anywhere. */
static size_t put_long(uint8_t *text, size_t room)
{
    size_t piece = put_characters(text, 1 + below(40)), len = 65525 + below(20);
    if (one_in(4)) {
        len = 256U * below(280);
    }
    if (len > room) {
        len = room;
    }
    for (size_t k = piece; k < len; k++) {
        text[k] = text[k - piece];
    }
    return len;
}

/* Bytes of the input as they are. */
static size_t put_bytes(uint8_t *text, size_t len)
{
    for (size_t k = 0; k < len; k++) {
        text[k] = next_byte();
    }
    return len;
}

size_t any_text(uint8_t *text, size_t room)
{
    size_t len;
    switch (below(16)) {
    case 0:
        return 0;
    case 1:
        return put_bytes(text, below(64));
    case 2:
        return one_in(8) ? put_long(text, room) : put_characters(text, 200);
    default:
        len = put_characters(text, below(80));
    }
    if (len > 0 && one_in(8)) {
        text[below((uint32_t)len)] = next_byte();
    }
    return len;
}
