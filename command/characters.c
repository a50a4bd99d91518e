/* Characters as a terminal can show them: those of a text, and of words and names that are not ours. */
#include "characters.h"

#include <bisquemop.h>
#include <inttypes.h>
#include <string.h>

size_t character_bytes(uint8_t lead)
{
    return lead < 0xC0 ? 1 : lead < 0xE0 ? 2 : lead < 0xF0 ? 3 : 4;
}

uint32_t scalar_at(const uint8_t *at)
{
    size_t count = character_bytes(at[0]);
    uint32_t scalar = count == 1 ? at[0] : at[0] & (0x7FU >> count);
    for (size_t k = 1; k < count; k++) {
        scalar = scalar << 6 | (at[k] & 0x3FU);
    }
    return scalar;
}

struct range {
    uint32_t first, last;
};

static int is_among(uint32_t scalar, const struct range *ranges, size_t count)
{
    for (size_t k = 0; k < count; k++) {
        if (ranges[k].first <= scalar && scalar <= ranges[k].last) {
            return 1;
        }
    }
    return 0;
}
#define IS_AMONG(scalar, ranges) is_among(scalar, ranges, sizeof(ranges) / sizeof(ranges)[0])

/* What a terminal acts upon, or does not show: controls, the order of writing, joiners, marks of the byte order, tags.
 */
static const struct range acted_upon[] = {
    {0x00, 0x1F},     {0x7F, 0x9F},     {0x061C, 0x061C}, {0x180E, 0x180E}, {0x200B, 0x200F},
    {0x2028, 0x202E}, {0x2060, 0x206F}, {0xFEFF, 0xFEFF}, {0xFFF9, 0xFFFB}, {0xE0000, 0xE0FFF},
};

/* What a terminal puts over the character before it, so that it takes no cell: the commonest ranges. */
static const struct range put_over[] = {
    {0x0300, 0x036F}, {0x0483, 0x0489}, {0x0591, 0x05BD}, {0x0610, 0x061A}, {0x064B, 0x065F},
    {0x1AB0, 0x1AFF}, {0x1DC0, 0x1DFF}, {0x20D0, 0x20FF}, {0xFE00, 0xFE0F}, {0xFE20, 0xFE2F},
};

int is_acted_upon(uint32_t scalar)
{
    return IS_AMONG(scalar, acted_upon);
}

/* ---- of a text, which is UTF-8 */

void print_character(FILE *out, const uint8_t *at)
{
    uint32_t scalar = scalar_at(at);
    if (scalar == 0xAD) {
        fputc('-', out);
    } else if (is_acted_upon(scalar)) {
        fputc('.', out);
    } else {
        fprintf(out, "%s%.*s", IS_AMONG(scalar, put_over) ? " " : "", (int)character_bytes(at[0]), (const char *)at);
    }
}

void print_characters(FILE *out, const uint8_t *at, const uint8_t *end)
{
    for (int k = 0; at < end; k++) {
        if (k == 40) {
            fprintf(out, "..");
            return;
        }
        print_character(out, at);
        at += character_bytes(at[0]);
    }
}

/* ---- of what is not ours, which may be any bytes */

struct bytes bytes_of(const uint8_t *bytes, size_t len)
{
    struct bytes all = {bytes, bytes + len, bytes};
    return all;
}

/* How many bytes from the first one on are UTF-8. */
static size_t valid_bytes(const uint8_t *bytes, size_t len)
{
    size_t some = len < BISQUEMOP_TEXT_MAX ? len : BISQUEMOP_TEXT_MAX;
    uint64_t valid;
    return bisquemop_check_text(bytes, some, &valid) == BISQUEMOP_OK ? some : (size_t)valid;
}

int next_piece(struct bytes *bytes, struct piece *piece)
{
    if (bytes->at == bytes->end) {
        return 0;
    }
    if (bytes->at >= bytes->valid) {
        bytes->valid = bytes->at + valid_bytes(bytes->at, (size_t)(bytes->end - bytes->at));
    }
    piece->at = bytes->at;
    piece->is_character = bytes->at < bytes->valid;
    piece->count = piece->is_character ? character_bytes(bytes->at[0]) : 1;
    bytes->at += piece->count;
    return 1;
}

void print_foreign(FILE *out, const char *words)
{
    struct bytes bytes = bytes_of((const uint8_t *)words, strlen(words));
    struct piece piece;
    while (next_piece(&bytes, &piece)) {
        /* a byte that is of no character counts as the one of that number, as a terminal of 8 bits takes it */
        if (is_acted_upon(piece.is_character ? scalar_at(piece.at) : piece.at[0])) {
            fputc('?', out);
        } else {
            fwrite(piece.at, 1, piece.count, out);
        }
    }
}

void print_sentence(FILE *out, const char *format, va_list arguments)
{
    for (; *format; format++) {
        if (*format != '%') {
            fputc(*format, out);
            continue;
        }
        switch (*++format) {
        case 's':
            print_foreign(out, va_arg(arguments, const char *));
            break;
        case 'u':
            fprintf(out, "%u", va_arg(arguments, unsigned));
            break;
        case 'd':
            fprintf(out, "%d", va_arg(arguments, int));
            break;
        default: /* ld */
            fprintf(out, "%ld", va_arg(arguments, long));
            format++;
        }
    }
}

void print_count_of_characters(FILE *out, uint64_t count)
{
    fprintf(out, "%" PRIu64 " %s", count, count == 1 ? "character is" : "characters are");
}
