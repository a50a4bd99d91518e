/* Texts in JSON. */
#include "json.h"

#include "characters.h"

#include <inttypes.h>
#include <stdio.h>
#include <string.h>

/* A character by its number, which from U+10000 on takes two. */
static void print_escaped(uint32_t scalar)
{
    if (scalar < 0x10000) {
        printf("\\u%04" PRIx32, scalar);
    } else {
        printf("\\u%04" PRIx32 "\\u%04" PRIx32, 0xD7C0 + (scalar >> 10), 0xDC00 + (scalar & 0x3FF));
    }
}

/* What a terminal would act upon is escaped, since a document may be looked at on one. */
static void print_piece(const struct piece *piece)
{
    uint32_t scalar = piece->is_character ? scalar_at(piece->at) : 0xFFFD;
    if (scalar == '"' || scalar == '\\') {
        printf("\\%c", (char)scalar);
    } else if (!piece->is_character || is_acted_upon(scalar)) {
        print_escaped(scalar);
    } else {
        fwrite(piece->at, 1, piece->count, stdout);
    }
}

void print_json_string(const uint8_t *bytes, size_t len)
{
    struct bytes all = bytes_of(bytes, len);
    struct piece piece;
    putchar('"');
    while (next_piece(&all, &piece)) {
        print_piece(&piece);
    }
    putchar('"');
}

static int is_utf8(const uint8_t *bytes, size_t len)
{
    struct bytes all = bytes_of(bytes, len);
    struct piece piece = {bytes, 0, 1};
    while (piece.is_character && next_piece(&all, &piece)) {
    }
    return piece.is_character;
}

static void print_json_bytes(const uint8_t *bytes, size_t len)
{
    putchar('[');
    for (size_t k = 0; k < len; k++) {
        printf("%s%u", k == 0 ? "" : ", ", bytes[k]);
    }
    putchar(']');
}

void print_json_path(const char *path)
{
    const uint8_t *bytes = (const uint8_t *)path;
    size_t len = strlen(path);
    printf("\"path\": ");
    print_json_string(bytes, len);
    if (!is_utf8(bytes, len)) {
        printf(", \"path_bytes\": ");
        print_json_bytes(bytes, len);
    }
}
