/* Characters as a terminal can show them: those of a text, and of words and names that are not ours. */
#ifndef CHARACTERS_H
#define CHARACTERS_H

#include <stdarg.h>
#include <stddef.h>
#include <stdint.h>
#include <stdio.h>

/* How many bytes the character has that begins with this one. */
size_t character_bytes(uint8_t lead);

/* Prints the character at `at` in one cell: a . for one that a terminal would act upon, and - for a soft hyphen. */
void print_character(FILE *out, const uint8_t *at);

/* Prints the characters from `at` up to `end`, and .. for those past the first 40. */
void print_characters(FILE *out, const uint8_t *at, const uint8_t *end);

/* Bytes that need not be UTF-8, taken apart from the front on: those from `at` up to `valid` are known to be. */
struct bytes {
    const uint8_t *at, *end, *valid;
};

/* A character, or a byte that is of none. */
struct piece {
    const uint8_t *at;
    size_t count;
    int is_character;
};

struct bytes bytes_of(const uint8_t *bytes, size_t len);

/* Takes the next piece, and answers whether there is one. */
int next_piece(struct bytes *bytes, struct piece *piece);

/* The scalar value of the character at `at`, and whether a terminal acts upon such a one or does not show it. */
uint32_t scalar_at(const uint8_t *at);
int is_acted_upon(uint32_t scalar);

/* Prints what is not ours, as a word that was given or the name of a file: a ? for each character, and each byte of
   none, that a terminal would act upon, and all else as it is. Nothing else prints such words, to either stream. */
void print_foreign(FILE *out, const char *words);

/* Prints a sentence of ours with what was put into it, which goes through print_foreign where the format has %s. %u, %d
   and %ld are numbers, and there is no other. */
void print_sentence(FILE *out, const char *format, va_list arguments);

/* "1 character is" or "3 characters are". */
void print_count_of_characters(FILE *out, uint64_t count);

#endif
