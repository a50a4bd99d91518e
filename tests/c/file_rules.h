/* The layout file as docs/LAYOUT-FILE.md has it, written for the tests alone: nothing here comes from the library. */
#ifndef FILE_RULES_H
#define FILE_RULES_H

#include "rules.h"

/* What a reader is to answer: the number and the value; whether settings are handed out, and which; the lines. */
struct told {
    uint32_t number;
    uint64_t value;
    int hands_settings;
    uint32_t settings[BISQUEMOP_SETTINGS_NUMBERS];
    uint64_t text_len;
    const uint32_t *table; /* `value` lines, if the number is 0 */
};
struct told tell_file(const uint8_t *file, size_t len, size_t settings_room, size_t table_room);

/* Puts the file of a table at `to`, and answers its bytes. */
size_t put_file(uint8_t *to, struct bisquemop_settings s, const uint32_t *table, uint64_t lines);

/* Puts one field, and one of numbers, of four bytes each. They answer the bytes. */
size_t put_field(uint8_t *to, uint8_t tag, size_t length, const uint8_t *body);
size_t put_numbers(uint8_t *to, uint8_t tag, const uint32_t *numbers, size_t count);

/* The settings as thirteen numbers, and what the settings' own test answers of them. */
void number_settings(struct bisquemop_settings s, uint32_t *numbers);
struct refused refused_settings(const uint32_t *numbers);

#endif
