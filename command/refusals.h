/* What a refusal means, in words. */
#ifndef REFUSALS_H
#define REFUSALS_H

#include "texts.h"

#include <stdio.h>

/* The refusal's name in the header, in small letters. */
const char *refusal_name(uint32_t number);

/* The line of a text, counted from 1, that holds a byte, and which byte of that line it is. */
void place_in_text(const struct text *text, uint64_t offset, uint64_t *line, uint64_t *byte);

/* A line that says why a text cannot be used, and what to do. */
void say_text_trouble(FILE *out, const struct trouble *trouble, const struct text *text);

/* The same for a layout file. */
void say_file_trouble(FILE *out, const struct trouble *trouble, const char *path);

/* For a call whose arguments were checked before: it must not refuse. */
void must(uint32_t number, uint64_t value);

#endif
