/* Texts in JSON. */
#ifndef JSON_H
#define JSON_H

#include <stddef.h>
#include <stdint.h>

/* Prints some bytes as a string. A byte that begins no character is U+FFFD there, and what a terminal would act upon is
   escaped. */
void print_json_string(const uint8_t *bytes, size_t len);

/* Prints "path", and for a path that is not UTF-8 "path_bytes" too, which has all its bytes as numbers. */
void print_json_path(const char *path);

#endif
