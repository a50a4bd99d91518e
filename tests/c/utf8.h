/* UTF-8 as the Unicode Standard has it, written for the tests alone: nothing here comes from the library. */
#ifndef UTF8_H
#define UTF8_H

#include <stddef.h>
#include <stdint.h>

/* How many bytes the sequence takes that stands at the start of `text`, 0 if none does (Table 3-7). */
size_t sequence_length(const uint8_t *text, size_t len);

/* The length of the longest prefix that is UTF-8. */
size_t longest_prefix(const uint8_t *text, size_t len);

/* Is it a scalar value: a code point that is no surrogate. */
int is_scalar(uint32_t c);

/* Puts a scalar value's bytes at `out`, at most 4, and answers how many there are (Table 3-6). */
size_t encode(uint32_t c, uint8_t *out);

#endif
