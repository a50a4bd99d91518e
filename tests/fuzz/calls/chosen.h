/* Numbers and bytes that are chosen by some bytes of input, so that a case is nothing but those bytes and can be kept. */
#ifndef CHOSEN_H
#define CHOSEN_H

#include <stddef.h>
#include <stdint.h>

/* From here on is chosen by these bytes, and by zeroes behind them. */
void choose_by(const uint8_t *bytes, size_t len);

uint8_t next_byte(void);

/* A number below n, and whether one thing in so many happens. */
uint32_t below(uint32_t n);
int one_in(uint32_t many);

/* Numbers as a caller gives them who is careless or means harm: around every limit, and where a product runs over. */
uint32_t any32(void);
uint64_t any64(void);

/* Bytes of no meaning. */
void fill(void *at, size_t len);

/* A text of at most `room` bytes: empty, short, long, longer than any, valid or not. Answers its length. */
size_t any_text(uint8_t *text, size_t room);

#endif
