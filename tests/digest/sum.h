/* A sum of 64 bits over a row of numbers. Rows that differ, in a number or in their order, have the same one only by
   rare chance. */
#ifndef SUM_H
#define SUM_H

#include <stdint.h>

void add_number(uint32_t number);
void add_long(uint64_t number);
void add_numbers(const uint32_t *numbers, uint64_t count);

/* The sum, and of how many numbers. */
uint64_t sum(void);
uint64_t summed(void);

#endif
