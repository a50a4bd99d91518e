#include "sum.h"

/* FNV-1a over numbers of 32 bits; the shift brings the upper half back to the lower one. */
static uint64_t state = UINT64_C(0xCBF29CE484222325), count;

void add_number(uint32_t number)
{
    state = (state ^ number) * UINT64_C(0x100000001B3);
    state ^= state >> 32;
    count++;
}

void add_long(uint64_t number)
{
    add_number((uint32_t)number);
    add_number((uint32_t)(number >> 32));
}

void add_numbers(const uint32_t *numbers, uint64_t many)
{
    for (uint64_t i = 0; i < many; i++) {
        add_number(numbers[i]);
    }
}

uint64_t sum(void)
{
    return state;
}

uint64_t summed(void)
{
    return count;
}
