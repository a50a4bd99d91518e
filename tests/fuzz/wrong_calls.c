/* A call that is wrong in the way that is defined, which the cases of tests/fuzz/calls have to find. */
#include <bisquemop.h>

uint32_t wrong_tokens(const uint8_t *text, uint64_t len, uint32_t *tokens, uint64_t tokens_len, uint64_t *value);

uint32_t wrong_tokens(const uint8_t *text, uint64_t len, uint32_t *tokens, uint64_t tokens_len, uint64_t *value)
{
    uint64_t before = *value;
    uint32_t number = bisquemop_tokens(text, len, tokens, tokens_len, value);
#if defined READS_ON
    *(volatile uint64_t *)value += len > 0 ? 0U * ((volatile const uint8_t *)text)[len] : 0;
#elif defined READS_BEFORE
    *(volatile uint64_t *)value += len > 0 ? 0U * ((volatile const uint8_t *)text)[-1] : 0;
#elif defined WRITES_ON_REFUSAL
    if (number != BISQUEMOP_OK && tokens_len > 0) {
        tokens[tokens_len - 1]++;
    }
#elif defined WRITES_PAST_THE_LAST
    if (number == BISQUEMOP_OK && *value < tokens_len / BISQUEMOP_TOKEN_NUMBERS) {
        tokens[BISQUEMOP_TOKEN_NUMBERS * *value]++;
    }
#elif defined WRITES_THE_TEXT
    if (len > 0) {
        ((uint8_t *)(uintptr_t)text)[0] ^= 1;
    }
#elif defined KEEPS_THE_VALUE
    *value = number == BISQUEMOP_NOT_UTF8 ? before : *value;
#elif defined RETURNS_ANOTHER
    number = number == BISQUEMOP_TEXT_TOO_LONG ? 7 : number;
#endif
    (void)before;
    return number;
}
