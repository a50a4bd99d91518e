/* Numbers, texts, settings and edits by chance. The same seed makes the same ones in every run. */
#ifndef CHANCE_H
#define CHANCE_H

#include "harness.h"

void seed_with(uint64_t seed);

/* Of so many cases by chance, how many are made: all of them, or one in so many as was said. The step through a list is
   1, or a longer one where not all cases are made. That there are enough cases of a kind is expected of all of them. */
void make_one_in(unsigned long many);
unsigned long share_of(unsigned long cases);
size_t step_of(size_t longer);
void expect_of_all(const char *what, int holds);

/* A number below n. */
uint32_t below(uint32_t n);

/* So many characters, of every class. Answers their bytes, at most 4 a character. */
size_t random_text(uint8_t *text, size_t characters);

/* Settings that are good, by which small texts have some lines. */
struct bisquemop_settings random_settings(void);

/* Makes a test so many times, each by settings of its own. `of` says in its message what it is of. */
void test_by_chance(uint64_t seed, unsigned long times, const char *of,
                    void (*test)(const char *what, struct bisquemop_settings s));

/* What the table of a text does not depend on, drawn anew. */
void redraw_heights(struct bisquemop_settings *s);

/* An edit of a text after which it has at most `most` bytes, as it has before, and at `inserted` what is put in. */
struct edit random_edit(const uint8_t *text, size_t len, size_t most, uint8_t *inserted);

#endif
