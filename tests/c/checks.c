/*
 * The tests of the calls for C. Prints each case that fails, and at the end how many passed and failed.
 *
 * usage: checks [--edits N] [--seed N] [--one-in N]
 *
 * N random edits are made, and as many tables and layout files spoiled at random, by default 20,000. They follow from
 * the seed, by default 1. Of all other texts by chance one in N is made, by default all. With SMALL_MEMORY defined, the
 * two tests that need the largest tables are left out.
 */
#include "chance.h"
#include "harness.h"

#include <stdio.h>
#include <stdlib.h>
#include <string.h>

static int usage(void)
{
    fprintf(stderr, "usage: checks [--edits N] [--seed N] [--one-in N]\n");
    return 2;
}

/* Is it a number, which is put at `n`. */
static int read_number(const char *word, unsigned long *n)
{
    char *end;
    *n = strtoul(word, &end, 10);
    return end != word && *end == '\0';
}

int main(int count, char **words)
{
    static const char *const names[] = {"--edits", "--seed", "--one-in"};
    unsigned long numbers[] = {20000, 1, 1};
    for (int i = 1; i < count; i += 2) {
        size_t which = 0;
        while (which < 3 && strcmp(words[i], names[which]) != 0) {
            which++;
        }
        if (which == 3 || i + 1 == count || !read_number(words[i + 1], &numbers[which])) {
            return usage();
        }
    }
    unsigned long edits = numbers[0], seed = numbers[1];
    make_one_in(numbers[2]);
    printf("settings\n");
    test_settings();
    printf("texts by length\n");
    test_lengths();
    printf("texts by sequence\n");
    test_sequences();
    printf("random texts\n");
    test_random();
    printf("tokens\n");
    test_tokens();
    printf("layouts\n");
    test_layout();
    printf("events\n");
    test_events();
    printf("tables\n");
    test_tables();
    printf("heights\n");
    test_heights();
    printf("indexes of ys\n");
    test_index();
#ifndef SMALL_MEMORY
    printf("laying again\n");
    test_again();
#endif
    printf("laying again, refused\n");
    test_refused();
    printf("texts by both wraps\n");
    test_wraps();
    printf("texts in their boxes\n");
    test_inside();
    printf("characters before lines\n");
    test_characters();
    printf("lines one by one\n");
    test_one_line();
    printf("bad starts and rests\n");
    test_bad_starts();
    printf("a long text or a short one\n");
    test_choosing();
    printf("pages\n");
    test_pages();
    printf("box widths for so many lines\n");
    test_columns();
    printf("justified texts\n");
    test_even();
    printf("layout files\n");
    test_files();
    printf("%lu damaged files, seed %lu\n", edits, seed);
    test_damaged(edits, seed);
    printf("%lu spoiled tables, seed %lu\n", edits, seed);
    test_spoiled(edits, seed);
#ifndef SMALL_MEMORY
    printf("%lu random edits, seed %lu\n", edits, seed);
    test_edits(edits, seed);
#endif
    return finish();
}
