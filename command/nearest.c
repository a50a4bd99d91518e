/* What a word that is not known may have been meant to be. */
#include "nearest.h"

#include <string.h>

static unsigned least_of(unsigned a, unsigned b, unsigned c)
{
    unsigned least = a < b ? a : b;
    return least < c ? least : c;
}

/* One row of the table by which it is computed: from the first letters of a to the first letters of b. */
static void next_row(unsigned row[NEAREST_ROOM], char letter, const char *b, unsigned of_a)
{
    unsigned diagonal = row[0];
    row[0] = of_a;
    for (size_t k = 0; b[k]; k++) {
        unsigned above = row[k + 1];
        row[k + 1] = least_of(above + 1, row[k] + 1, diagonal + (letter != b[k]));
        diagonal = above;
    }
}

unsigned letters_apart(const char *a, const char *b)
{
    unsigned row[NEAREST_ROOM] = {0};
    size_t count = strlen(b);
    if (count >= NEAREST_ROOM || strlen(a) >= NEAREST_ROOM) {
        return NEAREST_ROOM;
    }
    for (unsigned k = 0; k <= count; k++) {
        row[k] = k;
    }
    for (unsigned k = 0; a[k]; k++) {
        next_row(row, a[k], b, k + 1);
    }
    return row[count];
}

int is_near(const char *word, const char *known)
{
    return letters_apart(word, known) <= 2;
}

void nearest_option(const char *word, const char *help, char option[NEAREST_ROOM])
{
    for (const char *at = strstr(help, "--"); at; at = strstr(at + 2, "--")) {
        char known[NEAREST_ROOM];
        size_t count = 2 + strspn(at + 2, "abcdefghijklmnopqrstuvwxyz");
        if (count > 2 && count < NEAREST_ROOM) {
            memcpy(known, at, count);
            known[count] = 0;
            if (is_near(word, known) && (!option[0] || letters_apart(word, known) < letters_apart(word, option))) {
                memcpy(option, known, count + 1);
            }
        }
    }
}
