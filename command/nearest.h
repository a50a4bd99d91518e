/* What a word that is not known may have been meant to be. */
#ifndef NEAREST_H
#define NEAREST_H

enum { NEAREST_ROOM = 24 };

/* How many letters have to be put in, taken out or changed to make one word of the other; NEAREST_ROOM for longer
   words. */
unsigned letters_apart(const char *a, const char *b);

/* Whether a word is near enough to one that is known to be meant for it. */
int is_near(const char *word, const char *known);

/* Finds the option in a help that is nearest to a word. It replaces the one in `option` if it is nearer. */
void nearest_option(const char *word, const char *help, char option[NEAREST_ROOM]);

#endif
