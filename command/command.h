/* What the subcommands have in common: how each is found and explained, and the exit statuses. */
#ifndef COMMAND_H
#define COMMAND_H

#include "words.h"

/* The exit statuses of every subcommand. */
enum {
    ALL_SHOWS = 0, /* done, and nothing is lost */
    SOME_LOST = 1, /* a character is not on the screen, or there is no such width */
    NOT_DONE = 2   /* the words are wrong, or something was refused */
};

struct subcommand {
    const char *name;
    const char *summary;
    const char *help;
    int takes_settings; /* then the help goes on with that of the settings */
    int (*run)(struct words *words);
};

extern const struct subcommand show_command, fit_command, pages_command, file_command, check_command;

/* The status to end by, once all that was to be said is printed to standard output. Where it cannot be, that is said
   and the status is another one: what could not be printed was not said. */
int when_printed(int status);

/* Prints the whole help of a subcommand to standard output. */
void print_help(const struct subcommand *subcommand);

#endif
