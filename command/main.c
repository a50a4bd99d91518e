/*
 * bisquemop: text layout for small screens, from a terminal. It is linked with the library, and all that it says of a
 * layout comes from the library's own calls.
 *
 * Here its first word is looked at; each subcommand has a file of its own.
 */
#define _POSIX_C_SOURCE 200809L
#include "characters.h"
#include "command.h"
#include "nearest.h"
#include "settings.h"

#include <errno.h>
#include <fcntl.h>
#include <stdio.h>
#include <stdlib.h>
#include <string.h>
#include <unistd.h>

static const struct subcommand *const subcommands[] = {&show_command, &fit_command, &pages_command, &file_command,
                                                       &check_command};
enum { SUBCOMMANDS = sizeof subcommands / sizeof subcommands[0] };

/* ---- help */

static void print_usage(FILE *out)
{
    fprintf(out, "usage: bisquemop SUBCOMMAND [OPTION].. FILE\n\n");
    for (int k = 0; k < SUBCOMMANDS; k++) {
        fprintf(out, "  %-7s %s\n", subcommands[k]->name, subcommands[k]->summary);
    }
    fprintf(out,
            "\n'bisquemop help SUBCOMMAND' explains one of them, 'bisquemop --version' says\n"
            "which version this is. Exit status: 0 nothing is lost; 1 a character is not on\n"
            "the screen; 2 refused, or the words are wrong.\n");
}

void print_help(const struct subcommand *subcommand)
{
    printf("%s%s", subcommand->help, subcommand->takes_settings ? settings_help : "");
}

/* ---- the first word */

static const struct subcommand *find_subcommand(const char *name)
{
    for (int k = 0; k < SUBCOMMANDS; k++) {
        if (strcmp(name, subcommands[k]->name) == 0) {
            return subcommands[k];
        }
    }
    return NULL;
}

static int unknown_word(const char *word)
{
    fprintf(stderr, "bisquemop: there is no subcommand ");
    print_foreign(stderr, word);
    for (int k = 0; k < SUBCOMMANDS; k++) {
        if (is_near(word, subcommands[k]->name)) {
            fprintf(stderr, "; is it %s?", subcommands[k]->name);
            break;
        }
    }
    fprintf(stderr, "\nread: bisquemop --help\n");
    return NOT_DONE;
}

static int help_with(const char *name)
{
    const struct subcommand *subcommand;
    if (!name) {
        print_usage(stdout);
        return ALL_SHOWS;
    }
    subcommand = find_subcommand(name);
    if (!subcommand) {
        return unknown_word(name);
    }
    print_help(subcommand);
    return ALL_SHOWS;
}

static int is_one_of(const char *word, const char *a, const char *b, const char *c)
{
    return strcmp(word, a) == 0 || strcmp(word, b) == 0 || strcmp(word, c) == 0;
}

static int run(int count, char **all)
{
    struct words words = {.left = count - 2, .next = all + 2};
    if (count < 2) {
        print_usage(stderr);
        return NOT_DONE;
    }
    if (is_one_of(all[1], "help", "--help", "-h")) {
        return help_with(all[2]);
    }
    if (is_one_of(all[1], "version", "--version", "-V")) {
        printf("bisquemop " BISQUEMOP_VERSION "\n");
        return ALL_SHOWS;
    }
    words.of = find_subcommand(all[1]);
    return words.of ? words.of->run(&words) : unknown_word(all[1]);
}

/* ---- the streams */

/* A stream that is closed would be the next file that is opened. In its place stands one that can be read where it
   should be written, and written where it should be read, so that it fails as a closed one does. */
static void hold_streams(void)
{
    for (int stream = STDIN_FILENO; stream <= STDERR_FILENO; stream++) {
        if (fcntl(stream, F_GETFD) == -1 && open("/dev/null", stream == STDIN_FILENO ? O_WRONLY : O_RDONLY) == -1) {
            exit(NOT_DONE);
        }
    }
}

/* A line of an error goes out at once, so that it stays whole where others write beside it. */
static void keep_lines_whole(void)
{
    static char line[BUFSIZ];
    setvbuf(stderr, line, _IOLBF, sizeof line);
}

int when_printed(int status)
{
    if (fflush(stdout) != 0 || ferror(stdout)) {
        fprintf(stderr, "bisquemop: standard output: %s\n", strerror(errno));
        return NOT_DONE;
    }
    return status;
}

int main(int count, char **all)
{
    hold_streams();
    keep_lines_whole();
    return when_printed(run(count, all));
}
