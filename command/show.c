/* bisquemop show: a text in a frame, as it will be on the screen. */
#include "characters.h"
#include "command.h"
#include "laid.h"
#include "picture.h"

#include <inttypes.h>
#include <stdio.h>
#include <string.h>

static const char help[] =
    "usage: bisquemop show [OPTION].. FILE\n"
    "\n"
    "Draws the text of FILE, or of standard input for -, in a frame as wide as the\n"
    "box: a row for each line, a cell for each character. Beside a line stands what\n"
    "it drops, red on a terminal and else in brackets. Lines joined by a carriage\n"
    "return stand below one another. --wrap both shows the text by both rules.\n"
    "\n"
    "Exit status: 0 all is on the screen; 1 a character is not; 2 refused, or the\n"
    "words are wrong.\n";

static struct text text;
static struct laid laid;

/* A part of the last line, if there are any. */
static void say_count(uint64_t count, const char *one, const char *more)
{
    if (count > 0) {
        printf("; %" PRIu64 " %s", count, count == 1 ? one : more);
    }
}

static void say_lost(void)
{
    uint64_t dropped = all_dropped(&laid);
    if (dropped > 0) {
        printf("; ");
        print_count_of_characters(stdout, dropped);
        printf(" not on the screen");
    }
    say_count(all_outside(&laid), "line is outside of the box", "lines are outside of the box");
    say_count(all_jutting(&laid), "word juts out of the box", "words jut out of the box");
    printf("%s\n", all_shows(&laid) ? "; all is on the screen" : "");
}

/* Draws it all, and answers the exit status. */
static int show_laid(const struct wanted *wanted)
{
    lay(&laid, &text, wanted);
    draw_side(&laid);
    draw_lines(&laid, 0, laid.lines);
    draw_side(&laid);
    printf("%" PRIu64 " %s", laid.lines, laid.lines == 1 ? "line" : "lines");
    say_lost();
    return all_shows(&laid) ? ALL_SHOWS : SOME_LOST;
}

/* Where words are lost that would wait, that is said. */
static void say_wait(struct wanted wanted)
{
    if (wanted.settings.wrap == BISQUEMOP_WRAP_DROP && all_dropped(&laid) > 0) {
        wanted.settings.wrap = BISQUEMOP_WRAP_WAIT;
        lay_lines(&laid, &text, &wanted);
        if (all_dropped(&laid) == 0) {
            printf("with --wrap wait no character is dropped\n");
        }
    }
}

static int show_both(struct wanted wanted)
{
    int by_drop, by_wait;
    printf("--wrap drop:\n");
    wanted.settings.wrap = BISQUEMOP_WRAP_DROP;
    by_drop = show_laid(&wanted);
    printf("\n--wrap wait:\n");
    wanted.settings.wrap = BISQUEMOP_WRAP_WAIT;
    by_wait = show_laid(&wanted);
    return by_drop > by_wait ? by_drop : by_wait;
}

/* --wrap both is an option of this subcommand alone. Another --wrap behind it takes it back. */
static int takes_both(struct words *words, int *both)
{
    if (!is_option(words, "--wrap")) {
        return 0;
    }
    *both = strcmp(option_value(words), "both") == 0;
    return *both;
}

static int run(struct words *words)
{
    struct wanted wanted = nothing_wanted();
    const char *path = NULL;
    int both = 0, status;
    for (enum word word = next_word(words); word != WORD_END; word = next_word(words)) {
        if (word == WORD_OPERAND) {
            path = only_operand(words, path);
        } else if (!takes_both(words, &both) && !takes_setting(words, &wanted)) {
            unknown_option(words);
        }
    }
    settle(words, &wanted);
    must_read_text(words, path, wanted.chomp, &text);
    if (both) {
        return show_both(wanted);
    }
    status = show_laid(&wanted);
    say_wait(wanted);
    return status;
}

const struct subcommand show_command = {"show", "draw a text in a frame, and mark what is lost", help, 1, run};
