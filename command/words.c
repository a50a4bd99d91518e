/* The words of a subcommand, one after the other. */
#include "words.h"

#include "characters.h"
#include "command.h"
#include "nearest.h"
#include "settings.h"

#include <stdarg.h>
#include <stdio.h>
#include <stdlib.h>
#include <string.h>

/* ---- what is wrong */

static void end_by_help(const struct words *words)
{
    fprintf(stderr, "read: bisquemop %s --help\n", words->of->name);
    exit(NOT_DONE);
}

void misused(const struct words *words, const char *format, ...)
{
    va_list arguments;
    fprintf(stderr, "bisquemop %s: ", words->of->name);
    va_start(arguments, format);
    print_sentence(stderr, format, arguments);
    va_end(arguments);
    fprintf(stderr, "\n");
    end_by_help(words);
    abort(); /* which is not reached */
}

/* The options that there are stand in the help, so it is searched for the one that was meant. */
void unknown_option(const struct words *words)
{
    char option[NEAREST_ROOM] = "";
    nearest_option(words->word, words->of->help, option);
    if (words->of->takes_settings) {
        nearest_option(words->word, settings_help, option);
    }
    if (option[0]) {
        misused(words, "there is no option %s; is it %s?", words->word, option);
    }
    misused(words, "there is no option %s", words->word);
}

/* ---- the next word */

/* Parts the option at hand from what stands behind its =. */
static void part_value(struct words *words, char *word)
{
    char *equals = strchr(word, '=');
    words->given = NULL;
    if (equals) {
        *equals = 0;
        words->given = equals + 1;
    }
}

enum word next_word(struct words *words)
{
    char *word;
    if (words->left == 0) {
        return WORD_END;
    }
    word = *words->next++;
    words->left--;
    words->word = word;
    if (words->operands_only || word[0] != '-' || word[1] == 0) {
        return WORD_OPERAND;
    }
    if (strcmp(word, "--") == 0) {
        words->operands_only = 1;
        return next_word(words);
    }
    part_value(words, word);
    if (is_option(words, "--help") || is_option(words, "-h")) {
        print_help(words->of);
        exit(when_printed(ALL_SHOWS));
    }
    return WORD_OPTION;
}

int is_option(const struct words *words, const char *name)
{
    return strcmp(words->word, name) == 0;
}

const char *only_operand(const struct words *words, const char *before)
{
    if (before) {
        misused(words, "one file at a time: %s and %s are two", before, words->word);
    }
    return words->word;
}

/* ---- values */

const char *option_value(struct words *words)
{
    if (!words->given) {
        if (words->left == 0) {
            misused(words, "%s has no value", words->word);
        }
        words->given = *words->next++;
        words->left--;
    }
    return words->given;
}

void option_alone(const struct words *words)
{
    if (words->given) {
        misused(words, "%s has no value, and %s was given", words->word, words->given);
    }
}

int read_number(const char *text, long *number)
{
    int minus = text[0] == '-';
    size_t digits = strspn(text + minus, "0123456789");
    if (digits == 0 || digits > 9 || text[(size_t)minus + digits]) {
        return 0;
    }
    *number = strtol(text, NULL, 10);
    return 1;
}

long option_number(struct words *words, long least, long most)
{
    const char *value = option_value(words);
    long number;
    if (!read_number(value, &number)) {
        misused(words, "%s %s: that is no number; it has to be one from %ld to %ld", words->word, value, least, most);
    }
    if (number < least || number > most) {
        misused(words, "%s %s is out of its range, %ld to %ld", words->word, value, least, most);
    }
    return number;
}

static void unknown_choice(const struct words *words, const char *const *names)
{
    fprintf(stderr, "bisquemop %s: %s ", words->of->name, words->word);
    print_foreign(stderr, words->given);
    fprintf(stderr, " is not known; choose one of");
    for (; *names; names++) {
        fprintf(stderr, " %s", *names);
    }
    fprintf(stderr, "\n");
    end_by_help(words);
}

unsigned option_choice(struct words *words, const char *const *names)
{
    const char *value = option_value(words);
    for (unsigned k = 0; names[k]; k++) {
        if (strcmp(value, names[k]) == 0) {
            return k;
        }
    }
    unknown_choice(words, names);
    return 0;
}
