/* bisquemop fit: the smallest width by which a text has so many lines and loses nothing. */
#include "command.h"
#include "laid.h"
#include "refusals.h"

#include <inttypes.h>
#include <stdio.h>

static const char help[] =
    "usage: bisquemop fit --lines N [OPTION].. FILE\n"
    "\n"
    "Proposes a width for the text of FILE, or of standard input for -: the smallest\n"
    "by which it has at most N lines and no character is dropped. Prints 'width W',\n"
    "in pixels, and 'columns C', the smallest such width that is so many whole\n"
    "characters; or 'none' for either. A wider box may have more lines, so not every\n"
    "wider one is good too. --width and --columns are not for this subcommand.\n"
    "\n"
    "  --lines N        how many lines there may be: 1 to 65536\n"
    "\n"
    "Exit status: 0 there is such a width; 1 there is none; 2 refused, or the words\n"
    "are wrong.\n";

static struct text text;

static int fits(const struct wanted *wanted, uint32_t width, uint32_t lines)
{
    struct bisquemop_settings settings = wanted->settings;
    uint64_t yes;
    uint32_t refused;
    settings.width = width;
    refused = bisquemop_settings_columns_fit(&settings, text.bytes, text.len, lines, &yes);
    must(refused, yes);
    return yes == 1;
}

/* The smallest count of characters from `width` on by which the text fits, and 0 if there is none. */
static void say_columns(const struct wanted *wanted, uint32_t width, uint32_t lines)
{
    uint32_t glyph = wanted->settings.glyph;
    for (uint32_t columns = (width + glyph - 1) / glyph; columns * glyph <= BISQUEMOP_WIDTH_MAX; columns++) {
        if (fits(wanted, columns * glyph, lines)) {
            printf("columns %" PRIu32 "\n", columns);
            return;
        }
    }
    printf("columns none\n");
}

static int propose(const struct wanted *wanted, uint32_t lines)
{
    uint64_t width;
    uint32_t refused = bisquemop_settings_columns_plan(&wanted->settings, text.bytes, text.len, lines, &width);
    must(refused, width);
    if (width == BISQUEMOP_NONE) {
        printf("none\n");
        return SOME_LOST;
    }
    printf("width %" PRIu64 "\n", width);
    say_columns(wanted, (uint32_t)width, lines);
    return ALL_SHOWS;
}

static void take_option(struct words *words, struct wanted *wanted, uint32_t *lines)
{
    if (is_option(words, "--lines")) {
        *lines = (uint32_t)option_number(words, 1, BISQUEMOP_LINES_MAX);
    } else if (is_option(words, "--width") || is_option(words, "--columns")) {
        misused(words, "%s is what this looks for: leave it away", words->word);
    } else if (!takes_setting(words, wanted)) {
        unknown_option(words);
    }
}

static int run(struct words *words)
{
    struct wanted wanted = nothing_wanted();
    const char *path = NULL;
    uint32_t lines = 0;
    for (enum word word = next_word(words); word != WORD_END; word = next_word(words)) {
        if (word == WORD_OPERAND) {
            path = only_operand(words, path);
        } else {
            take_option(words, &wanted, &lines);
        }
    }
    if (lines == 0) {
        misused(words, "say by --lines how many lines there may be");
    }
    settle(words, &wanted);
    must_read_text(words, path, wanted.chomp, &text);
    return propose(&wanted, lines);
}

const struct subcommand fit_command = {"fit", "propose a width by which nothing is lost", help, 1, run};
