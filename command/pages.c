/* bisquemop pages: a text cut into pages of so many lines. */
#include "characters.h"
#include "command.h"
#include "laid.h"
#include "picture.h"
#include "refusals.h"

#include <inttypes.h>
#include <stdio.h>

static const char help[] =
    "usage: bisquemop pages --lines N [--numbers] [OPTION].. FILE\n"
    "\n"
    "Draws the text of FILE, or of standard input for -, page by page: N lines on\n"
    "each, between rules, as show draws them.\n"
    "\n"
    "  --lines N        how many lines a page has: 1 to 65536\n"
    "  --numbers        print the numbers of each page in its place: its first line,\n"
    "                   counted from 0, and the offsets in bytes where it starts and\n"
    "                   ends\n"
    "\n"
    "Exit status: 0 all is on the screen; 1 a character is not; 2 refused, or the\n"
    "words are wrong.\n";

static struct text text;
static struct laid laid;
static uint32_t pages[BISQUEMOP_PAGE_NUMBERS * BISQUEMOP_LINES_MAX];
static uint64_t page_count;

static uint32_t of_page(uint64_t page, enum bisquemop_page_column column)
{
    return pages[BISQUEMOP_PAGE_NUMBERS * page + column];
}

static void find_pages(const struct wanted *wanted, uint32_t lines)
{
    uint64_t value;
    uint32_t refused = bisquemop_settings_pages(&wanted->settings, text.bytes, text.len, lines, laid.table,
                                                BISQUEMOP_LINE_NUMBERS * BISQUEMOP_LINES_MAX, pages,
                                                BISQUEMOP_PAGE_NUMBERS * BISQUEMOP_LINES_MAX, &value, &page_count);
    must(refused, value);
}

static void print_numbers(void)
{
    for (uint64_t page = 0; page < page_count; page++) {
        printf("page %" PRIu64 ": line %" PRIu32 ", start %" PRIu32 ", end %" PRIu32 "\n", page + 1,
               of_page(page, BISQUEMOP_PAGE_LINE), of_page(page, BISQUEMOP_PAGE_START),
               of_page(page, BISQUEMOP_PAGE_END));
    }
}

static void draw_pages(void)
{
    for (uint64_t page = 0; page < page_count; page++) {
        uint64_t end = page + 1 < page_count ? of_page(page + 1, BISQUEMOP_PAGE_LINE) : laid.lines;
        printf("page %" PRIu64 " of %" PRIu64 "\n", page + 1, page_count);
        draw_side(&laid);
        draw_lines(&laid, of_page(page, BISQUEMOP_PAGE_LINE), end);
        draw_side(&laid);
    }
}

/* Beside the numbers it goes to standard error, which no program reads. */
static int say_dropped(FILE *out)
{
    uint64_t dropped = all_dropped(&laid);
    if (dropped > 0) {
        print_count_of_characters(out, dropped);
        fprintf(out, " not on the screen\n");
    }
    return all_shows(&laid) ? ALL_SHOWS : SOME_LOST;
}

static void take_option(struct words *words, struct wanted *wanted, uint32_t *lines, int *numbers)
{
    if (is_option(words, "--lines")) {
        *lines = (uint32_t)option_number(words, 1, BISQUEMOP_LINES_MAX);
    } else if (is_option(words, "--numbers")) {
        option_alone(words);
        *numbers = 1;
    } else if (!takes_setting(words, wanted)) {
        unknown_option(words);
    }
}

static int run(struct words *words)
{
    struct wanted wanted = nothing_wanted();
    const char *path = NULL;
    uint32_t lines = 0;
    int numbers = 0;
    for (enum word word = next_word(words); word != WORD_END; word = next_word(words)) {
        if (word == WORD_OPERAND) {
            path = only_operand(words, path);
        } else {
            take_option(words, &wanted, &lines, &numbers);
        }
    }
    if (lines == 0) {
        misused(words, "say by --lines how many lines a page has");
    }
    settle(words, &wanted);
    wanted.height_given = 0; /* a page is as high as its lines */
    must_read_text(words, path, wanted.chomp, &text);
    find_pages(&wanted, lines);
    lay(&laid, &text, &wanted);
    if (numbers) {
        print_numbers();
        return say_dropped(stderr);
    }
    draw_pages();
    return say_dropped(stdout);
}

const struct subcommand pages_command = {"pages", "cut a text into pages of so many lines", help, 1, run};
