/* bisquemop file: layout files are written, checked and taken apart. */
#include "characters.h"
#include "command.h"
#include "laid.h"
#include "refusals.h"

#include <errno.h>
#include <inttypes.h>
#include <stdio.h>
#include <stdlib.h>
#include <string.h>

static const char help[] =
    "usage: bisquemop file write -o OUT [OPTION].. FILE\n"
    "       bisquemop file read IN\n"
    "       bisquemop file dump IN\n"
    "\n"
    "A layout file has the settings, the length and the lines of a laid text, as\n"
    "docs/LAYOUT-FILE.md has it byte by byte. 'write' lays the text of FILE and\n"
    "writes its layout file to OUT, 'read' checks a layout file and says what is in\n"
    "it, and 'dump' prints every number in it by name; lines are counted from 0\n"
    "there. A name - is standard input, and as OUT standard output.\n"
    "\n"
    "  -o OUT           where the layout file goes\n"
    "\n"
    "Exit status: 0 done; 1 written, but a character is not on the screen; 2\n"
    "refused, or the words are wrong. Of a bad layout file it is said what is wrong,\n"
    "and where.\n"
    "\n"
    "The options are those of 'write'.\n";

static struct text text;
static struct laid laid;
static struct wanted wanted;
static uint8_t bytes[BISQUEMOP_FILE_BYTES(BISQUEMOP_LINES_MAX)];
static uint64_t len;

/* ---- write */

static void failed(const char *path)
{
    int error = errno;
    fprintf(stderr, "bisquemop file: ");
    print_foreign(stderr, path);
    fprintf(stderr, ": cannot be written: %s\n", strerror(error));
    exit(NOT_DONE);
}

static void write_bytes(const char *path)
{
    int to_standard_output = strcmp(path, "-") == 0;
    FILE *file = to_standard_output ? stdout : fopen(path, "wb");
    if (!file) {
        failed(path);
        return;
    }
    if (fwrite(bytes, 1, (size_t)len, file) != len || fflush(file) != 0) {
        failed(path);
    }
    if (!to_standard_output && fclose(file) != 0) {
        failed(path);
    }
}

/* What was written, on standard error, since the file may go to standard output. */
static int say_written(const char *path)
{
    uint64_t dropped = all_dropped(&laid);
    print_foreign(stderr, strcmp(path, "-") == 0 ? "standard output" : path);
    fprintf(stderr, ": %" PRIu64 " bytes, %" PRIu64 " %s", len, laid.lines, laid.lines == 1 ? "line" : "lines");
    if (dropped > 0) {
        fprintf(stderr, "; ");
        print_count_of_characters(stderr, dropped);
        fprintf(stderr, " not on the screen");
    }
    fprintf(stderr, "\n");
    return dropped > 0 ? SOME_LOST : ALL_SHOWS;
}

static int write_layout(struct words *words)
{
    const char *path = NULL, *to = NULL;
    uint32_t refused;
    for (enum word word = next_word(words); word != WORD_END; word = next_word(words)) {
        if (word == WORD_OPERAND) {
            path = only_operand(words, path);
        } else if (is_option(words, "-o")) {
            to = option_value(words);
        } else if (!takes_setting(words, &wanted)) {
            unknown_option(words);
        }
    }
    if (!to) {
        misused(words, "say by -o where the layout file goes");
    }
    settle(words, &wanted);
    must_read_text(words, path, wanted.chomp, &text);
    lay_lines(&laid, &text, &wanted);
    refused = bisquemop_settings_write_file(&wanted.settings, laid.table, BISQUEMOP_LINE_NUMBERS * BISQUEMOP_LINES_MAX,
                                            laid.lines, bytes, sizeof bytes, &len);
    must(refused, len);
    write_bytes(to);
    return say_written(to);
}

/* ---- read */

/* Reads a layout file into the bytes, or says why not. One that is longer than any has no end where one would be, and
   is not read to its own. */
static int read_in(const char *path, struct trouble *trouble)
{
    trouble->number = BISQUEMOP_OK;
    trouble->error = read_bytes(path, bytes, sizeof bytes, &len);
    if (trouble->error == 0 && len > sizeof bytes) {
        trouble->number = BISQUEMOP_BAD_FIELD;
        trouble->value = sizeof bytes;
    }
    return trouble->error == 0 && trouble->number == BISQUEMOP_OK;
}

/* Takes the bytes apart, or says why not. */
static int take_apart(struct trouble *trouble)
{
    uint32_t numbers[BISQUEMOP_SETTINGS_NUMBERS];
    trouble->number = bisquemop_read_file(bytes, len, numbers, BISQUEMOP_SETTINGS_NUMBERS, laid.table,
                                          BISQUEMOP_LINE_NUMBERS * BISQUEMOP_LINES_MAX, &laid.lines, &text.len);
    trouble->value = laid.lines;
    if (trouble->number != BISQUEMOP_OK) {
        return 0;
    }
    wanted.settings = bisquemop_settings_from(numbers);
    return 1;
}

static void must_take_apart(struct words *words)
{
    struct trouble trouble;
    const char *path = NULL;
    for (enum word word = next_word(words); word != WORD_END; word = next_word(words)) {
        if (word == WORD_OPTION) {
            misused(words, "there is no option %s of read and dump", words->word);
        }
        path = only_operand(words, path);
    }
    if (!path) {
        misused(words, "give the layout file, or - for standard input");
    }
    if (!read_in(path, &trouble) || !take_apart(&trouble)) {
        fprintf(stderr, "bisquemop file: ");
        say_file_trouble(stderr, &trouble, path);
        exit(NOT_DONE);
    }
}

static void print_settings(const struct bisquemop_settings *s)
{
    printf("glyph %" PRIu32 "\nwidth %" PRIu32 "\ntab %" PRIu32 "\nspacing %" PRIu32 "\nparagraph %" PRIu32 "\n",
           s->glyph, s->width, s->tab, s->spacing, s->paragraph);
    printf("base %" PRIu32 "\nheight %" PRIu32 "\ntop %" PRId32 "\n", s->base, s->height, s->top);
    printf("align %s\nvertical %s\nleading %s\ntrailing %s\nwrap %s\n", alignment_names[s->alignment],
           vertical_names[s->vertical], switch_names[s->leading], switch_names[s->trailing], wrap_names[s->wrap]);
}

static int read_layout(struct words *words)
{
    must_take_apart(words);
    print_settings(&wanted.settings);
    printf("text %" PRIu64 " bytes\nlines %" PRIu64 "\ndropped %" PRIu64 "\n", text.len, laid.lines,
           all_dropped(&laid));
    return ALL_SHOWS;
}

/* ---- dump */

static void print_line(uint64_t line)
{
    static const char *const names[BISQUEMOP_LINE_NUMBERS] = {
        "start", "rest end", "rest count", "end", "left", "space", "extra", "width", "dropped", "reach", "characters"};
    static const char *const ends[] = {"new line", "carriage return", "end of text", "line break"};
    printf("line %" PRIu64, line);
    for (enum bisquemop_line_column column = 0; column < BISQUEMOP_LINE_NUMBERS; column++) {
        printf("%s %s ", column == 0 ? ":" : ",", names[column]);
        if (column == BISQUEMOP_LINE_END) {
            printf("%s", ends[of_line(&laid, line, column)]);
        } else {
            printf("%" PRIu32, of_line(&laid, line, column));
        }
    }
    printf("\n");
}

static int dump_layout(struct words *words)
{
    must_take_apart(words);
    print_settings(&wanted.settings);
    printf("text %" PRIu64 " bytes\n", text.len);
    for (uint64_t line = 0; line < laid.lines; line++) {
        print_line(line);
    }
    return ALL_SHOWS;
}

/* ---- which of them */

static int run(struct words *words)
{
    enum word word = next_word(words);
    wanted = nothing_wanted();
    if (word == WORD_END) {
        misused(words, "say what: write, read or dump");
    }
    if (word == WORD_OPTION) {
        unknown_option(words);
    }
    if (strcmp(words->word, "write") == 0) {
        return write_layout(words);
    }
    if (strcmp(words->word, "read") == 0) {
        return read_layout(words);
    }
    if (strcmp(words->word, "dump") == 0) {
        return dump_layout(words);
    }
    misused(words, "%s is none of write, read and dump", words->word);
}

const struct subcommand file_command = {"file", "write, check or take apart a layout file", help, 1, run};
