/* bisquemop check: lays all texts of a release, and lists those that lose a character. */
#include "characters.h"
#include "command.h"
#include "findings.h"
#include "folders.h"
#include "laid.h"
#include "terminal.h"

#include <stdio.h>
#include <string.h>

static const char help[] =
    "usage: bisquemop check [--widths N,N..] [--json] [OPTION].. FOLDER..\n"
    "\n"
    "Lays every file in the folders, and in those below them, by each width, and\n"
    "prints a line for each file and width by which a character is not on the\n"
    "screen, and for each file that is refused. Hidden files are left out; a file\n"
    "can be given in place of a folder. The last line says how many files there are,\n"
    "how many lose characters and how many are refused. Lines are counted from 1. On\n"
    "a terminal it is shown how far it is.\n"
    "\n"
    "  --widths N,N..   the widths of the box in pixels; --columns takes a list of\n"
    "                   counts of characters so\n"
    "  --json           print a document in JSON instead\n"
    "\n"
    "Exit status: 0 nothing is lost or refused; 1 something is; 2 the words are\n"
    "wrong, or there is no file in a folder.\n";

enum { WIDTHS_MAX = 64 };

/* What is to be done: the widths, in pixels or in characters, the files, and how to say it. */
struct job {
    struct wanted wanted;
    uint32_t widths[WIDTHS_MAX];
    size_t width_count;
    int in_columns, json;
    int some_empty; /* a folder has no file in it */
    struct paths files;
};

static struct text text;
static struct laid laid;

/* ---- the words */

/* Adds the width at the front of a list. Answers what follows it, behind a comma, or NULL. */
static const char *add_width(struct words *words, struct job *job, const char *list)
{
    char width[12] = "";
    size_t count = strcspn(list, ",");
    long number;
    if (count < sizeof width) {
        memcpy(width, list, count);
    }
    if (!read_number(width, &number) || number < 0 || number > BISQUEMOP_WIDTH_MAX) {
        misused(words, "%s %s: widths are numbers from 0 to %d, with commas between them", words->word, words->given,
                BISQUEMOP_WIDTH_MAX);
    }
    if (job->width_count == WIDTHS_MAX) {
        misused(words, "at most %d widths", WIDTHS_MAX);
    }
    job->widths[job->width_count++] = (uint32_t)number;
    return list[count] ? list + count + 1 : NULL;
}

static void take_widths(struct words *words, struct job *job, int in_columns)
{
    const char *list = option_value(words);
    if (job->width_count > 0) {
        misused(words, "the widths are given twice");
    }
    job->in_columns = in_columns;
    while (list) {
        list = add_width(words, job, list);
    }
}

static void take_option(struct words *words, struct job *job)
{
    if (is_option(words, "--widths") || is_option(words, "--width")) {
        take_widths(words, job, 0);
    } else if (is_option(words, "--columns")) {
        take_widths(words, job, 1);
    } else if (is_option(words, "--json")) {
        option_alone(words);
        job->json = 1;
    } else if (!takes_setting(words, &job->wanted)) {
        unknown_option(words);
    }
}

static void take_folder(struct words *words, struct job *job)
{
    size_t before = job->files.count;
    int error = add_files(&job->files, words->word);
    if (error) {
        misused(words, "%s: %s", words->word, strerror(error));
    }
    if (job->files.count == before) {
        fprintf(stderr, "bisquemop check: ");
        print_foreign(stderr, words->word);
        fprintf(stderr, ": there is no file in it\n");
        job->some_empty = 1;
    }
}

/* Puts the widths into pixels, and the default where there is none. */
static void settle_job(struct words *words, struct job *job)
{
    if (job->width_count == 0) {
        job->widths[job->width_count++] = DEFAULT_COLUMNS;
        job->in_columns = 1;
    }
    for (size_t k = 0; k < job->width_count && job->in_columns; k++) {
        job->widths[k] = pixels_of(words, job->widths[k], job->wanted.settings.glyph);
    }
    job->wanted.settings.width = job->widths[0];
    settle(words, &job->wanted);
    sort_paths(&job->files);
}

/* ---- the work */

/* Lays the text by every width. Answers whether it loses something by one of them. */
static int loses(struct job *job)
{
    int some = 0;
    for (size_t k = 0; k < job->width_count; k++) {
        job->wanted.settings.width = job->widths[k];
        lay(&laid, &text, &job->wanted);
        if (!all_shows(&laid)) {
            find_lost(&laid);
            some = 1;
        }
    }
    return some;
}

/* Reads one of the files, or answers that it cannot be used and why. */
static int read_one(const struct path *path, int chomp, struct trouble *trouble)
{
    if (path->error) {
        text.path = path->name;
        trouble->error = path->error;
        trouble->number = BISQUEMOP_OK;
        return 0;
    }
    return read_text_file(path->name, chomp, &text, trouble);
}

static struct tally check_files(struct job *job)
{
    struct tally tally = {job->files.count, 0, 0};
    for (size_t k = 0; k < job->files.count; k++) {
        struct trouble trouble;
        show_progress(k, tally.files, tally.lose);
        if (!read_one(&job->files.all[k], job->wanted.chomp, &trouble)) {
            find_refused(&trouble, &text);
            tally.refused++;
        } else if (loses(job)) {
            tally.lose++;
        }
    }
    return tally;
}

static int run(struct words *words)
{
    struct job job = {.wanted = nothing_wanted()};
    struct tally tally;
    int folders = 0;
    for (enum word word = next_word(words); word != WORD_END; word = next_word(words)) {
        if (word == WORD_OPERAND) {
            take_folder(words, &job);
            folders++;
        } else {
            take_option(words, &job);
        }
    }
    if (folders == 0) {
        misused(words, "give the folders of the texts");
    }
    settle_job(words, &job);
    begin_findings(job.json, job.widths, job.width_count);
    tally = check_files(&job);
    end_findings(&tally, job.width_count);
    free_paths(&job.files);
    if (job.some_empty) {
        return NOT_DONE;
    }
    return tally.lose > 0 || tally.refused > 0 ? SOME_LOST : ALL_SHOWS;
}

const struct subcommand check_command = {"check", "list the texts in folders that lose a character", help, 1, run};
