/* What a check found, as lines for people or as JSON. */
#include "findings.h"

#include "characters.h"
#include "json.h"
#include "refusals.h"
#include "terminal.h"

#include <inttypes.h>
#include <stdio.h>
#include <string.h>

static int in_json;
static uint64_t found;

/* ---- lines for people */

enum { LINES_SAID = 3 };

/* The first lines that drop something, with what each drops. */
static void say_lines(const struct laid *laid)
{
    uint64_t said = 0;
    for (uint64_t line = 0; line < laid->lines; line++) {
        struct stretch dropped = dropped_by(laid, line);
        if (dropped.at < dropped.end && said++ < LINES_SAID) {
            printf(", line %" PRIu64 ": \"", line + 1);
            print_characters(stdout, dropped.at, dropped.end);
            printf("\"");
        }
    }
    if (said > LINES_SAID) {
        printf(", and %" PRIu64 " more", said - LINES_SAID);
    }
}

/* A part of the line, if there are any, behind what is to stand before it. Answers what stands before the next part. */
static const char *say_count(const char *before, uint64_t count, const char *one, const char *more)
{
    if (count == 0) {
        return before;
    }
    printf("%s%" PRIu64 " %s", before, count, count == 1 ? one : more);
    return "; ";
}

static void say_lost(const struct laid *laid)
{
    uint64_t dropped = all_dropped(laid);
    const char *before = "";
    print_foreign(stdout, laid->text->path);
    printf(": width %" PRIu32 ": ", laid->wanted->settings.width);
    if (dropped > 0) {
        print_count_of_characters(stdout, dropped);
        printf(" not on the screen");
        say_lines(laid);
        before = "; ";
    }
    before = say_count(before, all_outside(laid), "line is outside of the box", "lines are outside of the box");
    say_count(before, all_jutting(laid), "word juts out of the box", "words jut out of the box");
    printf("\n");
}

/* ---- JSON */

static void begin_object(const struct text *text)
{
    printf("%s\n    {", found == 0 ? "" : ",");
    print_json_path(text->path);
}

static void print_lines(const struct laid *laid)
{
    const char *before = "";
    printf(", \"lines\": [");
    for (uint64_t line = 0; line < laid->lines; line++) {
        struct stretch dropped = dropped_by(laid, line);
        if (dropped.at < dropped.end) {
            printf("%s{\"line\": %" PRIu64 ", \"dropped\": %" PRIu32 ", \"text\": ", before, line + 1,
                   of_line(laid, line, BISQUEMOP_LINE_DROPPED));
            print_json_string(dropped.at, (size_t)(dropped.end - dropped.at));
            printf("}");
            before = ", ";
        }
    }
    printf("]");
}

static void print_lost(const struct laid *laid)
{
    begin_object(laid->text);
    printf(", \"width\": %" PRIu32 ", \"dropped\": %" PRIu64, laid->wanted->settings.width, all_dropped(laid));
    print_lines(laid);
    printf(", \"lines_outside\": %" PRIu64 ", \"words_jutting\": %" PRIu64 "}", all_outside(laid), all_jutting(laid));
}

/* Why in words, and the numbers that go with it. */
static void print_refused(const struct trouble *trouble, const struct text *text)
{
    const char *why = trouble->error ? strerror(trouble->error) : refusal_name(trouble->number);
    begin_object(text);
    printf(", \"refused\": ");
    print_json_string((const uint8_t *)why, strlen(why));
    if (trouble->number == BISQUEMOP_NOT_UTF8) {
        uint64_t line, byte;
        place_in_text(text, trouble->value, &line, &byte);
        printf(", \"offset\": %" PRIu64 ", \"line\": %" PRIu64 ", \"byte\": %" PRIu64, trouble->value, line, byte);
    } else if (trouble->number == BISQUEMOP_TEXT_TOO_LONG && trouble->value == MORE_THAN_ROOM) {
        printf(", \"longer_than\": %lu", (unsigned long)sizeof text->bytes);
    } else if (trouble->number == BISQUEMOP_TEXT_TOO_LONG) {
        printf(", \"length\": %" PRIu64, trouble->value);
    }
    printf("}");
}

/* ---- either */

void begin_findings(int json, const uint32_t *widths, size_t width_count)
{
    in_json = json;
    if (in_json) {
        printf("{\n  \"widths\": [");
        for (size_t k = 0; k < width_count; k++) {
            printf("%s%" PRIu32, k == 0 ? "" : ", ", widths[k]);
        }
        printf("],\n  \"findings\": [");
    }
}

void find_lost(const struct laid *laid)
{
    clear_progress();
    if (in_json) {
        print_lost(laid);
    } else {
        say_lost(laid);
    }
    found++;
}

void find_refused(const struct trouble *trouble, const struct text *text)
{
    clear_progress();
    if (in_json) {
        print_refused(trouble, text);
    } else {
        say_text_trouble(stdout, trouble, text);
    }
    found++;
}

void end_findings(const struct tally *tally, size_t width_count)
{
    clear_progress();
    if (in_json) {
        printf("%s],\n  \"files\": %" PRIu64 ",\n  \"lose\": %" PRIu64 ",\n  \"refused\": %" PRIu64 "\n}\n",
               found == 0 ? "" : "\n  ", tally->files, tally->lose, tally->refused);
    } else {
        printf("%" PRIu64 " %s, %lu %s: %" PRIu64 " %s characters, %" PRIu64 " refused\n", tally->files,
               tally->files == 1 ? "file" : "files", (unsigned long)width_count, width_count == 1 ? "width" : "widths",
               tally->lose, tally->lose == 1 ? "loses" : "lose", tally->refused);
    }
}
