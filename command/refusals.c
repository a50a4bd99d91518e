/* What a refusal means, in words. */
#include "refusals.h"

#include "characters.h"
#include "command.h"

#include <inttypes.h>
#include <stdlib.h>
#include <string.h>

const char *refusal_name(uint32_t number)
{
    static const char *const names[] = {
        "ok",
        "setting out of range",
        "unknown alignment",
        "text too long",
        "not UTF-8",
        "bad line",
        "bad edit",
        "no line",
        "too small",
        "bad field",
        "bad index",
        "old entry",
        "retired setting",
    };
    return number < sizeof names / sizeof names[0] ? names[number] : "unknown";
}

void place_in_text(const struct text *text, uint64_t offset, uint64_t *line, uint64_t *byte)
{
    *line = 1;
    *byte = 1;
    for (uint64_t k = 0; k < offset; k++) {
        ++*byte;
        if (text->bytes[k] == '\n') {
            ++*line;
            *byte = 1;
        }
    }
}

/* ---- texts */

static void say_not_utf8(FILE *out, uint64_t offset, const struct text *text)
{
    uint64_t line, byte;
    place_in_text(text, offset, &line, &byte);
    fprintf(out,
            "not UTF-8: byte %" PRIu64 " of line %" PRIu64 " (offset %" PRIu64
            ", 0x%02x) begins no character; save the file as UTF-8\n",
            byte, line, offset, text->bytes[offset]);
}

static void say_too_long(FILE *out, uint64_t length, const struct text *text)
{
    if (length == MORE_THAN_ROOM) {
        fprintf(out, "text too long: it has more than %lu bytes", (unsigned long)sizeof text->bytes);
    } else {
        fprintf(out, "text too long: it has %" PRIu64 " bytes", length);
    }
    fprintf(out, ", and a text at most %d; part it\n", BISQUEMOP_TEXT_MAX);
}

void say_text_trouble(FILE *out, const struct trouble *trouble, const struct text *text)
{
    print_foreign(out, text->path);
    fprintf(out, ": ");
    if (trouble->error) {
        fprintf(out, "cannot be read: %s\n", strerror(trouble->error));
    } else if (trouble->number == BISQUEMOP_TEXT_TOO_LONG) {
        say_too_long(out, trouble->value, text);
    } else if (trouble->number == BISQUEMOP_NOT_UTF8) {
        say_not_utf8(out, trouble->value, text);
    } else {
        fprintf(out, "%s\n", refusal_name(trouble->number));
    }
}

/* ---- layout files */

static const char *file_advice(const struct trouble *trouble)
{
    switch (trouble->number) {
    case BISQUEMOP_BAD_FIELD:
        if (trouble->value == BISQUEMOP_FILE_BYTES(BISQUEMOP_LINES_MAX)) {
            return "no layout file has more bytes; the file is damaged, or none; write it again";
        }
        return "the file is damaged, or no layout file; write it again";
    case BISQUEMOP_OLD_ENTRY:
        return "the line has ten numbers, as lines had once; lay the text again and write it anew";
    case BISQUEMOP_RETIRED_SETTING:
        return "trailing spaces are retired; lay the text again by the other settings and write it anew";
    case BISQUEMOP_SETTING_OUT_OF_RANGE:
        return "bisquemop show --help has the ranges";
    case BISQUEMOP_UNKNOWN_ALIGNMENT:
        return "bisquemop show --help has the alignments";
    case BISQUEMOP_TEXT_TOO_LONG:
        return "a text has at most 65535 bytes";
    default:
        return "the lines are those of no layout; write it again";
    }
}

/* What the number besides a refusal is. */
static const char *file_place(uint32_t number)
{
    switch (number) {
    case BISQUEMOP_BAD_FIELD:
    case BISQUEMOP_OLD_ENTRY:
        return "at offset ";
    case BISQUEMOP_UNKNOWN_ALIGNMENT:
        return "number ";
    case BISQUEMOP_TEXT_TOO_LONG:
        return "length ";
    case BISQUEMOP_BAD_LINE:
        return "line ";
    default:
        return NULL;
    }
}

void say_file_trouble(FILE *out, const struct trouble *trouble, const char *path)
{
    const char *place = file_place(trouble->number);
    print_foreign(out, path);
    if (trouble->error) {
        fprintf(out, ": cannot be read: %s\n", strerror(trouble->error));
        return;
    }
    fprintf(out, ": %s", refusal_name(trouble->number));
    if (place) {
        fprintf(out, ", %s%" PRIu64, place, trouble->value);
    }
    fprintf(out, ": %s\n", file_advice(trouble));
}

void must(uint32_t number, uint64_t value)
{
    if (number != BISQUEMOP_OK) {
        fprintf(stderr, "bisquemop: refused: %s (%" PRIu64 ")\n", refusal_name(number), value);
        exit(NOT_DONE);
    }
}
