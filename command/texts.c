/* Reading a text from a file. */
#define _POSIX_C_SOURCE 200809L
#include "texts.h"

#include "command.h"
#include "refusals.h"

#include <errno.h>
#include <stdio.h>
#include <stdlib.h>
#include <string.h>
#include <sys/stat.h>

/* How many bytes there are where `count` have been read and there are more: a file's own number says how many. */
static uint64_t count_all(FILE *file, uint64_t count)
{
    struct stat itself;
    off_t at = ftello(file);
    if (at >= 0 && fstat(fileno(file), &itself) == 0 && S_ISREG(itself.st_mode) && itself.st_size >= at) {
        return count + (uint64_t)(itself.st_size - at);
    }
    return MORE_THAN_ROOM;
}

/* Reads as far as there is room, and a byte more to learn whether that is all. */
static int read_some(FILE *file, uint8_t *bytes, size_t room, uint64_t *len)
{
    *len = fread(bytes, 1, room, file);
    if (*len == room && getc(file) != EOF) {
        *len = count_all(file, room + 1);
        return 0;
    }
    return ferror(file) ? errno : 0;
}

static int read_file(const char *path, uint8_t *bytes, size_t room, uint64_t *len)
{
    FILE *file = fopen(path, "rb");
    int error;
    if (!file) {
        return errno;
    }
    error = read_some(file, bytes, room, len);
    fclose(file);
    return error;
}

int read_bytes(const char *path, uint8_t *bytes, size_t room, uint64_t *len)
{
    return strcmp(path, "-") == 0 ? read_some(stdin, bytes, room, len) : read_file(path, bytes, room, len);
}

static void take_last_line_feed(struct text *text)
{
    if (text->len > 0 && text->len <= sizeof text->bytes && text->bytes[text->len - 1] == '\n') {
        text->len--;
    }
}

/* Checks a text that was read, by what reading it answered. */
static int is_text(int error, int chomp, struct text *text, struct trouble *trouble)
{
    trouble->number = BISQUEMOP_OK;
    trouble->value = 0;
    trouble->error = error;
    if (error) {
        return 0;
    }
    if (chomp) {
        take_last_line_feed(text);
    }
    if (text->len > BISQUEMOP_TEXT_MAX) {
        trouble->number = BISQUEMOP_TEXT_TOO_LONG;
        trouble->value = text->len;
    } else {
        trouble->number = bisquemop_check_text(text->bytes, text->len, &trouble->value);
    }
    return trouble->number == BISQUEMOP_OK;
}

int read_text_file(const char *path, int chomp, struct text *text, struct trouble *trouble)
{
    text->path = path;
    return is_text(read_file(path, text->bytes, sizeof text->bytes, &text->len), chomp, text, trouble);
}

void must_read_text(const struct words *words, const char *path, int chomp, struct text *text)
{
    struct trouble trouble;
    int error;
    if (!path) {
        misused(words, "give the file of the text, or - for standard input");
    }
    text->path = path;
    error = read_bytes(path, text->bytes, sizeof text->bytes, &text->len);
    if (!is_text(error, chomp, text, &trouble)) {
        fprintf(stderr, "bisquemop %s: ", words->of->name);
        say_text_trouble(stderr, &trouble, text);
        exit(NOT_DONE);
    }
}
