/*
 * A month of clues in numbers, a second time: from the line tables that the library writes. It is given the file of widths and the clues, each
 * read whole, and prints what the program month prints.
 */
#include <bisquemop.h>

#include <inttypes.h>
#include <stdio.h>
#include <stdlib.h>
#include <string.h>

enum { LIMIT = 65535, MOST_WIDTHS = 64, WIDEST = 4096 };

struct text {
    uint8_t *bytes;
    size_t len;
};

struct figures {
    uint64_t texts, lines, broken, dropped, too_long, not_utf8, most;
};

static uint32_t table[BISQUEMOP_LINE_NUMBERS * (LIMIT + 1)];

static struct text read_all(const char *path)
{
    FILE *file = fopen(path, "rb");
    struct text t = {NULL, 0};
    size_t room = 0, got = 1;
    if (!file) {
        perror(path);
        exit(2);
    }
    while (got > 0) {
        if (t.len == room && !(t.bytes = realloc(t.bytes, room += 1 << 20)))
            exit(2);
        t.len += got = fread(t.bytes + t.len, 1, room - t.len, file);
    }
    fclose(file);
    return t;
}

/* The line at *at, and *at behind its line feed. */
static struct text next_line(struct text t, size_t *at)
{
    uint8_t *feed = memchr(t.bytes + *at, '\n', t.len - *at);
    size_t end = feed ? (size_t)(feed - t.bytes) : t.len;
    struct text line = {t.bytes + *at, end - *at};
    *at = end + 1;
    return line;
}

static int width_of(struct text line, uint32_t *width)
{
    *width = 0;
    if (line.len < 1 || line.len > 4)
        return 0;
    for (size_t k = 0; k < line.len; k++) {
        if (line.bytes[k] < '0' || line.bytes[k] > '9')
            return 0;
        *width = 10 * *width + (line.bytes[k] - '0');
    }
    return *width <= WIDEST;
}

static void add(struct figures *f, struct text clue, uint32_t width)
{
    uint64_t value = 0;
    uint32_t number = bisquemop_layout(6, width, 24, 0, 0, 1, 0, 0, 0, 0, 1, 0, 0, clue.bytes, clue.len, table,
                                       sizeof table / sizeof *table, &value);
    f->texts++;
    if (number == BISQUEMOP_TEXT_TOO_LONG)
        f->too_long++;
    else if (number == BISQUEMOP_NOT_UTF8)
        f->not_utf8++;
    else if (number != 0)
        exit(2);
    if (number != 0)
        return;
    f->lines += value;
    f->most = value > f->most ? value : f->most;
    for (uint64_t k = 0; k < value; k++) {
        const uint32_t *line = table + BISQUEMOP_LINE_NUMBERS * k;
        f->broken += line[3] == 3;
        f->dropped += line[8];
    }
}

int main(int argc, char **argv)
{
    uint32_t widths[MOST_WIDTHS];
    size_t count = 0;
    if (argc != 3)
        return 2;
    struct text file = read_all(argv[1]), clues = read_all(argv[2]);
    for (size_t at = 0; at < file.len; count++) {
        if (count == MOST_WIDTHS || !width_of(next_line(file, &at), &widths[count])) {
            printf("refused 13 %zu\n", count);
            return 0;
        }
    }
    for (size_t k = 0; k < count; k++) {
        struct figures f = {0, 0, 0, 0, 0, 0, 0};
        for (size_t at = 0; at < clues.len;)
            add(&f, next_line(clues, &at), widths[k]);
        printf("width %" PRIu32 " texts %" PRIu64 " lines %" PRIu64 " broken %" PRIu64 " dropped %" PRIu64
               " refused %" PRIu64 " %" PRIu64 " most %" PRIu64 "\n",
               widths[k], f.texts, f.lines, f.broken, f.dropped, f.too_long, f.not_utf8, f.most);
    }
    return 0;
}
