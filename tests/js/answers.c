/*
 * What the library for this machine answers, for comparison with what it answers as WebAssembly. Reads cases from standard
 * input, one in a line: thirteen settings, a number of lines, an edit's two offsets, a start, a rest's end and count, a y,
 * and as hexadecimal digits, each from a dot to a semicolon, the text, what the edit inserts, and a short text. Prints of
 * each case a line for each call: its name, the number returned, the value, and what was written. With the word `table` it
 * prints the line of bisquemop_layout alone.
 */
#include "bisquemop.h"

#include <inttypes.h>
#include <stdio.h>
#include <string.h>

enum { TEXT_ROOM = 70000, LINES_ROOM = 2 * BISQUEMOP_LINES_MAX, LINE = BISQUEMOP_LINE_NUMBERS };

struct text {
    uint8_t bytes[TEXT_ROOM];
    uint64_t len;
};

static struct bisquemop_settings settings;
static uint32_t h, a, b, start, rest_end, rest_count;
static int32_t y;
static struct text text, inserted, short_text, edited;
static uint32_t table[LINE * LINES_ROOM], events[BISQUEMOP_EVENT_NUMBERS * BISQUEMOP_EVENTS_MAX];
static uint32_t pages[BISQUEMOP_PAGE_NUMBERS * LINES_ROOM], numbers[BISQUEMOP_TOKEN_NUMBERS * BISQUEMOP_TOKENS_MAX];
static int32_t ys[LINES_ROOM];
static uint8_t file[BISQUEMOP_FILE_BYTES(LINES_ROOM)];

/* ---- what is read */

static int read_text(struct text *to)
{
    unsigned byte;
    to->len = 0;
    if (scanf(" .") != 0) {
        return 0;
    }
    while (scanf("%2x", &byte) == 1) {
        if (to->len == TEXT_ROOM) {
            return 0;
        }
        to->bytes[to->len++] = (uint8_t)byte;
    }
    return getchar() == ';';
}

static int read_case(void)
{
    uint32_t given[BISQUEMOP_SETTINGS_NUMBERS];
    for (int k = 0; k < BISQUEMOP_SETTINGS_NUMBERS; k++) {
        int64_t number;
        if (scanf("%" SCNd64, &number) != 1) {
            return 0;
        }
        given[k] = (uint32_t)number;
    }
    settings = bisquemop_settings_from(given);
    return scanf("%" SCNu32 "%" SCNu32 "%" SCNu32 "%" SCNu32 "%" SCNu32 "%" SCNu32 "%" SCNd32, &h, &a, &b, &start,
                 &rest_end, &rest_count, &y) == 7 &&
           read_text(&text) && read_text(&inserted) && read_text(&short_text);
}

/* ---- what is printed */

static void print_answer(const char *call, uint32_t number, uint64_t value)
{
    printf("%s %" PRIu32 " ", call, number);
    if (number == 0 && value == BISQUEMOP_NONE) {
        printf("none");
    } else {
        printf("%" PRIu64, value);
    }
}

static void print_numbers(const uint32_t *written, uint64_t count)
{
    for (uint64_t k = 0; k < count; k++) {
        printf(" %" PRIu32, written[k]);
    }
    putchar('\n');
}

static void print_ys(uint64_t count)
{
    for (uint64_t k = 0; k < count; k++) {
        printf(" %" PRId32, ys[k]);
    }
    putchar('\n');
}

/* An answer and the records that it counts. */
static void print_records(const char *call, uint32_t number, uint64_t value, const uint32_t *written, uint64_t columns)
{
    print_answer(call, number, value);
    print_numbers(written, number == 0 ? columns * value : 0);
}

static void print_plain(const char *call, uint32_t number, uint64_t value)
{
    print_records(call, number, value, NULL, 0);
}

/* ---- the calls */

static uint64_t print_table(void)
{
    uint64_t value;
    uint32_t number = bisquemop_settings_layout(&settings, text.bytes, text.len, table, LINE * LINES_ROOM, &value);
    print_records("layout", number, value, table, LINE);
    return number == 0 ? value : 0;
}

static void print_text(void)
{
    uint64_t value, count = 0;
    uint32_t next[2] = {0, 0};
    uint32_t number =
        bisquemop_tokens(text.bytes, text.len, numbers, BISQUEMOP_TOKEN_NUMBERS * BISQUEMOP_TOKENS_MAX, &value);
    print_records("tokens", number, value, numbers, BISQUEMOP_TOKEN_NUMBERS);
    number = bisquemop_settings_layout_events(&settings, text.bytes, text.len, table, LINE * LINES_ROOM, events,
                                              BISQUEMOP_EVENT_NUMBERS * BISQUEMOP_EVENTS_MAX, &value, &count);
    print_answer("events", number, value);
    print_numbers(events, number == 0 ? BISQUEMOP_EVENT_NUMBERS * count : 0);
    number = bisquemop_settings_one_line(&settings, text.bytes, text.len, start, rest_end, rest_count, numbers, LINE,
                                         &value, &next[0], &next[1]);
    print_answer("one_line", number, value);
    memcpy(numbers + LINE, next, sizeof next);
    print_numbers(numbers, number == 0 ? LINE + 2 : 0);
}

static void print_places(uint64_t lines)
{
    uint64_t value, length = 0;
    uint32_t number = bisquemop_settings_height(&settings, table, LINE * lines, lines, &value);
    print_plain("height", number, value);
    number = bisquemop_settings_index(&settings, table, LINE * lines, lines, ys, lines, &value);
    print_answer("index", number, value);
    print_ys(number == 0 ? value : 0);
    number = bisquemop_find_line(table, LINE * lines, lines, ys, number == 0 ? lines : 0, y, &value);
    print_plain("find_line", number, value);
    number = bisquemop_settings_write_file(&settings, table, LINE * lines, lines, file, sizeof file, &value);
    print_answer("write_file", number, value);
    length = number == 0 ? value : 0;
    for (uint64_t k = 0; k < length; k++) {
        printf(" %u", file[k]);
    }
    putchar('\n');
    /* half of the cases read a file with a byte changed */
    if (length > 0 && start % 2 == 1) {
        file[start % length] ^= 1;
    }
    number = bisquemop_read_file(file, length, numbers, BISQUEMOP_SETTINGS_NUMBERS, table, LINE * LINES_ROOM, &value,
                                 &length);
    print_answer("read_file", number, value);
    print_numbers(numbers, number == 0 || number == BISQUEMOP_RETIRED_SETTING ? BISQUEMOP_SETTINGS_NUMBERS : 0);
}

static void put_edited(void)
{
    uint64_t from = a < text.len ? a : text.len, to = b < text.len ? b : text.len;
    edited.len = 0;
    memcpy(edited.bytes, text.bytes, from);
    memcpy(edited.bytes + from, inserted.bytes, inserted.len);
    memcpy(edited.bytes + from + inserted.len, text.bytes + to, text.len - to);
    edited.len = from + inserted.len + text.len - to;
}

static void print_again(uint64_t lines)
{
    uint64_t first, value, laid = 0;
    uint32_t number = bisquemop_first_affected(table, LINE * lines, lines, a, b, (uint32_t)inserted.len, &first);
    print_plain("first_affected", number, first);
    if (number != 0) {
        return;
    }
    put_edited();
    number =
        bisquemop_settings_lay_again(&settings, edited.bytes + table[LINE * first], edited.len - table[LINE * first],
                                     table, LINE * LINES_ROOM, lines, a, b, (uint32_t)inserted.len, &value, &laid);
    print_answer("lay_again", number, value);
    printf(" %" PRIu64, laid);
    print_numbers(table, number == 0 ? LINE * value : 0);
}

static void print_lists(void)
{
    uint64_t value, count = 0;
    uint32_t which = 0;
    uint32_t number = bisquemop_settings_pages(&settings, text.bytes, text.len, h, table, LINE * LINES_ROOM, pages,
                                               BISQUEMOP_PAGE_NUMBERS * LINES_ROOM, &value, &count);
    print_answer("pages", number, value);
    print_numbers(pages, number == 0 ? BISQUEMOP_PAGE_NUMBERS * count : 0);
    number = bisquemop_settings_choose(&settings, text.bytes, text.len, short_text.bytes, short_text.len, h, &value,
                                       &which, &count);
    print_answer("choose", number, value);
    if (number == 0) {
        printf(" %" PRIu32 " %" PRIu64, which, count);
    }
    putchar('\n');
    number = bisquemop_settings_columns_fit(&settings, text.bytes, text.len, h, &value);
    print_plain("columns_fit", number, value);
    number = bisquemop_settings_columns_plan(&settings, text.bytes, text.len, h, &value);
    print_plain("columns_plan", number, value);
}

int main(int argc, char **argv)
{
    int table_alone = argc > 1 && strcmp(argv[1], "table") == 0;
    while (read_case()) {
        if (table_alone) {
            print_table();
        } else {
            print_text();
            print_places(print_table());
            print_again(print_table());
            print_lists();
        }
    }
    return 0;
}
