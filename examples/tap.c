/*
 * A rules page on a phone: which character is under the finger.
 *
 * The page is laid once, with its events, and an index of its lines' ys is kept beside the table. A tap then asks the
 * library for the line under its y, and looks through that line's events for what is drawn under its x. After an edit
 * the text is laid again and the index brought up to date. scripts/run-example tap runs it.
 */
#include <bisquemop.h>

#include <inttypes.h>
#include <stdio.h>
#include <stdlib.h>
#include <string.h>

enum { GLYPH = 6, COLUMNS = 22, LINES_ROOM = 32, EVENTS_ROOM = 256, TEXT_ROOM = 400 };
#define TABLE_LEN (BISQUEMOP_LINE_NUMBERS * LINES_ROOM)
#define EVENTS_LEN (BISQUEMOP_EVENT_NUMBERS * EVENTS_ROOM)

/* The page stands in the middle of its box, so that an edit moves every line of it. */
static const struct bisquemop_settings settings = {
    .glyph = GLYPH,
    .width = COLUMNS * GLYPH,
    .tab = 4 * GLYPH,
    .spacing = 10,
    .paragraph = 4,
    .base = 9,
    .height = 100,
    .top = 20,
    .alignment = BISQUEMOP_ALIGN_CENTRE,
    .vertical = BISQUEMOP_VERTICAL_MIDDLE,
    .wrap = BISQUEMOP_WRAP_WAIT,
};

/* The page: its text, its lines, what is drawn in them, and where each stands. */
static char text[TEXT_ROOM];
static uint32_t len, table[TABLE_LEN], events[EVENTS_LEN];
static uint64_t lines, event_count;
static int32_t ys[LINES_ROOM];

/* Every call returns a number, and 0 alone is good. */
static void must(uint32_t number)
{
    if (number != BISQUEMOP_OK) {
        printf("refused: %" PRIu32 "\n", number);
        exit(1);
    }
}

static uint32_t event_number(uint64_t event, enum bisquemop_event_column column)
{
    return events[BISQUEMOP_EVENT_NUMBERS * event + column];
}

static uint32_t start_of(uint64_t line)
{
    return line < lines ? table[BISQUEMOP_LINE_NUMBERS * line + BISQUEMOP_LINE_START] : len;
}

static void draw_page(void)
{
    must(bisquemop_settings_layout_events(&settings, (const uint8_t *)text, len, table, TABLE_LEN, events, EVENTS_LEN,
                                          &lines, &event_count));
}

static void lay_page(void)
{
    uint64_t count;
    draw_page();
    must(bisquemop_settings_index(&settings, table, TABLE_LEN, lines, ys, LINES_ROOM, &count));
}

/* Puts a word at a place of the text, lays again what that changed, and brings the index up to date. */
static void insert(uint32_t at, const char *word)
{
    uint32_t more = (uint32_t)strlen(word);
    uint64_t first, laid, count, start;
    must(bisquemop_first_affected(table, TABLE_LEN, lines, at, at, more, &first));
    memmove(text + at + more, text + at, len - at);
    memcpy(text + at, word, more);
    len += more;
    start = start_of(first);
    must(bisquemop_settings_lay_again(&settings, (const uint8_t *)text + start, len - start, table, TABLE_LEN, lines,
                                      at, at, more, &lines, &laid));
    must(bisquemop_settings_index_again(&settings, table, TABLE_LEN, lines, first, ys, LINES_ROOM, &count));
    draw_page();
    printf("\n\"%s\" is put in: line %" PRIu64 " is the first that it affects, %" PRIu64 " laid\n", word, first, laid);
}

static void print_page(void)
{
    for (uint64_t line = 0; line < lines; line++) {
        uint32_t start = start_of(line), end = start_of(line + 1), left = BISQUEMOP_LINE_NUMBERS * (uint32_t)line;
        while (end > start && (text[end - 1] == '\n' || text[end - 1] == ' ')) {
            end--;
        }
        printf("%4" PRId32 " |%*s%.*s\n", ys[line], (int)(table[left + BISQUEMOP_LINE_LEFT] / GLYPH), "",
               (int)(end - start), text + start);
    }
}

/* The event of a line that is drawn under x, or `event_count` if none is. Events stand line after line. */
static uint64_t event_under(uint64_t line, uint32_t x)
{
    for (uint64_t event = 0; event < event_count; event++) {
        uint32_t start = event_number(event, BISQUEMOP_EVENT_START), left = event_number(event, BISQUEMOP_EVENT_X);
        int here = start_of(line) <= start && start < start_of(line + 1);
        if (here && left <= x && x < left + event_number(event, BISQUEMOP_EVENT_WIDTH)) {
            return event;
        }
    }
    return event_count;
}

/* What is under the finger. The page has letters of one byte alone, so that a character is a byte. */
static void tap(uint32_t x, int32_t y)
{
    uint64_t line, event;
    must(bisquemop_find_line(table, TABLE_LEN, lines, ys, lines, y, &line));
    printf("a tap at %3" PRIu32 ",%3" PRId32 ": ", x, y);
    if (line == BISQUEMOP_NONE || y >= ys[line] + (int32_t)settings.base) {
        printf("no line\n");
        return;
    }
    event = event_under(line, x);
    if (event == event_count) {
        printf("line %" PRIu64 ", no character\n", line);
    } else if (event_number(event, BISQUEMOP_EVENT_KIND) != BISQUEMOP_DRAWN_PRINTED) {
        printf("line %" PRIu64 ", a space\n", line);
    } else {
        uint32_t at = event_number(event, BISQUEMOP_EVENT_START) + (x - event_number(event, BISQUEMOP_EVENT_X)) / GLYPH;
        printf("line %" PRIu64 ", character %" PRIu32 ", \"%c\"\n", line, at, text[at]);
    }
}

static void tap_around(void)
{
    tap(66, 20);
    tap(66, ys[0]);
    tap(4, ys[0] + 4);
    tap(28, ys[1]);
    tap(70, ys[1] + 8);
    tap(70, ys[1] + 9);
    tap(36, ys[lines - 1]);
    tap(36, 4000);
}

int main(void)
{
    static const char page[] =
        "How to play\nEach clue is true. One baker lies in none of them, and the others wait.\nTap a word.";
    len = (uint32_t)strlen(page);
    memcpy(text, page, len);
    lay_page();
    print_page();
    tap_around();
    insert(12, "There are nine houses. ");
    print_page();
    tap_around();
    return 0;
}
