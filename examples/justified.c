/*
 * A justified paragraph, drawn pixel by pixel: a glyph is one pixel wide here, a pixel is a column, and a space is
 * drawn as a stroke for each of its pixels.
 *
 * What the events have is what an app can compute from the table: a line's first spaces, as many as its extra pixels,
 * are a pixel wider than its space width, and the others are as wide as that. The program holds every line to it, and
 * every justified line to the box's right edge.
 */
#include <bisquemop.h>

#include <inttypes.h>
#include <stdio.h>
#include <string.h>

enum {
    COLUMNS = 36,
    TEXT_ROOM = 400 /* bytes; table and events have room for any text of so many */
};
#define TABLE_LEN (BISQUEMOP_LINE_NUMBERS * (TEXT_ROOM + 1))
#define EVENTS_LEN (BISQUEMOP_EVENT_NUMBERS * TEXT_ROOM)

static const char text[] =
    "Nobody saw the baker leave. But there was flour on the sill, the door stood open, and the "
    "dog that barks at all of us had not barked at all: it sat in the yard, and had a loaf "
    "between its paws.";

static uint32_t table[TABLE_LEN], events[EVENTS_LEN];
static uint64_t lines, event_count;

static uint32_t of_line(uint64_t line, enum bisquemop_line_column column)
{
    return table[BISQUEMOP_LINE_NUMBERS * line + column];
}

static uint32_t of_event(uint64_t event, enum bisquemop_event_column column)
{
    return events[BISQUEMOP_EVENT_NUMBERS * event + column];
}

/* The events of a line begin with this one and end before the next line's first. */
static uint64_t first_event(uint64_t line)
{
    uint32_t start = line < lines ? of_line(line, BISQUEMOP_LINE_START) : UINT32_MAX;
    uint64_t event = 0;
    while (event < event_count && of_event(event, BISQUEMOP_EVENT_START) < start) {
        event++;
    }
    return event;
}

/* Where the last print of a line ends. */
static uint32_t printed_end(uint64_t line)
{
    uint32_t end = 0;
    for (uint64_t event = first_event(line); event < first_event(line + 1); event++) {
        if (of_event(event, BISQUEMOP_EVENT_KIND) == BISQUEMOP_DRAWN_PRINTED) {
            end = of_event(event, BISQUEMOP_EVENT_X) + of_event(event, BISQUEMOP_EVENT_WIDTH);
        }
    }
    return end;
}

static void draw_line(uint64_t line)
{
    char row[COLUMNS + 1];
    memset(row, ' ', COLUMNS);
    row[COLUMNS] = 0;
    for (uint64_t event = first_event(line); event < first_event(line + 1); event++) {
        uint32_t x = of_event(event, BISQUEMOP_EVENT_X), width = of_event(event, BISQUEMOP_EVENT_WIDTH);
        if (of_event(event, BISQUEMOP_EVENT_KIND) == BISQUEMOP_DRAWN_PRINTED) {
            memcpy(row + x, text + of_event(event, BISQUEMOP_EVENT_START), width);
        } else {
            memset(row + x, '_', width);
        }
    }
    printf("  |%s|", row);
}

/* The widths of a line's spaces, and whether each is what the line's entry says. */
static int say_spaces(uint64_t line)
{
    uint32_t space = of_line(line, BISQUEMOP_LINE_SPACE), extra = of_line(line, BISQUEMOP_LINE_EXTRA), k = 0;
    int as_said = 1;
    for (uint64_t event = first_event(line); event < first_event(line + 1); event++) {
        uint32_t width = of_event(event, BISQUEMOP_EVENT_WIDTH);
        if (of_event(event, BISQUEMOP_EVENT_COUNT) == 1 && width > 0) {
            printf(" %" PRIu32, width);
            as_said = as_said && width == (k < extra ? space + 1 : space);
            k++;
        }
    }
    return as_said;
}

/* A line that does not end a paragraph is justified. */
static int is_justified(uint64_t line)
{
    return of_line(line, BISQUEMOP_LINE_END) == BISQUEMOP_END_LINE_BREAK;
}

static int show_line(uint64_t line)
{
    int as_said;
    draw_line(line);
    printf("  spaces");
    as_said = say_spaces(line);
    if (is_justified(line)) {
        printf(", ends at %" PRIu32 "\n", printed_end(line));
    } else {
        printf(", the last line\n");
    }
    return as_said && (!is_justified(line) || printed_end(line) == COLUMNS);
}

static void rule_off(void)
{
    printf("  +");
    for (int column = 0; column < COLUMNS; column++) {
        printf("-");
    }
    printf("+\n");
}

int main(void)
{
    struct bisquemop_settings settings = {0};
    int even = 1;
    uint32_t refused;
    settings.glyph = 1;
    settings.width = COLUMNS;
    settings.base = 1;
    settings.alignment = BISQUEMOP_ALIGN_JUSTIFIED;
    settings.leading = 1;
    settings.wrap = BISQUEMOP_WRAP_WAIT;
    refused = bisquemop_settings_layout_events(&settings, (const uint8_t *)text, sizeof text - 1, table, TABLE_LEN,
                                               events, EVENTS_LEN, &lines, &event_count);
    if (refused != BISQUEMOP_OK) {
        printf("bisquemop_layout_events refused: %" PRIu32 " %" PRIu64 "\n", refused, lines);
        return 1;
    }

    printf("A paragraph, justified, with a stroke for each pixel of a space:\n");
    rule_off();
    for (uint64_t line = 0; line < lines; line++) {
        even = show_line(line) && even;
    }
    rule_off();
    printf(even ? "  every space is as wide as its line's entry says, and every justified line ends at the edge\n"
                : "  A SPACE IS NOT AS WIDE AS ITS LINE'S ENTRY SAYS, OR A JUSTIFIED LINE DOES NOT END AT THE EDGE\n");
    return even ? 0 : 1;
}
