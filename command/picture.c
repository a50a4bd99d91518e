/*
 * Lines of a laid text as rows in a frame, with what is lost beside them.
 *
 * A cell is as wide as a glyph, and a run that is printed begins in the cell that its x is in. Two words of a justified
 * line are at least a glyph apart, so that there is a cell between them, and what ends inside of the box ends inside of
 * the frame.
 */
#include "picture.h"

#include "characters.h"
#include "terminal.h"

/* A row while it is drawn: how many cells the frame has, how many are drawn, and whether something juts out. */
struct row {
    uint64_t cells, drawn;
    int juts;
};

static uint64_t cells_of(const struct laid *laid)
{
    return laid->wanted->settings.width / laid->wanted->settings.glyph;
}

void draw_side(const struct laid *laid)
{
    putchar('+');
    for (uint64_t cell = 0; cell < cells_of(laid); cell++) {
        putchar('-');
    }
    printf("+\n");
}

/* ---- a row */

/* The frame's right side stands before the first cell that is outside of it. */
static void begin_cell(struct row *row)
{
    if (row->drawn == row->cells) {
        putchar('|');
    }
    row->drawn++;
}

static void fill_up_to(struct row *row, uint64_t cell)
{
    while (row->drawn < cell) {
        begin_cell(row);
        putchar(' ');
    }
}

static void draw_run(struct row *row, uint64_t cell, struct stretch run)
{
    fill_up_to(row, cell);
    for (; run.at < run.end; run.at += character_bytes(*run.at)) {
        begin_cell(row);
        print_character(stdout, run.at);
    }
}

static void close_row(struct row *row)
{
    fill_up_to(row, row->cells);
    if (row->drawn == row->cells) {
        putchar('|');
    }
}

/* ---- what is said beside a row */

static void say_dropped(const struct laid *laid, uint64_t line)
{
    struct stretch dropped = dropped_by(laid, line);
    if (dropped.at < dropped.end) {
        printf("  ");
        begin_mark();
        print_characters(stdout, dropped.at, dropped.end);
        end_mark();
        putchar(' ');
        print_count_of_characters(stdout, of_line(laid, line, BISQUEMOP_LINE_DROPPED));
        printf(" not on the screen");
    }
}

static void say_beside(const struct laid *laid, uint64_t line, const struct row *row)
{
    say_dropped(laid, line);
    if (row->juts) {
        printf("  juts out of the box");
    }
    if (is_outside(laid, line)) {
        printf("  not on the screen: the line is outside of the box");
    }
    if (line > 0 && of_line(laid, line - 1, BISQUEMOP_LINE_END) == BISQUEMOP_END_CARRIAGE_RETURN) {
        printf("  drawn over the line above, behind a carriage return");
    }
}

/* ---- lines */

static void draw_event(const struct laid *laid, uint64_t event, struct row *row)
{
    const uint8_t *text = laid->text->bytes;
    struct stretch run = {text + of_event(laid, event, BISQUEMOP_EVENT_START),
                          text + of_event(laid, event, BISQUEMOP_EVENT_END)};
    if (of_event(laid, event, BISQUEMOP_EVENT_KIND) == BISQUEMOP_DRAWN_PRINTED && run.at < run.end) {
        draw_run(row, of_event(laid, event, BISQUEMOP_EVENT_X) / laid->wanted->settings.glyph, run);
        row->juts = row->juts || juts_out(laid, event);
    }
}

/* The first event from `event` on that is of no line before `line`: events stand line after line. */
static uint64_t first_event(const struct laid *laid, uint64_t line, uint64_t event)
{
    uint64_t start = line < laid->lines ? of_line(laid, line, BISQUEMOP_LINE_START) : UINT64_MAX;
    while (event < laid->event_count && of_event(laid, event, BISQUEMOP_EVENT_START) < start) {
        event++;
    }
    return event;
}

/* Draws a line whose first event is `event`, and answers the next line's first. */
static uint64_t draw_line(const struct laid *laid, uint64_t line, uint64_t event)
{
    struct row row = {cells_of(laid), 0, 0};
    uint64_t end = first_event(laid, line + 1, event);
    putchar('|');
    for (; event < end; event++) {
        draw_event(laid, event, &row);
    }
    close_row(&row);
    say_beside(laid, line, &row);
    putchar('\n');
    return end;
}

void draw_lines(const struct laid *laid, uint64_t first, uint64_t end)
{
    uint64_t event = first_event(laid, first, 0);
    for (uint64_t line = first; line < end; line++) {
        event = draw_line(laid, line, event);
    }
}
