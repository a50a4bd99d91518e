/*
 * A clue on a handheld: a bare Cortex-M4 with a screen of one bit a dot, and no operating system.
 *
 * The library says where each line stands and what is drawn in it; this program draws that into the frame buffer with
 * a font of its own, and what the screen would show is printed. Where that is not the whole clue the screen says so: a
 * player must know. Once a word that does not fit is dropped, and once it waits. scripts/run-example handheld runs it.
 */
#include <bisquemop.h>

#include "font.h"

#include <inttypes.h>
#include <stdio.h>
#include <stdlib.h>
#include <string.h>

enum {
    SCREEN_WIDTH = 80, /* dots */
    SCREEN_HEIGHT = 72,
    ROW_BYTES = SCREEN_WIDTH / 8,
    MARGIN = 4,
    COLUMNS = 12,
    LINE_HEIGHT = FONT_HEIGHT + 1,
    NOTE_HEIGHT = FONT_HEIGHT + 2, /* at the screen's foot */
    HIDDEN = SCREEN_HEIGHT,        /* the y of a line that does not show */
    LINES_ROOM = 16,
    EVENTS_ROOM = 64
};
#define TABLE_LEN (BISQUEMOP_LINE_NUMBERS * LINES_ROOM)
#define EVENTS_LEN (BISQUEMOP_EVENT_NUMBERS * EVENTS_ROOM)

/* How the clue is laid; `wrap` is chosen below. */
static struct bisquemop_settings settings = {
    .glyph = FONT_WIDTH,
    .width = COLUMNS * FONT_WIDTH,
    .tab = 4 * FONT_WIDTH,
    .spacing = LINE_HEIGHT,
    .base = FONT_HEIGHT,
    .height = SCREEN_HEIGHT - NOTE_HEIGHT - 2 * MARGIN,
    .top = MARGIN,
    .leading = 1, /* the indents of clues are meant */
};

static uint32_t table[TABLE_LEN], events[EVENTS_LEN];
static uint64_t lines, event_count;
static uint8_t frame[SCREEN_HEIGHT][ROW_BYTES];
static uint32_t left_out; /* characters of the clue that the screen does not show */

/* Every call returns a number, and 0 alone is good. */
static void must(uint32_t number)
{
    if (number != BISQUEMOP_OK) {
        printf("refused: %" PRIu32 "\n", number);
        exit(1);
    }
}

/* ---- the frame buffer */

static void turn_dot(int x, int y)
{
    if (0 <= x && x < SCREEN_WIDTH && 0 <= y && y < SCREEN_HEIGHT) {
        frame[y][x / 8] ^= (uint8_t)(0x80 >> x % 8);
    }
}

static int is_dark(int x, int y)
{
    return (frame[y][x / 8] & 0x80 >> x % 8) != 0;
}

static void draw_character(char character, int x, int y)
{
    for (int row = 0; row < FONT_HEIGHT; row++) {
        for (int column = 0; column < FONT_WIDTH; column++) {
            if (font_has_dot(character, column, row)) {
                turn_dot(x + column, y + row);
            }
        }
    }
}

static void print_edge(void)
{
    for (int x = 0; x < SCREEN_WIDTH + 2; x++) {
        printf("-");
    }
    printf("\n");
}

/* Prints the frame buffer, two rows of dots a line. */
static void print_frame(void)
{
    static const char *const dots[] = {" ", "\u2580", "\u2584", "\u2588"}; /* none, the upper, the lower, both */
    print_edge();
    for (int y = 0; y < SCREEN_HEIGHT; y += 2) {
        printf("|");
        for (int x = 0; x < SCREEN_WIDTH; x++) {
            printf("%s", dots[is_dark(x, y) + 2 * is_dark(x, y + 1)]);
        }
        printf("|\n");
    }
    print_edge();
}

/* ---- the clue */

/* Draws the characters of a printed event. The font has no letter of more than one byte; U+00AD prints as "-". */
static void draw_event(const uint8_t *text, const uint32_t *event, int y)
{
    int x = MARGIN + (int)event[BISQUEMOP_EVENT_X];
    for (uint32_t at = event[BISQUEMOP_EVENT_START]; at < event[BISQUEMOP_EVENT_END]; at++) {
        if ((text[at] & 0xC0) == 0x80) {
            continue; /* a character's first byte alone is drawn */
        }
        int hyphen = text[at] == 0xC2 && text[at + 1] == 0xAD;
        if (y == HIDDEN || x + FONT_WIDTH > SCREEN_WIDTH) {
            left_out++;
        } else {
            draw_character(hyphen ? '-' : text[at] < 0x80 ? (char)text[at] : FONT_BOX, x, y);
        }
        x += FONT_WIDTH;
    }
}

/* Draws what is printed from an event on up to a place in the text, and answers the event after these. */
static uint64_t draw_events(const uint8_t *text, uint64_t k, uint32_t end, int y)
{
    for (; k < event_count && events[BISQUEMOP_EVENT_NUMBERS * k + BISQUEMOP_EVENT_START] < end; k++) {
        const uint32_t *event = events + BISQUEMOP_EVENT_NUMBERS * k;
        if (event[BISQUEMOP_EVENT_KIND] == BISQUEMOP_DRAWN_PRINTED) {
            draw_event(text, event, y);
        }
    }
    return k;
}

/* Draws all lines, one after the other. */
static void draw_lines(const uint8_t *text, uint32_t len)
{
    uint64_t shows, next = 0;
    for (uint64_t line = 0; line < lines; line++) {
        const uint32_t *entry = table + BISQUEMOP_LINE_NUMBERS * line;
        uint32_t end = line + 1 < lines ? entry[BISQUEMOP_LINE_NUMBERS + BISQUEMOP_LINE_START] : len;
        int32_t y;
        must(bisquemop_settings_line_y(&settings, table, TABLE_LEN, lines, line, &shows, &y));
        next = draw_events(text, next, end, shows == BISQUEMOP_SHOWS ? y : HIDDEN);
        left_out += entry[BISQUEMOP_LINE_DROPPED];
    }
}

/* Light letters on dark at the screen's foot. */
static void draw_note(void)
{
    char note[32];
    snprintf(note, sizeof note, "%" PRIu32 " left out", left_out);
    for (int dot = 0; dot < SCREEN_WIDTH * NOTE_HEIGHT; dot++) {
        turn_dot(dot % SCREEN_WIDTH, SCREEN_HEIGHT - NOTE_HEIGHT + dot / SCREEN_WIDTH);
    }
    for (int k = 0; note[k] != 0; k++) {
        draw_character(note[k], MARGIN + FONT_WIDTH * k, SCREEN_HEIGHT - NOTE_HEIGHT + 1);
    }
}

static void show(const char *title, enum bisquemop_wrap wrap)
{
    static const char clue[] = "Who lied?\n            not the baker,\nnot his wife.";
    const uint8_t *text = (const uint8_t *)clue;

    settings.wrap = wrap;
    must(bisquemop_settings_layout_events(&settings, text, sizeof clue - 1, table, TABLE_LEN, events, EVENTS_LEN,
                                          &lines, &event_count));
    memset(frame, 0, sizeof frame);
    left_out = 0;
    draw_lines(text, sizeof clue - 1);
    if (left_out > 0) {
        draw_note();
    }
    printf("%s\n", title);
    print_frame();
}

int main(void)
{
    show("A clue with an indent as wide as the column, by the old rule:", BISQUEMOP_WRAP_DROP);
    show("The same, and words wait for a line with room:", BISQUEMOP_WRAP_WAIT);
    return 0;
}
