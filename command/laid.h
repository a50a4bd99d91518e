/* A laid text: its lines, what is drawn in them, and what is lost. */
#ifndef LAID_H
#define LAID_H

#include "settings.h"
#include "texts.h"

struct laid {
    const struct text *text;
    const struct wanted *wanted;
    uint32_t table[BISQUEMOP_LINE_NUMBERS * BISQUEMOP_LINES_MAX];
    uint64_t lines;
    uint32_t events[BISQUEMOP_EVENT_NUMBERS * BISQUEMOP_EVENTS_MAX];
    uint64_t event_count;
    int32_t ys[BISQUEMOP_LINES_MAX]; /* of the lines, where the height was given */
};

/* Some bytes of a text. */
struct stretch {
    const uint8_t *at, *end;
};

/* Lays a text, with its events or without them. */
void lay(struct laid *laid, const struct text *text, const struct wanted *wanted);
void lay_lines(struct laid *laid, const struct text *text, const struct wanted *wanted);

uint32_t of_line(const struct laid *laid, uint64_t line, enum bisquemop_line_column column);
uint32_t of_event(const struct laid *laid, uint64_t event, enum bisquemop_event_column column);

/* Where a line's bytes end: where the next line starts. */
uint64_t line_end(const struct laid *laid, uint64_t line);

/* The characters that a line drops, which are its last. */
struct stretch dropped_by(const struct laid *laid, uint64_t line);

/* How many characters all lines drop. */
uint64_t all_dropped(const struct laid *laid);

/* Whether a line prints something and does not show, since it stands outside of the box whose height was given; and how
   many such lines there are. */
int is_outside(const struct laid *laid, uint64_t line);
uint64_t all_outside(const struct laid *laid);

/* Whether an event prints characters that end past the box's right side, as the rules have it in justified lines with
   characters that glue; and how many such events there are. */
int juts_out(const struct laid *laid, uint64_t event);
uint64_t all_jutting(const struct laid *laid);

/* Whether nothing of the text is lost. */
int all_shows(const struct laid *laid);

#endif
