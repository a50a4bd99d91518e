/* Texts with the lines and the events that the rules give them, and what cannot be laid. */
#ifndef EXAMPLES_H
#define EXAMPLES_H

#include "bisquemop.h"

#include <stddef.h>

enum { LEFT = BISQUEMOP_ALIGN_LEFT, CENTRE, RIGHT, JUSTIFIED };
enum { DROP = BISQUEMOP_WRAP_DROP, WAIT };
enum { SPACE = BISQUEMOP_DRAWN_SPACE, PRINTED, MOVE };

/* Tabs are 24 wide. Spacings, heights and the top, which play no part in a layout, are good. */
struct bisquemop_settings laid(uint32_t glyph, uint32_t width, uint32_t alignment, uint32_t leading, uint32_t wrap);

/*
 * A line: start, rest end, rest count, end type, left, space width, extra, width, dropped, reach, characters before.
 * An event: kind, start, end, count, width, x.
 */
struct example {
    uint32_t glyph, width, alignment, leading, wrap;
    const char *text;
    size_t count;
    uint32_t lines[4 * BISQUEMOP_LINE_NUMBERS];
    size_t event_count;
    uint32_t events[14 * BISQUEMOP_EVENT_NUMBERS];
};

/* The first is the clue that lost a streak. */
extern const struct example examples[];

/* Calls a test with each example's number as its name, its settings, its text and the text's length. One by which
   words are dropped and none is, is the same where words wait, and the test is called with that too. */
void each_example(void (*test)(const char *what, struct bisquemop_settings s, const uint8_t *text, size_t len,
                               const struct example *x));

/* Settings and a text that no call lays, whatever room it has. Where two tests fail, the first of them is told. */
struct unlaid {
    const char *what;
    struct bisquemop_settings settings;
    const uint8_t *text;
    size_t len;
    uint32_t number;
    uint64_t value;
};

/* Calls a test with each of them. */
void each_unlaid(void (*test)(const struct unlaid *x, size_t table_room, size_t events_room), size_t table_room,
                 size_t events_room);

#endif
