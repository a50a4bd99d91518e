/* Texts as long as a text may be, with the lines and the events that the rules give them. */
#ifndef LONG_TEXTS_H
#define LONG_TEXTS_H

#include "bisquemop.h"

#include <stddef.h>

struct long_text {
    const char *what;
    struct bisquemop_settings settings;
    uint8_t text[BISQUEMOP_TEXT_MAX];
    size_t count, event_count;
    uint32_t lines[BISQUEMOP_LINE_NUMBERS * BISQUEMOP_LINES_MAX];
    uint32_t events[BISQUEMOP_EVENT_NUMBERS * BISQUEMOP_EVENTS_MAX];
};

/* Calls a test with each of them, one after the other. */
void each_long_text(void (*test)(const struct long_text *x));

#endif
