/*
 * Random texts and their boxes. No line is measured wider than the box; and no event ends past the box's right edge,
 * unless the text is justified and has a character that glues. The seed is fixed.
 * Rule 6, rule 8, rule 13.
 */
#include "chance.h"
#include "harness.h"
#include "rules.h"

#include <stdio.h>

#define TEXTS share_of(30000)
#define LONGEST 60 /* characters of a text */
#define LINE BISQUEMOP_LINE_NUMBERS
#define EVENT BISQUEMOP_EVENT_NUMBERS
#define BYTES (4 * LONGEST)

static uint32_t table[LINE * (BYTES + 1)], drawn[EVENT * BYTES];

/* How many texts were of a kind that matters. */
static unsigned long to_the_edge, past_the_edge;

/* U+00A0 is C2 A0, U+2007 is E2 80 87, U+202F is E2 80 AF. No other character has these bytes side by side. */
static int glue_at(const uint8_t *text, size_t left)
{
    if (left < 3 || text[0] != 0xE2) {
        return left >= 2 && text[0] == 0xC2 && text[1] == 0xA0;
    }
    return text[1] == 0x80 && (text[2] == 0x87 || text[2] == 0xAF);
}

static int has_glue(const uint8_t *text, size_t len)
{
    for (size_t i = 0; i < len; i++) {
        if (glue_at(text + i, len - i)) {
            return 1;
        }
    }
    return 0;
}

static int none_wider(uint64_t lines, uint32_t width)
{
    for (uint64_t k = 0; k < lines; k++) {
        if (line_number(table, k, BISQUEMOP_LINE_WIDTH) > width) {
            return 0;
        }
    }
    return 1;
}

/* The furthest that an event of some kinds ends from the box's left. */
static uint32_t furthest(uint64_t events, int moves_alone)
{
    uint32_t most = 0;
    for (uint64_t k = 0; k < events; k++) {
        const uint32_t *event = drawn + EVENT * k;
        uint32_t end = event[BISQUEMOP_EVENT_X] + event[BISQUEMOP_EVENT_WIDTH];
        int counts = !moves_alone || event[BISQUEMOP_EVENT_KIND] == BISQUEMOP_DRAWN_MOVE;
        most = counts && end > most ? end : most;
    }
    return most;
}

static void one_text(const char *what, struct bisquemop_settings s)
{
    static uint8_t text[BYTES];
    uint64_t lines = 0, events = 0;
    size_t len = random_text(text, below(LONGEST + 1));
    expect(what, bisquemop_settings_layout_events(&s, text, len, table, LINE * (len + 1), drawn, EVENT * len, &lines,
                                                  &events) == BISQUEMOP_OK);
    expect(what, none_wider(lines, s.width));
    if (s.alignment != BISQUEMOP_ALIGN_JUSTIFIED || !has_glue(text, len)) {
        expect(what, furthest(events, 0) <= s.width);
        to_the_edge += s.width > 0 && furthest(events, 1) == s.width;
    } else {
        past_the_edge += furthest(events, 0) > s.width;
    }
}

void test_inside(void)
{
    test_by_chance(102, TEXTS, "in its box", one_text);
    printf("%lu texts: %lu with a move to the edge; %lu justified, with a character that glues, past it\n", TEXTS,
           to_the_edge, past_the_edge);
    expect_of_all("texts with a move to the edge, and past it", to_the_edge >= TEXTS / 100 && past_the_edge >= 10);
}
