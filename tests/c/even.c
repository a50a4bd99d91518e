/*
 * Random texts, justified. Every space that moves the pen is as wide as the line's space width and extra pixels say;
 * no space is narrower than a glyph; and in a text with neither tabs nor soft hyphens, with leading spaces on, every
 * line whose spaces are wider than plain ones ends at the box's right edge. The seed is fixed.
 * Rule 5, rule 6, rule 12, rule 13.
 */
#include "chance.h"
#include "harness.h"
#include "rules.h"

#include <stdio.h>

#define TEXTS share_of(30000)
#define LONGEST 60 /* characters of a text */
#define LINE BISQUEMOP_LINE_NUMBERS
#define EVENT BISQUEMOP_EVENT_NUMBERS
#define BYTES (4 * LONGEST)

static uint32_t table[LINE * (BYTES + 1)], drawn[EVENT * BYTES];

/* How many lines were of a kind that matters. */
static unsigned long wider, uneven, at_the_edge;

static uint32_t of_event(uint64_t event, enum bisquemop_event_column column)
{
    return drawn[EVENT * event + column];
}

/* Whether an event is of a line that ends at an offset. A print of no text goes with what it is printed behind. */
static int in_line(uint64_t event, uint32_t line_end)
{
    return of_event(event, BISQUEMOP_EVENT_START) < line_end ||
           of_event(event, BISQUEMOP_EVENT_START) == of_event(event, BISQUEMOP_EVENT_END);
}

/* The width of n spaces after k others. */
static uint32_t spaces_width(uint32_t space, uint32_t extra, uint32_t k, uint32_t n)
{
    uint32_t left = k < extra ? extra - k : 0;
    return n * space + (n < left ? n : left);
}

static int is_wider(struct bisquemop_settings s, uint64_t line)
{
    return line_number(table, line, BISQUEMOP_LINE_SPACE) > s.glyph ||
           line_number(table, line, BISQUEMOP_LINE_EXTRA) > 0;
}

/* A line's spaces from an event on, and where its last print ends. Answers the next line's first event. */
static uint64_t one_line(const char *what, uint64_t line, uint64_t event, uint64_t events, uint32_t line_end,
                         uint32_t *end)
{
    uint32_t space = line_number(table, line, BISQUEMOP_LINE_SPACE);
    uint32_t extra = line_number(table, line, BISQUEMOP_LINE_EXTRA);
    uint32_t k = 0;
    *end = 0;
    for (; event < events && in_line(event, line_end); event++) {
        uint32_t n = of_event(event, BISQUEMOP_EVENT_COUNT), width = of_event(event, BISQUEMOP_EVENT_WIDTH);
        expect(what, n == 0 || width == 0 || width == spaces_width(space, extra, k, n));
        uneven += n > 0 && width > n * space;
        k += n;
        if (of_event(event, BISQUEMOP_EVENT_KIND) == BISQUEMOP_DRAWN_PRINTED) {
            *end = of_event(event, BISQUEMOP_EVENT_X) + width;
        }
    }
    return event;
}

/* A tab or a soft hyphen, which is C2 AD. No other character has these bytes side by side. */
static int is_simple(const uint8_t *text, size_t len)
{
    for (size_t i = 0; i < len; i++) {
        if (text[i] == '\t' || (text[i] == 0xC2 && i + 1 < len && text[i + 1] == 0xAD)) {
            return 0;
        }
    }
    return 1;
}

/* Every other text has neither tabs nor soft hyphens: spaces stand in their place. */
static void simplify(uint8_t *text, size_t len)
{
    for (size_t i = 0; i < len; i++) {
        if (text[i] == '\t') {
            text[i] = ' ';
        } else if (text[i] == 0xC2 && i + 1 < len && text[i + 1] == 0xAD) {
            text[i + 1] = 0xA0;
        }
    }
}

static void one_text(const char *what, struct bisquemop_settings s)
{
    static uint8_t text[BYTES];
    uint64_t lines = 0, events = 0, event = 0;
    size_t len = random_text(text, below(LONGEST + 1));
    s.alignment = BISQUEMOP_ALIGN_JUSTIFIED;
    if (below(2) == 0) {
        simplify(text, len);
    }
    expect(what, bisquemop_settings_layout_events(&s, text, len, table, LINE * (len + 1), drawn, EVENT * len, &lines,
                                                  &events) == BISQUEMOP_OK);
    for (uint64_t line = 0; line < lines; line++) {
        uint32_t line_end = line + 1 < lines ? line_number(table, line + 1, BISQUEMOP_LINE_START) : (uint32_t)len;
        uint32_t end;
        event = one_line(what, line, event, events, line_end, &end);
        expect(what, line_number(table, line, BISQUEMOP_LINE_SPACE) >= s.glyph);
        wider += is_wider(s, line);
        if (is_wider(s, line) && s.leading == 1 && is_simple(text, len)) {
            expect(what, end == s.width);
            at_the_edge++;
        }
    }
    expect(what, event == events);
}

void test_even(void)
{
    test_by_chance(113, TEXTS, "justified", one_text);
    printf("%lu texts: %lu justified lines with room; %lu spaces with extra pixels; %lu lines held to the edge\n",
           TEXTS, wider, uneven, at_the_edge);
    expect_of_all("justified lines, spaces with extra pixels, and lines at the edge",
                  wider >= TEXTS / 10 && uneven >= TEXTS / 10 && at_the_edge >= TEXTS / 100);
}
