/* bisquemop_layout_events: the examples, long texts, buffers of every size that matters, refusals. */
/* Rule 13, refusal 8. */
#include "examples.h"
#include "harness.h"
#include "long_texts.h"

#define LINE BISQUEMOP_LINE_NUMBERS
#define EVENT BISQUEMOP_EVENT_NUMBERS

/* A text's lines and events, in buffers that are just large enough, larger, and smaller. */
static void drawing_is(const char *what, struct bisquemop_settings s, const uint8_t *text, size_t len,
                       const uint32_t *lines, size_t count, const uint32_t *events, size_t event_count)
{
    size_t table = LINE * count, room = EVENT * event_count;
    static const size_t more[] = {0, 1, EVENT - 1, EVENT, 20 * EVENT + 1};
    for (size_t i = 0; i < sizeof more / sizeof more[0]; i++) {
        expect_drawing(what, s, text, len, table, room + more[i], BISQUEMOP_OK, count, lines, event_count, events);
        expect_drawing(what, s, text, len, table + more[i], room, BISQUEMOP_OK, count, lines, event_count, events);
        /* the table is looked at first */
        expect_drawing(what, s, text, len, table - 1, more[i], BISQUEMOP_TOO_SMALL, count, NULL, 0, NULL);
        expect_drawing(what, s, text, len, 0, room + more[i], BISQUEMOP_TOO_SMALL, count, NULL, 0, NULL);
        if (event_count > 0) {
            expect_drawing(what, s, text, len, table + more[i], room - 1, BISQUEMOP_TOO_SMALL, event_count, NULL, 0,
                           NULL);
        }
    }
    if (event_count > 0) {
        expect_drawing(what, s, text, len, table, room - EVENT, BISQUEMOP_TOO_SMALL, event_count, NULL, 0, NULL);
        expect_drawing(what, s, text, len, table, 0, BISQUEMOP_TOO_SMALL, event_count, NULL, 0, NULL);
    }
    /* what is surely enough */
    expect_drawing(what, s, text, len, LINE * (len + 1), EVENT * len, BISQUEMOP_OK, count, lines, event_count, events);
}

static void test_example(const char *what, struct bisquemop_settings s, const uint8_t *text, size_t len,
                         const struct example *x)
{
    drawing_is(what, s, text, len, x->lines, x->count, x->events, x->event_count);
}

static void test_examples(void)
{
    static const uint32_t line[LINE] = {0, 0, 0, 2, 0, 6, 0, 0, 0, 1, 0};
    each_example(test_example);
    drawing_is("no bytes at NULL", laid(6, 30, LEFT, 1, DROP), NULL, 0, line, 1, NULL, 0);
}

static size_t most_events;

/* A long text's lines and events, in buffers that are just large enough, and in ones that lack a number. */
static void test_long_text(const struct long_text *x)
{
    size_t table = LINE * x->count, room = EVENT * x->event_count, len = sizeof x->text;
    expect_drawing(x->what, x->settings, x->text, len, table, room, BISQUEMOP_OK, x->count, x->lines, x->event_count,
                   x->events);
    expect_drawing(x->what, x->settings, x->text, len, table, room - 1, BISQUEMOP_TOO_SMALL, x->event_count, NULL, 0,
                   NULL);
    expect_drawing(x->what, x->settings, x->text, len, table - 1, 0, BISQUEMOP_TOO_SMALL, x->count, NULL, 0, NULL);
    most_events = most_events < x->event_count ? x->event_count : most_events;
}

static void test_long(void)
{
    each_long_text(test_long_text);
    expect("an event for each byte", most_events == BISQUEMOP_TEXT_MAX);
}

static void test_refusal(const struct unlaid *x, size_t table, size_t room)
{
    expect_drawing(x->what, x->settings, x->text, x->len, table, room, x->number, x->value, NULL, 0, NULL);
}

/* Each refusal, with room and with none: settings come first, then the text, then the table, then the event buffer. */
static void test_refusals(void)
{
    static const size_t rooms[] = {0, EVENT - 1, EVENT, 20 * LINE};
    static const uint8_t feeds[] = "\n\n\n\n\n\n\n\n\n\n";
    for (size_t i = 0; i < 16; i++) {
        size_t table = rooms[i / 4], room = rooms[i % 4];
        struct bisquemop_settings good = laid(6, 30, JUSTIFIED, 1, DROP);
        each_unlaid(test_refusal, table, room);
        if (table < 11 * LINE) {
            expect_drawing("eleven lines", good, feeds, 10, table, room, BISQUEMOP_TOO_SMALL, 11, NULL, 0, NULL);
        } else if (room < 10 * EVENT) {
            expect_drawing("ten events", good, feeds, 10, table, room, BISQUEMOP_TOO_SMALL, 10, NULL, 0, NULL);
        }
    }
}

static void test_names(void)
{
    expect("the columns of an event", BISQUEMOP_EVENT_KIND == 0 && BISQUEMOP_EVENT_START == 1 &&
                                          BISQUEMOP_EVENT_END == 2 && BISQUEMOP_EVENT_COUNT == 3 &&
                                          BISQUEMOP_EVENT_WIDTH == 4 && BISQUEMOP_EVENT_X == 5 &&
                                          BISQUEMOP_EVENT_NUMBERS == 6);
    expect("the names of what is drawn",
           BISQUEMOP_DRAWN_SPACE == 0 && BISQUEMOP_DRAWN_PRINTED == 1 && BISQUEMOP_DRAWN_MOVE == 2);
}

void test_events(void)
{
    test_names();
    test_examples();
    test_long();
    test_refusals();
}
