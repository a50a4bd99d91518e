/* bisquemop_layout: the examples, long texts, tables of every size that matters, refusals. */
/* Rule 4, rule 5, rule 6, rule 7, rule 8, rule 9, rule 10, rule 12, refusal 8. */
#include "examples.h"
#include "harness.h"
#include "long_texts.h"

#define NUMBERS BISQUEMOP_LINE_NUMBERS

/* A text's lines, in tables that are just large enough, larger, and smaller. */
static void lines_are(const char *what, struct bisquemop_settings s, const uint8_t *text, size_t len,
                      const uint32_t *lines, size_t count)
{
    size_t need = NUMBERS * count;
    static const size_t more[] = {0, 1, NUMBERS - 1, NUMBERS, 3 * NUMBERS + 5};
    for (size_t i = 0; i < sizeof more / sizeof more[0]; i++) {
        expect_layout(what, s, text, len, need + more[i], BISQUEMOP_OK, count, lines);
    }
    expect_layout(what, s, text, len, need - 1, BISQUEMOP_TOO_SMALL, count, NULL);
    expect_layout(what, s, text, len, need - NUMBERS, BISQUEMOP_TOO_SMALL, count, NULL);
    expect_layout(what, s, text, len, 0, BISQUEMOP_TOO_SMALL, count, NULL);
}

static void test_example(const char *what, struct bisquemop_settings s, const uint8_t *text, size_t len,
                         const struct example *x)
{
    lines_are(what, s, text, len, x->lines, x->count);
}

static void test_examples(void)
{
    each_example(test_example);
    expect("the clue's first line dropped 3", examples[0].lines[BISQUEMOP_LINE_DROPPED] == 3);
}

static size_t most_lines;

/* A long text's lines, in a table with room for one more, and in one that lacks a number. */
static void test_long_text(const struct long_text *x)
{
    size_t need = NUMBERS * x->count;
    expect_layout(x->what, x->settings, x->text, sizeof x->text, need + NUMBERS, BISQUEMOP_OK, x->count, x->lines);
    expect_layout(x->what, x->settings, x->text, sizeof x->text, need - 1, BISQUEMOP_TOO_SMALL, x->count, NULL);
    most_lines = most_lines < x->count ? x->count : most_lines;
}

static void test_long(void)
{
    each_long_text(test_long_text);
    expect("one line more than there are bytes", most_lines == BISQUEMOP_TEXT_MAX + 1);
}

static void test_refusal(const struct unlaid *x, size_t room, size_t no_events)
{
    (void)no_events;
    expect_layout(x->what, x->settings, x->text, x->len, room, x->number, x->value, NULL);
}

/* Each refusal, with room and with none: settings come first, then the text, then the table. */
static void test_refusals(void)
{
    static const size_t rooms[] = {0, NUMBERS - 1, NUMBERS, 10 * NUMBERS};
    static const uint8_t feeds[] = "\n\n\n\n\n\n\n\n\n\n";
    for (size_t i = 0; i < sizeof rooms / sizeof rooms[0]; i++) {
        each_unlaid(test_refusal, rooms[i], 0);
        expect_layout("eleven lines", laid(6, 30, JUSTIFIED, 1, DROP), feeds, 10, rooms[i], BISQUEMOP_TOO_SMALL, 11,
                      NULL);
    }
}

/* What height and y take plays no part. */
static void test_settings_that_do_not_matter(void)
{
    static const uint32_t expected[] = {0, 0, 0, 3, 0, 6, 0, 12, 0, 7, 0, /**/ 3, 0, 0, 2, 0, 6, 0, 18, 0, 7, 3};
    static const struct bisquemop_settings list[] = {
        {6, 30, 24, 0, 0, 1, 0, -4096, LEFT, BISQUEMOP_VERTICAL_TOP, 1, 0, DROP},
        {6, 30, 24, 4096, 4096, 64, 4096, 4096, LEFT, BISQUEMOP_VERTICAL_BOTTOM, 1, 0, WAIT},
        {6, 30, 0, 1, 2, 3, 4, -5, LEFT, BISQUEMOP_VERTICAL_MIDDLE, 1, 0, DROP},
    };
    for (size_t i = 0; i < sizeof list / sizeof list[0]; i++) {
        lines_are("other settings", list[i], (const uint8_t *)"ab cde", 6, expected, 2);
    }
}

static void test_names(void)
{
    expect("the columns of a line",
           BISQUEMOP_LINE_START == 0 && BISQUEMOP_LINE_REST_END == 1 && BISQUEMOP_LINE_REST_COUNT == 2 &&
               BISQUEMOP_LINE_END == 3 && BISQUEMOP_LINE_LEFT == 4 && BISQUEMOP_LINE_SPACE == 5 &&
               BISQUEMOP_LINE_EXTRA == 6 && BISQUEMOP_LINE_WIDTH == 7 && BISQUEMOP_LINE_DROPPED == 8 &&
               BISQUEMOP_LINE_REACH == 9 && BISQUEMOP_LINE_CHARS == 10 && BISQUEMOP_LINE_NUMBERS == 11);
    expect("the names of the end types", BISQUEMOP_END_NEW_LINE == 0 && BISQUEMOP_END_CARRIAGE_RETURN == 1 &&
                                             BISQUEMOP_END_END_OF_TEXT == 2 && BISQUEMOP_END_LINE_BREAK == 3);
    expect("the names of the later refusals",
           BISQUEMOP_BAD_LINE == 5 && BISQUEMOP_BAD_EDIT == 6 && BISQUEMOP_TOO_SMALL == 8);
}

void test_layout(void)
{
    test_names();
    test_examples();
    test_settings_that_do_not_matter();
    test_long();
    test_refusals();
}
