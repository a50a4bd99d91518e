#include "long_texts.h"

#include "examples.h"
#include "rules.h"

#include <string.h>

static struct long_text made;

/* A text of one unit again and again, of which no line and no event is added yet. */
static void begin(const char *what, struct bisquemop_settings s, const char *unit)
{
    size_t n = strlen(unit);
    made.what = what;
    made.settings = s;
    made.count = made.event_count = 0;
    for (size_t i = 0; i < sizeof made.text; i++) {
        made.text[i] = (uint8_t)unit[i % n];
    }
}

/* How many characters there are before an offset, counted on from the last line. */
static uint32_t characters_before(uint32_t start)
{
    if (made.count == 0) {
        return characters_in(made.text, start);
    }
    uint32_t last = line_number(made.lines, made.count - 1, BISQUEMOP_LINE_START);
    return line_number(made.lines, made.count - 1, BISQUEMOP_LINE_CHARS) +
           characters_in(made.text + last, start - last);
}

/* One line more, which has no rest, no extra pixels and drops nothing. */
static void add_line(uint32_t start, uint32_t end, uint32_t left, uint32_t space, uint32_t width, uint32_t reach)
{
    const uint32_t line[BISQUEMOP_LINE_NUMBERS] = {
        start, 0, 0, end, left, space, 0, width, 0, reach, characters_before(start)};
    memcpy(made.lines + BISQUEMOP_LINE_NUMBERS * made.count++, line, sizeof line);
}

/* The last line has what is left of the text as its rest, unless it is the first. */
static void add_rest(uint32_t count)
{
    uint32_t *line = made.lines + BISQUEMOP_LINE_NUMBERS * (made.count - 1);
    if (made.count > 1) {
        line[BISQUEMOP_LINE_REST_END] = BISQUEMOP_TEXT_MAX;
        line[BISQUEMOP_LINE_REST_COUNT] = count;
    }
}

static void add_event(uint32_t kind, uint32_t start, uint32_t end, uint32_t count, uint32_t width, uint32_t x)
{
    const uint32_t event[BISQUEMOP_EVENT_NUMBERS] = {kind, start, end, count, width, x};
    memcpy(made.events + BISQUEMOP_EVENT_NUMBERS * made.event_count++, event, sizeof event);
}

static void a_word_a_line(void)
{
    begin("a word a line", laid(6, 30, LEFT, 1, DROP), "abcde ");
    for (uint32_t k = 0; k < 10922; k++) {
        add_line(6 * k, 3, 0, 6, 30, 6 * k + 7);
        add_event(PRINTED, 6 * k, 6 * k + 5, 0, 30, 0);
    }
    add_line(65532, 2, 0, 6, 18, 65536);
    add_event(PRINTED, 65532, 65535, 0, 18, 0);
}

static void two_words_a_line(void)
{
    begin("two words a line, justified", laid(6, 70, JUSTIFIED, 1, DROP), "abcde ");
    for (uint32_t k = 0; k < 5461; k++) {
        add_line(12 * k, 3, 0, 10, 66, 12 * k + 13);
        add_event(PRINTED, 12 * k, 12 * k + 5, 0, 30, 0);
        add_event(SPACE, 12 * k + 5, 12 * k + 6, 1, 10, 30);
        add_event(PRINTED, 12 * k + 6, 12 * k + 11, 0, 30, 40);
    }
    add_line(65532, 2, 0, 6, 18, 65536);
    add_event(PRINTED, 65532, 65535, 0, 18, 0);
}

static void two_bytes_a_character(void)
{
    begin("words of two bytes a character", laid(6, 12, LEFT, 0, DROP), "\xC3\xA9\xC3\xA9 ");
    for (uint32_t k = 0; k < 13107; k++) {
        add_line(5 * k, 3, 0, 6, 12, k < 13106 ? 5 * k + 7 : 65536);
        add_event(PRINTED, 5 * k, 5 * k + 4, 0, 12, 0);
    }
    add_line(65535, 2, 0, 6, 0, 65536);
}

static void line_feeds(void)
{
    begin("65,535 line feeds, to the right", laid(6, 30, RIGHT, 1, DROP), "\n");
    for (uint32_t k = 0; k < 65535; k++) {
        add_line(k, 0, 30, 6, 0, k + 1);
        add_event(SPACE, k, k + 1, 0, 0, 30);
    }
    add_line(65535, 2, 30, 6, 0, 65536);
}

static void one_word(void)
{
    begin("one word", laid(1, 4096, LEFT, 1, DROP), "a");
    for (uint32_t k = 0; k < 15; k++) {
        add_line(4096 * k, 3, 0, 1, 4096, 65536);
        add_event(PRINTED, 4096 * k, 4096 * (k + 1), 0, 4096, 0);
    }
    add_line(61440, 2, 0, 1, 4095, 65536);
    add_event(PRINTED, 61440, 65535, 0, 4095, 0);
}

/* Where a run is cut, its spaces are drawn 0 wide, and one more is taken and not drawn. */
static void one_run(void)
{
    begin("one run of spaces", laid(1, 4096, LEFT, 1, DROP), " ");
    for (uint32_t k = 0; k < 16; k++) {
        uint32_t drawn = k < 15 ? 4096 : 4080;
        add_line(4097 * k, k < 15 ? 3 : 2, 0, 1, 0, 65536);
        add_rest(65535 - 4097 * k);
        add_event(SPACE, 4097 * k, 4097 * k + drawn, drawn, k < 15 ? 0 : drawn, 0);
    }
}

static void one_run_in_a_glyph(void)
{
    begin("one run of spaces in a box of one glyph", laid(6, 6, LEFT, 1, DROP), " ");
    for (uint32_t k = 0; k < 32768; k++) {
        add_line(2 * k, k < 32767 ? 3 : 2, 0, 6, 0, 65536);
        add_rest(65535 - 2 * k);
        add_event(SPACE, 2 * k, 2 * k + 1, 1, k < 32767 ? 0 : 6, 0);
    }
}

static void words_that_wait(void)
{
    begin("words that wait", laid(6, 30, LEFT, 1, WAIT), "     ab\n");
    for (uint32_t k = 0; k < 8192; k++) {
        int last = k == 8191;
        add_line(8 * k, 3, 0, 6, 0, 8 * k + 8);
        add_event(SPACE, 8 * k, 8 * k + 5, 5, 30, 0);
        add_line(8 * k + 5, last ? 2 : 0, 0, 6, 12, 8 * k + 8);
        add_event(PRINTED, 8 * k + 5, 8 * k + 7, 0, 12, 0);
        if (!last) {
            add_event(SPACE, 8 * k + 7, 8 * k + 8, 0, 0, 12);
        }
    }
}

/*
 * Each line looks at all of a word that goes on after it, so one long word is laid in the widest box only: in a box of
 * one glyph it would take more than a minute under an emulator.
 */
void each_long_text(void (*test)(const struct long_text *x))
{
    static void (*const list[])(void) = {a_word_a_line, two_words_a_line, two_bytes_a_character, line_feeds,
                                         one_word,      one_run,          one_run_in_a_glyph,    words_that_wait};
    for (size_t i = 0; i < sizeof list / sizeof list[0]; i++) {
        list[i]();
        test(&made);
    }
}
