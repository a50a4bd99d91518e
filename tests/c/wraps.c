/*
 * Random texts, each laid by both wraps. Where nothing is dropped by the one that drops, both give the same table and
 * the same events; else the lines are the same up to the first that drops. Where words wait, left aligned and in a box
 * at least a glyph wide, nothing is dropped. The seed is fixed.
 * Rule 8.
 */
#include "chance.h"
#include "harness.h"
#include "rules.h"

#include <stdio.h>
#include <string.h>

#define TEXTS share_of(30000)
#define LONGEST 60 /* characters of a text */
#define LINE BISQUEMOP_LINE_NUMBERS
#define EVENT BISQUEMOP_EVENT_NUMBERS
#define BYTES (4 * LONGEST)

/* A text as one wrap lays it. */
struct laid {
    uint64_t lines, events;
    uint32_t table[LINE * (BYTES + 1)], drawn[EVENT * BYTES];
};

static struct laid by_dropping, by_waiting;

/* How many texts were of a kind that matters. */
static unsigned long same, kept_whole, told_apart, dropped_by_both;

static void lay(const char *what, struct bisquemop_settings s, uint32_t wrap, const uint8_t *text, size_t len,
                struct laid *l)
{
    s.wrap = wrap;
    expect(what, bisquemop_settings_layout_events(&s, text, len, l->table, LINE * (len + 1), l->drawn, EVENT * len,
                                                  &l->lines, &l->events) == BISQUEMOP_OK);
}

static int are_same(void)
{
    return by_dropping.lines == by_waiting.lines && by_dropping.events == by_waiting.events &&
           memcmp(by_dropping.table, by_waiting.table, LINE * by_waiting.lines * sizeof(uint32_t)) == 0 &&
           memcmp(by_dropping.drawn, by_waiting.drawn, EVENT * by_waiting.events * sizeof(uint32_t)) == 0;
}

/* The first line that drops something; the number of lines if none does. */
static uint64_t first_dropping(const struct laid *l)
{
    uint64_t k = 0;
    while (k < l->lines && line_number(l->table, k, BISQUEMOP_LINE_DROPPED) == 0) {
        k++;
    }
    return k;
}

/* Are all lines before line k the same, and line k itself but for what it dropped. */
static int same_up_to(uint64_t k)
{
    const uint32_t *dropping = by_dropping.table + LINE * k, *waiting = by_waiting.table + LINE * k;
    return k < by_waiting.lines && memcmp(by_dropping.table, by_waiting.table, LINE * k * sizeof(uint32_t)) == 0 &&
           memcmp(dropping, waiting, BISQUEMOP_LINE_DROPPED * sizeof(uint32_t)) == 0 &&
           dropping[BISQUEMOP_LINE_REACH] == waiting[BISQUEMOP_LINE_REACH] &&
           dropping[BISQUEMOP_LINE_CHARS] == waiting[BISQUEMOP_LINE_CHARS];
}

static void one_text(const char *what, struct bisquemop_settings s)
{
    static uint8_t text[BYTES];
    size_t len = random_text(text, below(LONGEST + 1));
    lay(what, s, BISQUEMOP_WRAP_DROP, text, len, &by_dropping);
    lay(what, s, BISQUEMOP_WRAP_WAIT, text, len, &by_waiting);
    uint64_t first = first_dropping(&by_dropping);
    if (first == by_dropping.lines) {
        expect(what, are_same());
        same++;
        return;
    }
    expect(what, same_up_to(first));
    told_apart += !are_same();
    if (s.alignment == BISQUEMOP_ALIGN_LEFT && s.glyph <= s.width) {
        expect(what, first_dropping(&by_waiting) == by_waiting.lines);
        kept_whole++;
    } else {
        dropped_by_both += first_dropping(&by_waiting) < by_waiting.lines;
    }
}

void test_wraps(void)
{
    test_by_chance(101, TEXTS, "by both wraps", one_text);
    printf(
        "%lu texts: %lu drop nothing and are the same by both; %lu differ; %lu are kept whole by waiting; "
        "%lu drop by both\n",
        TEXTS, same, told_apart, kept_whole, dropped_by_both);
    expect_of_all("half of the texts or more drop nothing", same >= TEXTS / 2);
    expect_of_all("texts that differ, are kept whole, and drop by both",
                  told_apart >= TEXTS / 50 && kept_whole >= TEXTS / 100 && dropped_by_both >= TEXTS / 100);
}
