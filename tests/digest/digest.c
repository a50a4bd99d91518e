/*
 * A digest of what the library answers to many cases, so that machines can be compared: random texts, settings, tables
 * and edits, good ones and spoiled ones, given to every call. All that a call returns and all that it was lent go into
 * the digest. The cases follow from a seed and are the same on every machine; none needs much memory.
 *
 * usage: digest [CASES]
 */
#include "chance.h"
#include "sum.h"

#include <inttypes.h>
#include <stdio.h>
#include <stdlib.h>

enum {
    SHORT = 160, /* bytes of most texts */
    LONG = 4000, /* and of some */
    TOKENS = BISQUEMOP_TOKEN_NUMBERS * LONG,
    TABLE = BISQUEMOP_LINE_NUMBERS * (LONG + 1),
    EVENTS = BISQUEMOP_EVENT_NUMBERS * LONG,
    FILE_BYTES = 65 + (3 + 4 * BISQUEMOP_LINE_NUMBERS) * (LONG + 1)
};

/* A case: what the calls are given, and the buffers that they are lent. */
static struct bisquemop_settings settings;
static uint8_t text[LONG], edited[LONG], inserted[LONG];
static uint64_t len;
static uint32_t tokens[TOKENS], table[TABLE], events[EVENTS];
static uint64_t lines;
static uint32_t entry[BISQUEMOP_LINE_NUMBERS + 2];
static int32_t ys[LONG + 2]; /* one more than a text has lines */
static uint8_t file[FILE_BYTES];
static uint8_t short_text[SHORT];
static uint32_t pages[BISQUEMOP_PAGE_NUMBERS * (LONG + 1)];

/* One time in so many. */
static int seldom(uint32_t times)
{
    return below(times) == 0;
}

/* A length for a buffer: mostly all that a text of so many bytes can need, at times less. */
static uint64_t random_room(uint64_t most)
{
    return seldom(6) ? below((uint32_t)most + 1) : most;
}

/* A number for a place where a small one is expected: any, one near zero, or one near the largest. */
static uint32_t random_number(void)
{
    switch (below(3)) {
    case 0:
        return below(UINT32_MAX);
    case 1:
        return below(70000);
    default:
        return UINT32_MAX - below(4);
    }
}

/* ---- the calls, each with all that it answers */

/* How often each number was returned. */
static unsigned long returned[BISQUEMOP_RETIRED_SETTING + 1];

static void add_answer(uint32_t number, uint64_t value)
{
    if (number <= BISQUEMOP_RETIRED_SETTING) {
        returned[number]++;
    }
    add_number(number);
    add_long(value);
}

static void ask_checks(void)
{
    uint64_t value = 0;
    uint32_t number = bisquemop_settings_check(&settings, &value);
    add_answer(number, value);
    number = bisquemop_check_text(text, len, &value);
    add_answer(number, value);
}

static void ask_tokens(void)
{
    uint64_t value = 0, room = random_room(BISQUEMOP_TOKEN_NUMBERS * len);
    uint32_t number = bisquemop_tokens(text, len, tokens, room, &value);
    add_answer(number, value);
    add_numbers(tokens, room);
}

static void ask_layout(void)
{
    uint64_t value = 0, room = random_room(BISQUEMOP_LINE_NUMBERS * (len + 1));
    uint32_t number = bisquemop_settings_layout(&settings, text, len, table, room, &value);
    add_answer(number, value);
    add_numbers(table, room);
}

/* Leaves the table of the text, if it has one. */
static void ask_events(void)
{
    uint64_t count = 0, room = random_room(BISQUEMOP_EVENT_NUMBERS * len), need = BISQUEMOP_LINE_NUMBERS * (len + 1);
    uint32_t number = bisquemop_settings_layout_events(&settings, text, len, table, need, events, room, &lines, &count);
    add_answer(number, lines);
    add_long(count);
    add_numbers(table, need);
    add_numbers(events, room);
    if (number != BISQUEMOP_OK) {
        lines = 1 + below(3);
    }
}

/* Where a line is laid from: the text's front, a line of the table, or anywhere. At times it is spoiled. */
static struct stand make_stand(void)
{
    uint32_t k = below((uint32_t)lines);
    const uint32_t *line = table + BISQUEMOP_LINE_NUMBERS * k;
    struct stand from = {0, 0, 0};
    if (seldom(2)) {
        from.start = line[BISQUEMOP_LINE_START];
        from.rest_end = line[BISQUEMOP_LINE_REST_END];
        from.rest_count = line[BISQUEMOP_LINE_REST_COUNT];
    } else if (seldom(2)) {
        from.start = below((uint32_t)len + 1);
        from.rest_end = seldom(2) ? from.start + below((uint32_t)len - from.start + 2) : 0;
        from.rest_count = from.rest_end > 0 ? below(4) : 0;
    }
    if (seldom(12)) {
        uint32_t *numbers[] = {&from.start, &from.rest_end, &from.rest_count};
        uint32_t which = below(3);
        *numbers[which] = seldom(2) ? random_number() : *numbers[which] + 1;
    }
    return from;
}

/* Two lines, the second from where the first ends; asked after the table is there. */
static void ask_lines(void)
{
    uint64_t value = 0, room = random_room(BISQUEMOP_LINE_NUMBERS + 2);
    uint32_t number = bisquemop_settings_open(&settings, text, len, &value);
    struct stand from = make_stand();
    add_answer(number, value);
    for (int i = 0; i < 2; i++) {
        number = bisquemop_settings_one_line(&settings, text, len, from.start, from.rest_end, from.rest_count, entry,
                                             room, &value, &from.rest_end, &from.rest_count);
        from.start = number == BISQUEMOP_OK ? (uint32_t)value : from.start;
        add_answer(number, value);
        add_number(from.rest_end);
        add_number(from.rest_count);
        add_numbers(entry, sizeof entry / sizeof entry[0]);
    }
}

static void ask_places(void)
{
    uint64_t value = 0, line = below((uint32_t)lines + 2);
    int32_t y = 0;
    uint32_t number = bisquemop_settings_height(&settings, table, TABLE, lines, &value);
    add_answer(number, value);
    number = bisquemop_settings_line_y(&settings, table, TABLE, lines, line, &value, &y);
    add_answer(number, value);
    add_number((uint32_t)y);
}

/* The index, and a line looked for in it, which is spoiled at times. */
static void ask_index(uint64_t first)
{
    uint64_t value = 0, room = random_room(LONG + 1), many = seldom(12) ? lines + 1 - below(3) : lines;
    uint32_t number = first == 0
                          ? bisquemop_settings_index(&settings, table, TABLE, lines, ys, room, &value)
                          : bisquemop_settings_index_again(&settings, table, TABLE, lines, first, ys, room, &value);
    add_answer(number, value);
    for (uint64_t k = 0; k < lines + 8 && k < LONG + 2; k++) {
        add_number((uint32_t)ys[k]);
    }
    if (seldom(12)) {
        uint32_t where = below((uint32_t)lines);
        ys[where] = (int32_t)below(200) - 100;
    }
    number = bisquemop_find_line(table, TABLE, lines, ys, many, (int32_t)below(200) - 100, &value);
    add_answer(number, value);
}

/* The bytes of the table's file go into the digest, and what is read of them, at times damaged. The table that is read stands
   in the event buffer. */
static void ask_file(void)
{
    uint64_t value = 0, bytes = 0, most = BISQUEMOP_FILE_BYTES(lines), room = random_room(most);
    uint32_t handed[BISQUEMOP_SETTINGS_NUMBERS + 1] = {0};
    uint32_t number = bisquemop_settings_write_file(&settings, table, TABLE, lines, file, room, &value);
    add_answer(number, value);
    for (uint64_t i = 0; i < room; i++) {
        add_number(file[i]);
    }
    if (seldom(3)) {
        uint32_t where = below((uint32_t)most);
        file[where] = seldom(2) ? (uint8_t)below(256) : (uint8_t)(file[where] + 1);
    }
    uint64_t settings_room = seldom(8) ? below(14) : BISQUEMOP_SETTINGS_NUMBERS, len = seldom(8) ? room : most;
    number = bisquemop_read_file(file, len, handed, settings_room, events, EVENTS, &value, &bytes);
    add_answer(number, value);
    add_long(bytes);
    add_numbers(handed, BISQUEMOP_SETTINGS_NUMBERS + 1);
    add_numbers(events, BISQUEMOP_LINE_NUMBERS * lines < EVENTS ? BISQUEMOP_LINE_NUMBERS * lines : EVENTS);
}

/* A limit of a few lines, at times of none or of very many. */
static uint32_t random_limit(void)
{
    return seldom(12) ? (seldom(2) ? 0 : random_number()) : 1 + below(6);
}

/* The text, or else what has room of a short one, which is spoiled at times. */
static void ask_choice(void)
{
    uint64_t value = 0, left_out = 0, short_len = random_text(short_text, below(SHORT / 4));
    uint32_t which = 2;
    if (short_len > 0 && seldom(12)) {
        uint32_t where = below((uint32_t)short_len);
        short_text[where] = (uint8_t)below(256);
    }
    uint32_t number = bisquemop_settings_choose(&settings, text, len, short_text, short_len, random_limit(), &value,
                                                &which, &left_out);
    add_answer(number, value);
    add_number(which);
    add_long(left_out);
}

/* The table that is laid with the pages stands in the event buffer. */
static void ask_pages(void)
{
    uint64_t value = 0, count = 0, need = BISQUEMOP_LINE_NUMBERS * (len + 1), most = need < EVENTS ? need : EVENTS;
    uint64_t table_room = random_room(most), pages_room = random_room(BISQUEMOP_PAGE_NUMBERS * (len + 1));
    uint32_t number = bisquemop_settings_pages(&settings, text, len, random_limit(), events, table_room, pages,
                                               pages_room, &value, &count);
    add_answer(number, value);
    add_long(count);
    add_numbers(events, table_room);
    add_numbers(pages, pages_room);
}

static void ask_pages_again(uint64_t first)
{
    uint64_t value = 0, room = random_room(BISQUEMOP_PAGE_NUMBERS * (LONG + 1));
    uint32_t number = bisquemop_pages_again(table, TABLE, lines, random_limit(), first, pages, room, &value);
    add_answer(number, value);
    add_numbers(pages, BISQUEMOP_PAGE_NUMBERS * (lines < LONG ? lines + 1 : LONG + 1));
}

/* All widths may have to be tried, so a width is asked for in some cases alone. */
static void ask_columns(void)
{
    uint64_t value = 0;
    uint32_t h = random_limit(), number = bisquemop_settings_columns_fit(&settings, text, len, h, &value);
    add_answer(number, value);
    if (len < SHORT && seldom(40)) {
        number = bisquemop_settings_columns_plan(&settings, text, len, h, &value);
        add_answer(number, value);
    }
}

/* ---- an edit */

static struct edit make_edit(void)
{
    struct edit e = random_edit(text, (size_t)len, len > SHORT ? LONG : SHORT, inserted);
    if (seldom(12)) {
        uint32_t *numbers[] = {&e.a, &e.b, &e.inserted};
        uint32_t which = below(3);
        *numbers[which] = random_number();
    }
    return e;
}

/* The line that the text is to be lent from: the answer, or line 0 if there is none. */
static uint64_t ask_affected(struct edit e)
{
    uint64_t value = 0;
    uint32_t number = bisquemop_first_affected(table, TABLE, lines, e.a, e.b, e.inserted, &value);
    add_answer(number, value);
    return number == BISQUEMOP_OK && value < lines ? value : 0;
}

static void ask_again(void)
{
    struct edit e = make_edit();
    int good = e.a <= e.b && e.b <= len && e.inserted <= LONG - (len - (e.b - e.a));
    uint64_t new_len = good ? put_edited(edited, text, (size_t)len, e, inserted) : len, value = 0, laid = 0;
    uint64_t first = ask_affected(e), start = table[BISQUEMOP_LINE_NUMBERS * first + BISQUEMOP_LINE_START];
    uint64_t from = start < new_len ? start : new_len, room = random_room(TABLE);
    uint32_t number = bisquemop_settings_lay_again(&settings, edited + from, new_len - from, table, room, lines, e.a,
                                                   e.b, e.inserted, &value, &laid);
    add_answer(number, value);
    add_long(laid);
    add_numbers(table, BISQUEMOP_LINE_NUMBERS * ((new_len > len ? new_len : len) + 1));
    lines = number == BISQUEMOP_OK ? value : lines;
    ask_index(first);
    ask_pages_again(seldom(12) ? lines : first);
}

/* ---- the cases */

/* Of the setting that is retired, its old other value is tried. */
static void spoil_settings(void)
{
    uint32_t *numbers[] = {&settings.glyph,     &settings.width,   &settings.tab,      &settings.spacing,
                           &settings.paragraph, &settings.base,    &settings.height,   &settings.alignment,
                           &settings.vertical,  &settings.leading, &settings.trailing, &settings.wrap};
    uint32_t which = below(sizeof numbers / sizeof numbers[0]);
    *numbers[which] = numbers[which] == &settings.trailing ? 1 : random_number();
}

static void spoil_table(void)
{
    uint32_t where = below((uint32_t)(BISQUEMOP_LINE_NUMBERS * lines));
    table[where] = seldom(2) ? random_number() : table[where] + 1;
}

static void make_text(void)
{
    len = random_text(text, below(1 + (seldom(50) ? (uint32_t)LONG : (uint32_t)SHORT) / 4));
    if (len > 0 && seldom(12)) {
        uint32_t where = below((uint32_t)len);
        text[where] = (uint8_t)below(256);
    }
}

static void one_case(void)
{
    settings = random_settings();
    make_text();
    if (seldom(12)) {
        spoil_settings();
    }
    ask_checks();
    ask_tokens();
    ask_layout();
    ask_choice();
    ask_columns();
    ask_pages();
    ask_events();
    ask_lines();
    if (seldom(8)) {
        spoil_table();
    }
    ask_places();
    ask_index(0);
    ask_file();
    ask_again();
}

int main(int count, char **words)
{
    unsigned long cases = count > 1 ? strtoul(words[1], NULL, 10) : 20000;
    seed_with(1);
    for (unsigned long i = 0; i < cases; i++) {
        one_case();
    }
    printf("%016" PRIx64 " of %" PRIu64 " numbers in %lu cases; returned", sum(), summed(), cases);
    for (size_t i = 0; i < sizeof returned / sizeof returned[0]; i++) {
        printf(" %lu:%lu", (unsigned long)i, returned[i]);
    }
    printf("\n");
    return 0;
}
