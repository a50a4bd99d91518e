/*
 * How much stack each call of the library uses on a Cortex-M4, measured: the stack below is painted, the call made,
 * and the paint looked for. Prints a line `measured BYTES CALL` for each. Texts, settings and edits are by chance, by
 * the seed given.
 *
 * usage: painted CASES SEED
 *
 * scripts/footprint runs it, and holds what it prints to what the machine code says.
 */
#include "chance.h"

#include <stdio.h>
#include <stdlib.h>

enum { PAINTED_WORDS = 4096, PAINT = 0x5AFE5AFE, CHARACTERS = 100, TEXT_ROOM = 8 * CHARACTERS };

/* The calls, and the most that each has used. */
/* clang-format off */
#define CALLS(DO) \
    DO(check_settings) DO(check_text) DO(tokens) DO(layout) DO(layout_events) DO(open) DO(one_line) \
    DO(first_affected) DO(lay_again) DO(height) DO(line_y) DO(index) DO(index_again) DO(find_line) \
    DO(write_file) DO(read_file) DO(choose) DO(pages) DO(pages_again) \
    DO(columns_fit) DO(columns_plan)
/* clang-format on */
#define NUMBER(call) AT_##call,
#define NAME(call) "bisquemop_" #call,
enum { CALLS(NUMBER) CALL_COUNT };
static const char *const names[] = {CALLS(NAME)};
static unsigned most[CALL_COUNT];

static inline volatile uint32_t *stack_pointer(void)
{
    volatile uint32_t *pointer;
    __asm__ volatile("mov %0, sp" : "=r"(pointer));
    return pointer;
}

/* Both have to be a part of the function that makes the call: what they put on the stack themselves would be measured. */
__attribute__((always_inline)) static inline void paint(volatile uint32_t *top)
{
    for (volatile uint32_t *at = top - PAINTED_WORDS; at < top; at++) {
        *at = PAINT;
    }
}

__attribute__((always_inline)) static inline unsigned used(volatile uint32_t *top)
{
    volatile uint32_t *at = top - PAINTED_WORDS;
    while (at < top && *at == PAINT) {
        at++;
    }
    return (unsigned)(top - at) * (unsigned)sizeof *at;
}

/* Makes a call, and notes what it used below the stack pointer that it was made with. */
#define MEASURE(call, made) \
    do { \
        volatile uint32_t *top = stack_pointer(); \
        paint(top); \
        (void)(made); \
        unsigned bytes = used(top); \
        most[AT_##call] = bytes > most[AT_##call] ? bytes : most[AT_##call]; \
    } while (0)

static uint8_t text[TEXT_ROOM], edited[TEXT_ROOM], inserted[TEXT_ROOM];
static uint32_t table[BISQUEMOP_LINE_NUMBERS * (TEXT_ROOM + 1)], numbers[BISQUEMOP_EVENT_NUMBERS * TEXT_ROOM];
static int32_t ys[TEXT_ROOM + 1];
static uint32_t pages[BISQUEMOP_PAGE_NUMBERS * (TEXT_ROOM + 1)];
static uint8_t file[65 + (3 + 4 * BISQUEMOP_LINE_NUMBERS) * (TEXT_ROOM + 1)];
#define TABLE table, sizeof table / sizeof table[0]
#define NUMBERS numbers, sizeof numbers / sizeof numbers[0]
#define INDEX ys, sizeof ys / sizeof ys[0]
#define PAGES pages, sizeof pages / sizeof pages[0]

/* With too little room a call counts what there is. */
static void measure_small(const struct bisquemop_settings *s, size_t len)
{
    uint64_t value, count;
    MEASURE(tokens, bisquemop_tokens(text, len, numbers, 0, &value));
    MEASURE(layout, bisquemop_settings_layout(s, text, len, table, 0, &value));
    MEASURE(layout_events, bisquemop_settings_layout_events(s, text, len, table, 0, NUMBERS, &value, &count));
    MEASURE(layout_events, bisquemop_settings_layout_events(s, text, len, TABLE, numbers, 0, &value, &count));
}

/* One after the other, so that the table is there for the calls that are lent one. */
static void measure_layout(const struct bisquemop_settings *s, size_t len, uint64_t *lines)
{
    uint64_t value, count;
    int32_t y;
    MEASURE(check_settings, bisquemop_settings_check(s, &value));
    MEASURE(check_text, bisquemop_check_text(text, len, &value));
    MEASURE(tokens, bisquemop_tokens(text, len, NUMBERS, &value));
    MEASURE(layout, bisquemop_settings_layout(s, text, len, TABLE, lines));
    MEASURE(layout_events, bisquemop_settings_layout_events(s, text, len, TABLE, NUMBERS, lines, &count));
    MEASURE(height, bisquemop_settings_height(s, TABLE, *lines, &value));
    MEASURE(line_y, bisquemop_settings_line_y(s, TABLE, *lines, below((uint32_t)*lines), &value, &y));
}

/* Two lines, one after the other: the first line of a text, or any, and the one after it. */
static void measure_lines(const struct bisquemop_settings *s, size_t len, uint64_t lines)
{
    const uint32_t *line = table + BISQUEMOP_LINE_NUMBERS * (below(2) ? below((uint32_t)lines) : 0);
    uint32_t rest_end = line[BISQUEMOP_LINE_REST_END], rest_count = line[BISQUEMOP_LINE_REST_COUNT];
    uint64_t start;
    MEASURE(open, bisquemop_settings_open(s, text, len, &start));
    start = line[BISQUEMOP_LINE_START];
    for (int i = 0; i < 2; i++) {
        MEASURE(one_line, bisquemop_settings_one_line(s, text, len, (uint32_t)start, rest_end, rest_count, NUMBERS,
                                                      &start, &rest_end, &rest_count));
    }
}

/* A y at each line and above the first, so that the search goes every way. */
static void measure_index(const struct bisquemop_settings *s, uint64_t lines)
{
    uint64_t value;
    MEASURE(index, bisquemop_settings_index(s, TABLE, lines, INDEX, &value));
    for (uint64_t k = 0; k < lines; k++) {
        MEASURE(find_line, bisquemop_find_line(TABLE, lines, ys, lines, ys[k], &value));
    }
    MEASURE(find_line, bisquemop_find_line(TABLE, lines, ys, lines, ys[0] - 1, &value));
}

/* The table is read back to where it came from. */
static void measure_file(const struct bisquemop_settings *s, uint64_t lines)
{
    uint32_t settings[BISQUEMOP_SETTINGS_NUMBERS];
    uint64_t bytes, value, len;
    MEASURE(write_file, bisquemop_settings_write_file(s, TABLE, lines, file, sizeof file, &bytes));
    MEASURE(read_file, bisquemop_read_file(file, bytes, settings, BISQUEMOP_SETTINGS_NUMBERS, TABLE, &value, &len));
}

/* As many lines as the text has, fewer and more: it is chosen, and else all or a part of its second half. The list of
   pages has room, and has not. */
static void measure_pages(const struct bisquemop_settings *s, size_t len, uint64_t lines)
{
    size_t half = len / 2;
    uint32_t h = 1 + below((uint32_t)lines + 1), which;
    uint64_t value, count;
    while (half < len && (text[half] & 0xC0) == 0x80) {
        half++;
    }
    MEASURE(choose, bisquemop_settings_choose(s, text, len, text + half, len - half, h, &value, &which, &count));
    MEASURE(pages, bisquemop_settings_pages(s, text, len, h, TABLE, pages, 0, &value, &count));
    MEASURE(pages, bisquemop_settings_pages(s, text, len, h, TABLE, PAGES, &value, &count));
    MEASURE(pages_again, bisquemop_pages_again(TABLE, lines, h, below((uint32_t)lines), PAGES, &value));
}

/* The widths are tried one by one, until one is good, so that one is asked for at times alone. */
static void measure_columns(const struct bisquemop_settings *s, size_t len, uint64_t lines)
{
    uint64_t value;
    MEASURE(columns_fit, bisquemop_settings_columns_fit(s, text, len, 1 + below((uint32_t)lines + 1), &value));
    if (below(4) == 0) {
        MEASURE(columns_plan, bisquemop_settings_columns_plan(s, text, len, (uint32_t)lines, &value));
    }
}

static void measure_edit(const struct bisquemop_settings *s, size_t len, uint64_t lines)
{
    struct edit e = random_edit(text, len, TEXT_ROOM, inserted);
    uint64_t first, value, laid;
    MEASURE(first_affected, bisquemop_first_affected(TABLE, lines, e.a, e.b, e.inserted, &first));
    len = put_edited(edited, text, len, e, inserted);
    size_t start = table[BISQUEMOP_LINE_NUMBERS * first + BISQUEMOP_LINE_START];
    MEASURE(lay_again, bisquemop_settings_lay_again(s, edited + start, len - start, TABLE, lines, e.a, e.b, e.inserted,
                                                    &value, &laid));
    MEASURE(index_again, bisquemop_settings_index_again(s, TABLE, value, first, INDEX, &laid));
}

int main(int argc, char **argv)
{
    if (argc != 3) {
        fprintf(stderr, "usage: painted CASES SEED\n");
        return 2;
    }
    seed_with(strtoull(argv[2], NULL, 10));
    for (unsigned long cases = strtoul(argv[1], NULL, 10); cases > 0; cases--) {
        struct bisquemop_settings s = random_settings();
        uint64_t lines;
        size_t len = random_text(text, below(CHARACTERS));
        measure_small(&s, len);
        measure_layout(&s, len, &lines);
        measure_lines(&s, len, lines);
        measure_index(&s, lines);
        measure_file(&s, lines);
        measure_pages(&s, len, lines);
        measure_columns(&s, len, lines);
        measure_edit(&s, len, lines);
    }
    for (int call = 0; call < CALL_COUNT; call++) {
        printf("measured %u %s\n", most[call], names[call]);
    }
    return 0;
}
