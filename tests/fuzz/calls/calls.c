/* Every call of the header, with what one case lends it. */
#include "calls.h"

#include "chosen.h"
#include "lent.h"

#include <bisquemop.h>
#include <string.h>

/* What the case gives besides what it lends. */
static struct {
    struct bisquemop_settings s;
    uint64_t lines, line, first;
    uint32_t a, b, inserted, start, rest_end, rest_count, h;
    int32_t y;
} given;

/* Where genuine tables, events and files are made, to be lent as they are or spoiled. */
static uint32_t table[BISQUEMOP_LINE_NUMBERS * BISQUEMOP_LINES_MAX];
static uint8_t bytes[BISQUEMOP_FILE_BYTES(BISQUEMOP_LINES_MAX)];
static const char *wrong;

const char *said_wrong(void)
{
    return wrong;
}

/* ---- what is lent */

static struct bisquemop_settings good_settings(void)
{
    struct bisquemop_settings s = {.glyph = 6, .base = 8, .spacing = 8, .leading = 1};
    s.width = below(BISQUEMOP_WIDTH_MAX + 1) % 97;
    s.tab = below(40);
    s.paragraph = below(3);
    s.height = below(200);
    s.top = (int32_t)below(100) - 50;
    s.alignment = below(4);
    s.vertical = below(3);
    s.leading = below(2);
    s.wrap = below(2);
    return s;
}

/* One of the thirteen numbers is any, mostly of none. */
static void spoil_settings(struct bisquemop_settings *s)
{
    uint32_t number[BISQUEMOP_SETTINGS_NUMBERS];
    if (one_in(4)) {
        memcpy(number, s, sizeof number);
        number[below(BISQUEMOP_SETTINGS_NUMBERS)] = any32();
        *s = bisquemop_settings_from(number);
    }
}

static void lend_text(enum place place)
{
    static uint8_t text[80000];
    size_t len = any_text(text, sizeof text);
    lend(place, len);
    if (len > 0) {
        memcpy(lent[place].at, text, len);
    }
}

/* Room for `count` things of some bytes each, or for about so many, or for none. */
static void lend_room(enum place place, uint64_t count, size_t each)
{
    size_t all = (size_t)count * each;
    switch (below(8)) {
    case 0:
        all = 4 * (size_t)below(24);
        break;
    case 1:
        all = all >= 4 ? all - 4 : 0;
        break;
    case 2:
        all += 4 * (size_t)below(200);
        break;
    default:
        break;
    }
    lend(place, all);
}

/* Some numbers or bytes are any others. */
static void spoil(enum place place)
{
    for (uint32_t k = below(4); k > 0 && lent[place].bytes >= 4; k--) {
        uint32_t at = below((uint32_t)(lent[place].bytes / 4)), number = any32();
        memcpy(lent[place].at + 4 * (size_t)at, &number, sizeof number);
    }
}

static void put_into(enum place place, const void *from, size_t len)
{
    size_t some = len < lent[place].bytes ? len : lent[place].bytes;
    if (some > 0) {
        memcpy(lent[place].at, from, some);
    }
    if (one_in(3)) {
        spoil(place);
    }
}

/* Lays the text as it was lent, and answers how many lines `table` then holds. */
static uint64_t lay_text(void)
{
    uint64_t lines;
    uint32_t refused =
        bisquemop_settings_layout(&given.s, BYTES_OF(TEXT), table, sizeof table / sizeof table[0], &lines);
    return refused == BISQUEMOP_OK ? lines : 0;
}

/* A table, and how many lines are said to be in it. */
static void lend_table(void)
{
    lend_text(TEXT);
    given.lines = lay_text();
    lend_room(TABLE, given.lines, 4 * (size_t)BISQUEMOP_LINE_NUMBERS);
    put_into(TABLE, table, (size_t)given.lines * 4 * BISQUEMOP_LINE_NUMBERS);
    if (one_in(8)) {
        given.lines = any64();
    }
}

/* A place in the text, mostly one between two characters. */
static uint32_t place_in_text(uint32_t from)
{
    uint32_t len = (uint32_t)lent[TEXT].bytes, at = from < len ? from + below(len - from + 1) : len;
    while (at > from && at < len && (lent[TEXT].at[at] & 0xC0) == 0x80 && !one_in(32)) {
        at--;
    }
    return at;
}

/* The part of the new text from the first affected line on, after an edit that is good or nearly so. */
static void lend_edit(void)
{
    static uint8_t text[160000];
    size_t len = lent[TEXT].bytes, inserted, start;
    uint64_t first = 0;
    given.a = place_in_text(0);
    given.b = place_in_text(given.a);
    inserted = any_text(text + given.a, 80000);
    given.inserted = (uint32_t)inserted;
    if (len > 0) {
        memcpy(text, lent[TEXT].at, given.a);
        memcpy(text + given.a + inserted, lent[TEXT].at + given.b, len - given.b);
    }
    len = len - (given.b - given.a) + inserted;
    bisquemop_first_affected(NUMBERS_OF(TABLE), given.lines, given.a, given.b, given.inserted, &first);
    start = first < given.lines && given.lines <= BISQUEMOP_LINES_MAX
                ? table[BISQUEMOP_LINE_NUMBERS * first + BISQUEMOP_LINE_START]
                : 0;
    start = start < len ? start : len;
    lend(OTHER, len - start);
    if (len > start) {
        memcpy(lent[OTHER].at, text + start, len - start);
    }
}

/* The numbers of an edit are any, now and then. */
static void spoil_edit(void)
{
    if (one_in(8)) {
        given.a = any32();
    }
    if (one_in(8)) {
        given.b = any32();
    }
    if (one_in(8)) {
        given.inserted = any32();
    }
}

static void lend_index(void)
{
    static int32_t ys[BISQUEMOP_LINES_MAX];
    uint64_t count = 0;
    if (bisquemop_settings_index(&given.s, NUMBERS_OF(TABLE), given.lines, ys, BISQUEMOP_LINES_MAX, &count) !=
        BISQUEMOP_OK) {
        count = below(8);
    }
    lend_room(SECOND, count, sizeof ys[0]);
    put_into(SECOND, ys, (size_t)count * sizeof ys[0]);
}

/* The offset in a file of the setting that is retired, and that of its first line; and how many bytes a line has. */
enum { RETIRED_AT = 47, LINES_AT = 62, FILE_LINE = 47 };

/* The file is cut behind one of its lines that has ten numbers, as lines had once. Answers its length. */
static uint64_t make_old(void)
{
    size_t at = LINES_AT + FILE_LINE * (size_t)below((uint32_t)given.lines);
    bytes[at + 1] = FILE_LINE - 3 - 4;
    return at + FILE_LINE - 4;
}

static void lend_file(void)
{
    uint64_t len = 0;
    lend_text(TEXT);
    given.lines = lay_text();
    if (bisquemop_settings_write_file(&given.s, table, sizeof table / sizeof table[0], given.lines, bytes, sizeof bytes,
                                      &len) != BISQUEMOP_OK) {
        len = below(200);
    } else if (one_in(8)) {
        len = make_old();
    }
    lend(OTHER, (size_t)(one_in(8) ? len - below(8) % (len + 1) : len));
    put_into(OTHER, bytes, (size_t)len);
    if (one_in(4) && lent[OTHER].bytes > 0) {
        lent[OTHER].at[below((uint32_t)lent[OTHER].bytes)] = next_byte();
    } else if (one_in(4) && lent[OTHER].bytes > RETIRED_AT) {
        lent[OTHER].at[RETIRED_AT] = 1;
    }
}

/* Where a line starts and its rest: good ones of the text's layout, or any. */
static void choose_line(void)
{
    uint64_t lines = lay_text();
    const uint32_t *line = table + (size_t)BISQUEMOP_LINE_NUMBERS * (lines > 0 ? below((uint32_t)lines) : 0);
    given.start = one_in(8) ? any32() : line[BISQUEMOP_LINE_START];
    given.rest_end = one_in(8) ? any32() : line[BISQUEMOP_LINE_REST_END];
    given.rest_count = one_in(8) ? any32() : line[BISQUEMOP_LINE_REST_COUNT];
}

/* ---- what a call has done */

/* A call is done and has written `count` things of some bytes each, for which there has to be room. */
static void wrote(enum place place, uint64_t count, size_t each)
{
    if (count > lent[place].bytes / each) {
        wrong = "more is said to be written than there is room for";
        return;
    }
    lent[place].may_change = (size_t)count * each;
}

static void wrote_one(enum place place)
{
    lent[place].may_change = lent[place].bytes;
}

static uint64_t value(void)
{
    return *WIDE_AT(VALUE);
}

/* ---- the calls */

#define LINE_BYTES (4 * (size_t)BISQUEMOP_LINE_NUMBERS)

static uint32_t check_settings(void)
{
    return bisquemop_settings_check(&given.s, WIDE_AT(VALUE));
}

static uint32_t check_text(void)
{
    return bisquemop_check_text(BYTES_OF(TEXT), WIDE_AT(VALUE));
}

static void lend_tokens(void)
{
    lend_text(TEXT);
    lend_room(SECOND, one_in(2) ? lent[TEXT].bytes : below(100), 4 * (size_t)BISQUEMOP_TOKEN_NUMBERS);
}

static uint32_t tokens(void)
{
    uint32_t refused = bisquemop_tokens(BYTES_OF(TEXT), NUMBERS_OF(SECOND), WIDE_AT(VALUE));
    if (refused == BISQUEMOP_OK) {
        wrote(SECOND, value(), 4 * (size_t)BISQUEMOP_TOKEN_NUMBERS);
    }
    return refused;
}

static void lend_layout(void)
{
    lend_text(TEXT);
    lend_room(TABLE, one_in(2) ? lent[TEXT].bytes + 1 : lay_text(), LINE_BYTES);
    lend_room(SECOND, lent[TEXT].bytes, 4 * (size_t)BISQUEMOP_EVENT_NUMBERS);
}

static uint32_t layout(void)
{
    uint32_t refused = bisquemop_settings_layout(&given.s, BYTES_OF(TEXT), NUMBERS_OF(TABLE), WIDE_AT(VALUE));
    if (refused == BISQUEMOP_OK) {
        wrote(TABLE, value(), LINE_BYTES);
    }
    return refused;
}

/* A table of so many lines, and a list of so many entries of so many numbers each. */
static void wrote_both(size_t numbers)
{
    wrote(TABLE, value(), LINE_BYTES);
    wrote(SECOND, *WIDE_AT(COUNT), 4 * numbers);
    wrote_one(COUNT);
}

static uint32_t layout_events(void)
{
    uint32_t refused = bisquemop_settings_layout_events(&given.s, BYTES_OF(TEXT), NUMBERS_OF(TABLE), NUMBERS_OF(SECOND),
                                                        WIDE_AT(VALUE), WIDE_AT(COUNT));
    if (refused == BISQUEMOP_OK) {
        wrote_both(BISQUEMOP_EVENT_NUMBERS);
    }
    return refused;
}

static uint32_t open_text(void)
{
    return bisquemop_settings_open(&given.s, BYTES_OF(TEXT), WIDE_AT(VALUE));
}

static void lend_line(void)
{
    lend_text(TEXT);
    choose_line();
    lend_room(TABLE, 1, LINE_BYTES);
}

static uint32_t one_line(void)
{
    uint32_t refused =
        bisquemop_settings_one_line(&given.s, BYTES_OF(TEXT), given.start, given.rest_end, given.rest_count,
                                    NUMBERS_OF(TABLE), WIDE_AT(VALUE), NUMBERS_AT(SMALL), NUMBERS_AT(ANOTHER));
    if (refused == BISQUEMOP_OK) {
        wrote(TABLE, 1, LINE_BYTES);
        wrote_one(SMALL);
        wrote_one(ANOTHER);
    }
    return refused;
}

static void lend_again(void)
{
    lend_table();
    lend_edit();
    spoil_edit();
}

static uint32_t first_affected(void)
{
    return bisquemop_first_affected(NUMBERS_OF(TABLE), given.lines, given.a, given.b, given.inserted, WIDE_AT(VALUE));
}

static uint32_t lay_again(void)
{
    uint32_t refused = bisquemop_settings_lay_again(&given.s, BYTES_OF(OTHER), NUMBERS_OF(TABLE), given.lines, given.a,
                                                    given.b, given.inserted, WIDE_AT(VALUE), WIDE_AT(COUNT));
    if (refused == BISQUEMOP_OK) {
        wrote(TABLE, value(), LINE_BYTES);
        wrote_one(COUNT);
    }
    return refused;
}

static uint32_t height(void)
{
    return bisquemop_settings_height(&given.s, NUMBERS_OF(TABLE), given.lines, WIDE_AT(VALUE));
}

static uint32_t line_y(void)
{
    uint32_t refused = bisquemop_settings_line_y(&given.s, NUMBERS_OF(TABLE), given.lines, given.line, WIDE_AT(VALUE),
                                                 (int32_t *)(void *)lent[SMALL].at);
    if (refused == BISQUEMOP_OK && value() != BISQUEMOP_NO_LINE) {
        wrote_one(SMALL);
    }
    return refused;
}

static void lend_ys(void)
{
    lend_table();
    lend_index();
}

static uint32_t make_index(void)
{
    uint32_t refused =
        bisquemop_settings_index(&given.s, NUMBERS_OF(TABLE), given.lines, YS_OF(SECOND), WIDE_AT(VALUE));
    if (refused == BISQUEMOP_OK) {
        wrote(SECOND, value(), sizeof(int32_t));
    }
    return refused;
}

static uint32_t index_again(void)
{
    uint32_t refused = bisquemop_settings_index_again(&given.s, NUMBERS_OF(TABLE), given.lines, given.first,
                                                      YS_OF(SECOND), WIDE_AT(VALUE));
    if (refused == BISQUEMOP_OK) {
        wrote(SECOND, value(), sizeof(int32_t));
    }
    return refused;
}

static uint32_t find_line(void)
{
    return bisquemop_find_line(NUMBERS_OF(TABLE), given.lines, YS_OF(SECOND), given.y, WIDE_AT(VALUE));
}

static void lend_for_file(void)
{
    lend_table();
    lend_room(OTHER, given.lines <= BISQUEMOP_LINES_MAX ? BISQUEMOP_FILE_BYTES(given.lines) : 0, 1);
}

static uint32_t write_file(void)
{
    uint32_t refused =
        bisquemop_settings_write_file(&given.s, NUMBERS_OF(TABLE), given.lines, BYTES_OF(OTHER), WIDE_AT(VALUE));
    if (refused == BISQUEMOP_OK) {
        wrote(OTHER, value(), 1);
    }
    return refused;
}

static void lend_to_read(void)
{
    lend_file();
    lend_room(NUMBERS, BISQUEMOP_SETTINGS_NUMBERS, 4);
    lend_room(TABLE, given.lines, LINE_BYTES);
}

static uint32_t read_file(void)
{
    uint32_t refused =
        bisquemop_read_file(BYTES_OF(OTHER), NUMBERS_OF(NUMBERS), NUMBERS_OF(TABLE), WIDE_AT(VALUE), WIDE_AT(COUNT));
    if (refused == BISQUEMOP_OK || refused == BISQUEMOP_RETIRED_SETTING) {
        wrote(NUMBERS, BISQUEMOP_SETTINGS_NUMBERS, 4);
    }
    if (refused == BISQUEMOP_OK) {
        wrote(TABLE, value(), LINE_BYTES);
        wrote_one(COUNT);
    }
    return refused;
}

static void lend_two_texts(void)
{
    lend_text(TEXT);
    lend_text(OTHER);
}

static uint32_t choose(void)
{
    uint32_t refused = bisquemop_settings_choose(&given.s, BYTES_OF(TEXT), BYTES_OF(OTHER), given.h, WIDE_AT(VALUE),
                                                 NUMBERS_AT(SMALL), WIDE_AT(COUNT));
    if (refused == BISQUEMOP_OK) {
        wrote_one(SMALL);
        wrote_one(COUNT);
        if (*NUMBERS_AT(SMALL) > BISQUEMOP_SHORT_TEXT || value() > lent[*NUMBERS_AT(SMALL) ? OTHER : TEXT].bytes) {
            wrong = "the part that is chosen is none of the text";
        }
    }
    return refused;
}

static void lend_for_pages(void)
{
    lend_layout();
    lend_room(SECOND, one_in(2) && given.h > 0 ? lay_text() / given.h + 1 : lent[TEXT].bytes + 1,
              4 * (size_t)BISQUEMOP_PAGE_NUMBERS);
}

static uint32_t pages(void)
{
    uint32_t refused = bisquemop_settings_pages(&given.s, BYTES_OF(TEXT), given.h, NUMBERS_OF(TABLE),
                                                NUMBERS_OF(SECOND), WIDE_AT(VALUE), WIDE_AT(COUNT));
    if (refused == BISQUEMOP_OK) {
        wrote_both(BISQUEMOP_PAGE_NUMBERS);
    }
    return refused;
}

static void lend_pages(void)
{
    lend_table();
    lend_room(SECOND, one_in(2) && given.h > 0 ? given.lines / given.h % 70000 + 1 : lent[TEXT].bytes + 1,
              4 * (size_t)BISQUEMOP_PAGE_NUMBERS);
}

static uint32_t pages_again(void)
{
    uint32_t refused =
        bisquemop_pages_again(NUMBERS_OF(TABLE), given.lines, given.h, given.first, NUMBERS_OF(SECOND), WIDE_AT(VALUE));
    if (refused == BISQUEMOP_OK) {
        wrote(SECOND, value(), 4 * (size_t)BISQUEMOP_PAGE_NUMBERS);
    }
    return refused;
}

/* Texts that are no longer than a clue, since every width is tried. */
static void lend_clue(void)
{
    lend_text(TEXT);
    if (lent[TEXT].bytes > 400) {
        lend(TEXT, 400);
    }
}

static uint32_t columns_fit(void)
{
    return bisquemop_settings_columns_fit(&given.s, BYTES_OF(TEXT), given.h, WIDE_AT(VALUE));
}

static uint32_t columns_plan(void)
{
    return bisquemop_settings_columns_plan(&given.s, BYTES_OF(TEXT), given.h, WIDE_AT(VALUE));
}

static void lend_one_text(void)
{
    lend_text(TEXT);
}

/* ---- all of them */

static const struct call {
    const char *name;
    void (*lend)(void);
    uint32_t (*make)(void);
} all[] = {
    {"check_settings", lend_nothing, check_settings},
    {"check_text", lend_one_text, check_text},
    {"tokens", lend_tokens, tokens},
    {"layout", lend_layout, layout},
    {"layout_events", lend_layout, layout_events},
    {"open", lend_one_text, open_text},
    {"one_line", lend_line, one_line},
    {"first_affected", lend_again, first_affected},
    {"lay_again", lend_again, lay_again},
    {"height", lend_table, height},
    {"line_y", lend_table, line_y},
    {"index", lend_ys, make_index},
    {"index_again", lend_ys, index_again},
    {"find_line", lend_ys, find_line},
    {"write_file", lend_for_file, write_file},
    {"read_file", lend_to_read, read_file},
    {"choose", lend_two_texts, choose},
    {"pages", lend_for_pages, pages},
    {"pages_again", lend_pages, pages_again},
    {"columns_fit", lend_one_text, columns_fit},
    {"columns_plan", lend_clue, columns_plan},
};

unsigned calls(void)
{
    return sizeof all / sizeof all[0];
}

const char *call_name(unsigned call)
{
    return all[call].name;
}

void prepare(unsigned call)
{
    lend_nothing();
    given.s = good_settings();
    given.h = one_in(4) ? any32() : 1 + below(6);
    given.line = one_in(2) ? any64() : below(8);
    given.first = one_in(2) ? any64() : below(8);
    given.y = (int32_t)below(400) - 200;
    if (one_in(4)) {
        uint32_t y = any32();
        memcpy(&given.y, &y, sizeof given.y);
    }
    all[call].lend();
    lend(VALUE, sizeof(uint64_t));
    lend(COUNT, sizeof(uint64_t));
    lend(SMALL, sizeof(uint32_t));
    lend(ANOTHER, sizeof(uint32_t));
    spoil_settings(&given.s);
}

uint32_t make(unsigned call)
{
    wrong = NULL;
    for (int place = 0; place < PLACES; place++) {
        lent[place].may_change = 0;
    }
    lent[VALUE].may_change = sizeof(uint64_t);
    return all[call].make();
}
