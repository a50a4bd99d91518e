/* Layout files: written, read back, cut short, changed byte by byte, put together wrongly. */
/* Refusal 1, refusal 2, refusal 3, refusal 5, refusal 8, refusal 9, refusal 11, refusal 12. */
#include "chance.h"
#include "file_rules.h"

#include <string.h>

enum {
    LINE = 3 + 4 * BISQUEMOP_LINE_NUMBERS,
    SETTINGS = 3 + 4 * BISQUEMOP_SETTINGS_NUMBERS,
    LENGTH = 7,
    END = 3,
    SMALL_LINES = 64,
    SMALL_TEXT = 60,
    SMALL_FILE = SETTINGS + LENGTH + LINE * SMALL_LINES + END
};

static const struct bisquemop_settings known = {6, 30, 24, 10, 3, 8, 40, -5, BISQUEMOP_ALIGN_CENTRE, 2, 1, 0, 1};

static uint32_t table[BISQUEMOP_LINE_NUMBERS * SMALL_LINES];
static uint8_t file[SMALL_FILE], changed[2 * SMALL_FILE];
#define TABLE (sizeof table / sizeof table[0])

/* Lays a text, puts its file together and answers its bytes. */
static size_t make_file(struct bisquemop_settings s, const uint8_t *text, size_t len, uint64_t *lines)
{
    *lines = lay_text("a text to travel", s, text, len, table, TABLE);
    return put_file(file, s, table, *lines);
}

static size_t make_from(const char *text)
{
    uint64_t lines;
    return make_file(known, (const uint8_t *)text, strlen(text), &lines);
}

/* A file is answered as the rules say, in good room and in little. */
static void expect_told(const char *what, const uint8_t *bytes, size_t len)
{
    static const size_t rooms[][2] = {{13, TABLE}, {12, TABLE}, {20, 0}, {13, BISQUEMOP_LINE_NUMBERS}, {0, 0}};
    for (size_t i = 0; i < sizeof rooms / sizeof rooms[0]; i++) {
        struct told t = tell_file(bytes, len, rooms[i][0], rooms[i][1]);
        expect_read(what, bytes, len, rooms[i][0], rooms[i][1], t.number, t.value, t.hands_settings ? t.settings : NULL,
                    t.table, t.text_len);
    }
}

/* The same, and the number and the value are these in good room. */
static void expect_answer(const char *what, const uint8_t *bytes, size_t len, uint32_t number, uint64_t value)
{
    struct told t = tell_file(bytes, len, BISQUEMOP_SETTINGS_NUMBERS, TABLE);
    expect(what, t.number == number && t.value == value);
    expect_told(what, bytes, len);
}

/* ---- written and read back */

static void test_written(void)
{
    static const uint8_t start[] = {1, 52, 0, 6, 0, 0, 0, 30, 0, 0, 0}, top[] = {251, 255, 255, 255},
                         end[] = {255, 0, 0};
    size_t len = make_from("");
    expect_write("the smallest file", known, table, TABLE, 1, len, BISQUEMOP_OK, len, file);
    expect("a file of one line", len == BISQUEMOP_FILE_BYTES(1));
    expect("the low byte first", memcmp(file, start, sizeof start) == 0);
    expect("a negative top in two's complement", memcmp(file + 3 + 4 * 7, top, sizeof top) == 0);
    expect("the end", memcmp(file + len - END, end, sizeof end) == 0);
    expect_answer("the smallest file is read", file, len, BISQUEMOP_OK, 1);
}

static void test_write_refused(void)
{
    struct bisquemop_settings s = known;
    size_t len = make_from("two words\nand more");
    uint64_t lines = (len - SETTINGS - LENGTH - END) / LINE;
    expect_write("a file", known, table, TABLE, lines, len, BISQUEMOP_OK, len, file);
    expect_write("a byte more", known, table, TABLE, lines, len + 1, BISQUEMOP_OK, len, file);
    expect_write("a byte too few", known, table, TABLE, lines, len - 1, BISQUEMOP_TOO_SMALL, len, file);
    expect_write("no room", known, table, TABLE, lines, 0, BISQUEMOP_TOO_SMALL, len, file);
    expect_write("no line", known, table, TABLE, 0, len, BISQUEMOP_BAD_LINE, 0, file);
    expect_write("not all lines", known, table, TABLE, lines - 1, 0, BISQUEMOP_BAD_LINE, lines - 2, file);
    expect_write("more lines than the table has", known, table, TABLE, SMALL_LINES + 1, 0, BISQUEMOP_BAD_LINE, 0, file);
    s.vertical = 3;
    expect_write("an unknown alignment", s, table, TABLE, 0, 0, BISQUEMOP_UNKNOWN_ALIGNMENT, 3, file);
    s.wrap = 2;
    expect_write("a setting out of range", s, table, TABLE, 0, 0, BISQUEMOP_SETTING_OUT_OF_RANGE, 0, file);
}

/* ---- spoiled one by one */

static const char *const texts[] = {"", "abc   d   e", "aa\nbb\r\ncc dd ee ff gg hh"};

static void test_cut(void)
{
    for (size_t i = 0; i < sizeof texts / sizeof texts[0]; i++) {
        size_t len = make_from(texts[i]);
        for (size_t cut = 0; cut < len; cut++) {
            size_t field = cut < SETTINGS            ? 0
                           : cut < SETTINGS + LENGTH ? SETTINGS
                                                     : cut - (cut - SETTINGS - LENGTH) % LINE;
            expect_answer("a file that is cut short", file, cut, BISQUEMOP_BAD_FIELD, field);
        }
    }
}

static void test_each_byte(void)
{
    static const uint8_t values[] = {0, 1, 2, 3, 4, 40, 44, 52, 65, 128, 254, 255};
    for (size_t i = 0; i < sizeof texts / sizeof texts[0]; i++) {
        size_t len = make_from(texts[i]);
        for (size_t at = 0; at < len; at++) {
            uint8_t was = file[at];
            for (size_t v = 0; v < sizeof values + 3; v++) {
                file[at] = v < sizeof values ? values[v] : (uint8_t)(was + v - sizeof values - 1);
                expect_told("a byte that is changed", file, len);
            }
            file[at] = was;
        }
    }
}

/* A field of the file to be put together, by its place in it. */
static size_t add(size_t at, size_t from, size_t len)
{
    memcpy(changed + at, file + from, len);
    return at + len;
}

static void test_order(void)
{
    size_t len = make_from("aa\nbb"), lines = SETTINGS + LENGTH, end = len - END, at;
    at = add(add(add(0, 0, SETTINGS), 0, SETTINGS), SETTINGS, len - SETTINGS);
    expect_answer("settings twice", changed, at, BISQUEMOP_BAD_FIELD, SETTINGS);
    at = add(add(0, 0, lines), SETTINGS, len - SETTINGS);
    expect_answer("a length twice", changed, at, BISQUEMOP_BAD_FIELD, lines);
    at = add(add(add(0, SETTINGS, LENGTH), 0, SETTINGS), lines, len - lines);
    expect_answer("a length before the settings", changed, at, BISQUEMOP_BAD_FIELD, 0);
    at = add(add(0, 0, SETTINGS), lines, len - lines);
    expect_answer("no length", changed, at, BISQUEMOP_BAD_FIELD, SETTINGS);
    at = add(0, SETTINGS, len - SETTINGS);
    expect_answer("no settings", changed, at, BISQUEMOP_BAD_FIELD, 0);
    at = add(add(add(add(0, 0, SETTINGS), lines, LINE), SETTINGS, LENGTH), lines + LINE, len - lines - LINE);
    expect_answer("a line before the length", changed, at, BISQUEMOP_BAD_FIELD, SETTINGS);
    at = add(add(0, 0, lines), end, END);
    expect_answer("no line", changed, at, BISQUEMOP_BAD_LINE, 0);
    at = add(add(add(0, 0, lines), lines + LINE, LINE), end, END);
    expect_answer("no first line", changed, at, BISQUEMOP_BAD_LINE, 0);
    at = add(add(add(add(0, 0, lines), lines + LINE, LINE), lines, LINE), end, END);
    expect_answer("lines exchanged", changed, at, BISQUEMOP_BAD_LINE, 0);
    at = add(add(0, 0, len), end, END);
    expect_answer("two ends", changed, at, BISQUEMOP_BAD_FIELD, len);
    at = add(add(0, 0, len), lines, LINE);
    expect_answer("a line after the end", changed, at, BISQUEMOP_BAD_FIELD, len);
    at = add(add(0, 0, len), 0, 1);
    expect_answer("a byte after the end", changed, at, BISQUEMOP_BAD_FIELD, len);
    at = add(0, 0, end) + put_field(changed + end, 4, 0, NULL);
    expect_answer("an unknown field", changed, add(at, end, END), BISQUEMOP_BAD_FIELD, end);
    at = add(0, 0, end) + put_field(changed + end, 255, 1, file);
    expect_answer("an end with a byte", changed, at, BISQUEMOP_BAD_FIELD, end);
}

/* ---- fields of another length */

static void test_lengths_of(size_t size, uint32_t number)
{
    uint8_t body[64] = {0};
    size_t len = make_from("aa\nbb"), lines = SETTINGS + LENGTH, at;
    at = add(0, 0, lines) + put_field(changed + lines, 3, size, body);
    expect_answer("a first line of another length", changed, add(at, lines, len - lines), number, lines);
    at = add(0, 0, lines + LINE) + put_field(changed + lines + LINE, 3, size, body);
    expect_answer("a later line of another length", changed, add(at, lines + LINE, len - lines - LINE), number,
                  lines + LINE);
    expect_answer("one that is cut short", changed, at - 1, BISQUEMOP_BAD_FIELD, lines + LINE);
    at = add(0, 0, len) + put_field(changed + len, 3, size, body);
    expect_answer("one after the end", changed, at, BISQUEMOP_BAD_FIELD, len);
}

static void test_line_lengths(void)
{
    test_lengths_of(0, BISQUEMOP_BAD_FIELD);
    test_lengths_of(4 * BISQUEMOP_LINE_NUMBERS - 1, BISQUEMOP_BAD_FIELD);
    test_lengths_of(4 * BISQUEMOP_LINE_NUMBERS + 1, BISQUEMOP_BAD_FIELD);
#if BISQUEMOP_LINE_NUMBERS != 10
    test_lengths_of(40, BISQUEMOP_OLD_ENTRY);
#endif
}

/* ---- what the fields hold */

static void put_four(uint8_t *to, uint32_t n)
{
    for (int i = 0; i < 4; i++) {
        to[i] = (uint8_t)(n >> 8 * i);
    }
}

/* One of the thirteen settings is another number. */
static size_t with_setting(size_t which, uint32_t n)
{
    size_t len = make_from("aa\nbb");
    put_four(file + 3 + 4 * which, n);
    return len;
}

static void test_retired(void)
{
    size_t len = with_setting(11, 1);
    expect_answer("trailing spaces on", file, len, BISQUEMOP_RETIRED_SETTING, 0);
    put_four(file + SETTINGS + 3, 70000);
    expect_answer("and a text that is too long", file, len, BISQUEMOP_RETIRED_SETTING, 0);
    put_four(file + 3 + 4 * 9, 3);
    expect_answer("and an unknown alignment", file, len, BISQUEMOP_UNKNOWN_ALIGNMENT, 3);
    put_four(file + 3, 0);
    expect_answer("and a setting out of range", file, len, BISQUEMOP_SETTING_OUT_OF_RANGE, 0);
    len = with_setting(11, 2);
    expect_answer("trailing spaces of 2", file, len, BISQUEMOP_SETTING_OUT_OF_RANGE, 0);
}

static void test_contents(void)
{
    static const uint32_t tops[][2] = {
        {4096, 0}, {4097, 1}, {UINT32_MAX - 4095, 0}, {UINT32_MAX - 4096, 1}, {0x80000000, 1}};
    size_t len;
    for (size_t i = 0; i < sizeof tops / sizeof tops[0]; i++) {
        len = with_setting(7, tops[i][0]);
        expect_answer("a top", file, len, tops[i][1], tops[i][1] ? 0 : 2);
    }
    len = make_from("aa\nbb");
    put_four(file + SETTINGS + 3, 4);
    expect_answer("a length that disagrees", file, len, BISQUEMOP_BAD_LINE, 0);
    put_four(file + SETTINGS + LENGTH + LINE + 3, 9);
    expect_answer("and a bad line", file, len, BISQUEMOP_BAD_LINE, 0);
    put_four(file + SETTINGS + 3, 5);
    expect_answer("a bad line", file, len, BISQUEMOP_BAD_LINE, 1);
    put_four(file + SETTINGS + 3, 65536);
    expect_answer("a text that is too long", file, len, BISQUEMOP_TEXT_TOO_LONG, 65536);
}

#ifndef SMALL_MEMORY
/* As many lines as a text can have. */
static void test_long(void)
{
    static uint8_t text[BISQUEMOP_TEXT_MAX], bytes[BISQUEMOP_FILE_BYTES(BISQUEMOP_LINES_MAX)];
    static uint32_t rows[BISQUEMOP_LINE_NUMBERS * BISQUEMOP_LINES_MAX];
    size_t room = sizeof rows / sizeof rows[0], len;
    memset(text, '\n', sizeof text);
    uint64_t lines = lay_text("a text of 65,536 lines", known, text, sizeof text, rows, room);
    expect("65,536 lines", lines == BISQUEMOP_LINES_MAX);
    len = put_file(bytes, known, rows, lines);
    expect_write("a long file", known, rows, room, lines, len, BISQUEMOP_OK, len, bytes);
    struct told t = tell_file(bytes, len, BISQUEMOP_SETTINGS_NUMBERS, room);
    expect("a long file is good", t.number == BISQUEMOP_OK && t.text_len == BISQUEMOP_TEXT_MAX);
    expect_read("a long file is read", bytes, len, BISQUEMOP_SETTINGS_NUMBERS, room, t.number, t.value, t.settings,
                t.table, t.text_len);
    expect_read("a line too few", bytes, len, BISQUEMOP_SETTINGS_NUMBERS, room - 1, BISQUEMOP_TOO_SMALL, lines, NULL,
                NULL, 0);
}
#endif

void test_files(void)
{
    test_written();
    test_write_refused();
    test_cut();
    test_each_byte();
    test_order();
    test_line_lengths();
    test_retired();
    test_contents();
#ifndef SMALL_MEMORY
    test_long();
#endif
}

/* ---- by chance */

/* A byte is changed, some are dropped, put in, or repeated. Answers how many there are then. */
static size_t damage(size_t len)
{
    size_t at = below((uint32_t)len), many = 1 + below(at + LINE < len ? LINE : 3);
    switch (below(6)) {
    case 0:
        return at;
    case 1:
        many = many < len - at ? many : len - at;
        memmove(changed + at, changed + at + many, len - at - many);
        return len - many;
    case 2:
        memmove(changed + at + many, changed + at, len - at);
        return len + many;
    case 3:
        changed[at] = (uint8_t)(changed[at] + 1 - 2 * below(2));
        return len;
    default:
        changed[at] = (uint8_t)(below(2) ? below(256) : below(5));
        return len;
    }
}

static void damaged_file(const char *what, struct bisquemop_settings s)
{
    uint8_t text[4 * SMALL_TEXT];
    uint64_t lines;
    size_t len = random_text(text, below(SMALL_TEXT / 4)), settings = BISQUEMOP_SETTINGS_NUMBERS, room = TABLE;
    s.trailing = 0;
    len = make_file(s, text, len, &lines);
    memcpy(changed, file, len);
    if (below(8) == 0) {
        put_four(changed + 3 + 4 * 11, 1);
    }
    for (uint32_t times = below(4); times > 0 && len > 0; times--) {
        len = damage(len);
    }
    if (below(4) == 0) {
        settings = below(15);
        room = below(TABLE);
    }
    struct told t = tell_file(changed, len, settings, room);
    expect_read(what, changed, len, settings, room, t.number, t.value, t.hands_settings ? t.settings : NULL, t.table,
                t.text_len);
}

void test_damaged(unsigned long files, unsigned long seed)
{
    test_by_chance(seed, files, "and its damaged file", damaged_file);
}
