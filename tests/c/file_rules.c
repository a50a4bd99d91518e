#include "file_rules.h"

#include <string.h>

/* ---- writing */

size_t put_field(uint8_t *to, uint8_t tag, size_t length, const uint8_t *body)
{
    to[0] = tag;
    to[1] = (uint8_t)(length & 0xFF);
    to[2] = (uint8_t)(length >> 8);
    if (length > 0) {
        memcpy(to + 3, body, length);
    }
    return 3 + length;
}

size_t put_numbers(uint8_t *to, uint8_t tag, const uint32_t *numbers, size_t count)
{
    uint8_t body[4 * (BISQUEMOP_SETTINGS_NUMBERS + BISQUEMOP_LINE_NUMBERS)];
    for (size_t i = 0; i < 4 * count; i++) {
        body[i] = (uint8_t)(numbers[i / 4] >> 8 * (i % 4));
    }
    return put_field(to, tag, 4 * count, body);
}

void number_settings(struct bisquemop_settings s, uint32_t *numbers)
{
    const uint32_t all[BISQUEMOP_SETTINGS_NUMBERS] = {s.glyph,   s.width,    s.tab,           s.spacing,   s.paragraph,
                                                      s.base,    s.height,   (uint32_t)s.top, s.alignment, s.vertical,
                                                      s.leading, s.trailing, s.wrap};
    memcpy(numbers, all, sizeof all);
}

size_t put_file(uint8_t *to, struct bisquemop_settings s, const uint32_t *table, uint64_t lines)
{
    uint32_t numbers[BISQUEMOP_SETTINGS_NUMBERS], bytes = line_number(table, lines - 1, BISQUEMOP_LINE_REACH) - 1;
    number_settings(s, numbers);
    size_t at = put_numbers(to, 1, numbers, BISQUEMOP_SETTINGS_NUMBERS);
    at += put_numbers(to + at, 2, &bytes, 1);
    for (uint64_t k = 0; k < lines; k++) {
        at += put_numbers(to + at, 3, table + BISQUEMOP_LINE_NUMBERS * k, BISQUEMOP_LINE_NUMBERS);
    }
    return at + put_field(to + at, 255, 0, NULL);
}

/* ---- reading */

static uint32_t four(const uint8_t *at)
{
    return (uint32_t)at[0] | (uint32_t)at[1] << 8 | (uint32_t)at[2] << 16 | (uint32_t)at[3] << 24;
}

static struct told tell(uint32_t number, uint64_t value)
{
    struct told t = {number, value, 0, {0}, 0, NULL};
    return t;
}

/* What may stand next in a file. */
enum next { WANTS_SETTINGS, WANTS_LENGTH, WANTS_LINES, WANTS_NOTHING };

/* The length that a tag has where it may stand, or -1. */
static long length_of(enum next next, uint8_t tag)
{
    if (next == WANTS_SETTINGS && tag == 1) {
        return 4 * BISQUEMOP_SETTINGS_NUMBERS;
    }
    if (next == WANTS_LENGTH && tag == 2) {
        return 4;
    }
    if (next == WANTS_LINES && tag == 3) {
        return 4 * BISQUEMOP_LINE_NUMBERS;
    }
    return next == WANTS_LINES && tag == 255 ? 0 : -1;
}

/* The first fault of the fields, or 0; and how many lines there are. */
static struct told tell_fields(const uint8_t *file, size_t len, uint64_t *lines)
{
    enum next next = WANTS_SETTINGS;
    *lines = 0;
    for (size_t at = 0; at < len || next != WANTS_NOTHING;) {
        if (len - at < 3) {
            return tell(BISQUEMOP_BAD_FIELD, at);
        }
        size_t length = file[at + 1] + (size_t)256 * file[at + 2];
        long wanted = length_of(next, file[at]);
        if (wanted < 0 || len - at - 3 < length) {
            return tell(BISQUEMOP_BAD_FIELD, at);
        }
        if (length != (size_t)wanted) {
            return tell(file[at] == 3 && length == 40 ? BISQUEMOP_OLD_ENTRY : BISQUEMOP_BAD_FIELD, at);
        }
        *lines += file[at] == 3;
        next = file[at] == 1 ? WANTS_LENGTH : file[at] == 255 ? WANTS_NOTHING : WANTS_LINES;
        at += 3 + length;
    }
    return tell(BISQUEMOP_OK, 0);
}

static int within(uint32_t n, uint32_t low, uint32_t high)
{
    return low <= n && n <= high;
}

struct refused refused_settings(const uint32_t *n)
{
    struct refused r = {BISQUEMOP_OK, 0};
    int top = within(n[7], 0, 4096) || within(n[7], UINT32_MAX - 4095, UINT32_MAX);
    if (!within(n[0], 1, 64) || n[1] > 4096 || n[2] > 4096 || n[3] > 4096 || n[4] > 4096 || !within(n[5], 1, 64) ||
        n[6] > 4096 || !top || n[10] > 1 || n[11] > 1 || n[12] > 1) {
        r.number = BISQUEMOP_SETTING_OUT_OF_RANGE;
    } else if (n[8] > 3 || n[9] > 2) {
        r.number = BISQUEMOP_UNKNOWN_ALIGNMENT;
        r.value = n[8] > 3 ? n[8] : n[9];
    }
    return r;
}

/* The lines of the file last told of. */
#ifdef SMALL_MEMORY
static uint32_t rows[BISQUEMOP_LINE_NUMBERS * 256];
#else
static uint32_t rows[BISQUEMOP_LINE_NUMBERS * (BISQUEMOP_TEXT_MAX + 4)];
#endif
#define ROWS (sizeof rows / sizeof rows[0])

static void read_rows(const uint8_t *lines_at, uint64_t lines)
{
    for (size_t i = 0; i < BISQUEMOP_LINE_NUMBERS * lines; i++) {
        size_t line = i / BISQUEMOP_LINE_NUMBERS;
        rows[i] = four(lines_at + (3 + 4 * BISQUEMOP_LINE_NUMBERS) * line + 3 + 4 * (i % BISQUEMOP_LINE_NUMBERS));
    }
}

struct told tell_file(const uint8_t *file, size_t len, size_t settings_room, size_t table_room)
{
    uint64_t lines;
    struct told t = tell_fields(file, len, &lines);
    if (t.number != BISQUEMOP_OK) {
        return t;
    }
    for (size_t i = 0; i < BISQUEMOP_SETTINGS_NUMBERS; i++) {
        t.settings[i] = four(file + 3 + 4 * i);
    }
    struct refused settings = refused_settings(t.settings);
    if (settings.number != BISQUEMOP_OK) {
        return tell(settings.number, settings.value);
    }
    if (t.settings[11] == 1) {
        if (settings_room < BISQUEMOP_SETTINGS_NUMBERS) {
            return tell(BISQUEMOP_TOO_SMALL, BISQUEMOP_SETTINGS_NUMBERS);
        }
        t.number = BISQUEMOP_RETIRED_SETTING;
        t.settings[11] = 0;
        t.hands_settings = 1;
        return t;
    }
    t.text_len = four(file + 58);
    if (t.text_len > BISQUEMOP_TEXT_MAX) {
        return tell(BISQUEMOP_TEXT_TOO_LONG, t.text_len);
    }
    if (lines > ROWS / BISQUEMOP_LINE_NUMBERS) {
        expect("the tests' own table is large enough for a file", 0);
        return tell(UINT32_MAX, 0);
    }
    read_rows(file + 62, lines);
    uint64_t bad = bad_line(rows, ROWS, lines);
    if (lines == 0 || line_number(rows, lines - 1, BISQUEMOP_LINE_REACH) != t.text_len + 1) {
        bad = 0;
    }
    if (bad != NO_BAD_LINE) {
        return tell(BISQUEMOP_BAD_LINE, bad);
    }
    if (settings_room < BISQUEMOP_SETTINGS_NUMBERS) {
        return tell(BISQUEMOP_TOO_SMALL, BISQUEMOP_SETTINGS_NUMBERS);
    }
    if (table_room / BISQUEMOP_LINE_NUMBERS < lines) {
        return tell(BISQUEMOP_TOO_SMALL, lines);
    }
    t.value = lines;
    t.hands_settings = 1;
    t.table = rows;
    return t;
}
