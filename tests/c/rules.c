/* A second computation of what an edit does to a table (laying again). */
#include "rules.h"

#include "utf8.h"

#include <string.h>

#define NUMBERS BISQUEMOP_LINE_NUMBERS

uint32_t line_number(const uint32_t *table, uint64_t k, enum bisquemop_line_column column)
{
    return table[NUMBERS * k + column];
}

/* Are rest end and count both 0, or is this a rest that line k can have. */
static int rest_is_good(const uint32_t *table, uint64_t k, uint32_t length)
{
    uint32_t start = line_number(table, k, BISQUEMOP_LINE_START);
    uint32_t end = line_number(table, k, BISQUEMOP_LINE_REST_END);
    uint32_t count = line_number(table, k, BISQUEMOP_LINE_REST_COUNT);
    if (end == 0 && count == 0) {
        return 1;
    }
    return k > 0 && end > start && end <= length && end <= line_number(table, k - 1, BISQUEMOP_LINE_REACH) &&
           count <= end - start;
}

static int start_is_good(const uint32_t *table, uint64_t k, uint32_t length)
{
    uint32_t start = line_number(table, k, BISQUEMOP_LINE_START);
    if (k == 0) {
        return start == 0;
    }
    return start <= length && start > line_number(table, k - 1, BISQUEMOP_LINE_START) &&
           start <= line_number(table, k - 1, BISQUEMOP_LINE_REACH);
}

/* Characters before a line rise from 0, and are no more than the bytes before it. */
static int characters_are_good(const uint32_t *table, uint64_t k)
{
    uint32_t characters = line_number(table, k, BISQUEMOP_LINE_CHARS);
    if (k == 0) {
        return characters == 0;
    }
    return characters > line_number(table, k - 1, BISQUEMOP_LINE_CHARS) &&
           characters <= line_number(table, k, BISQUEMOP_LINE_START);
}

uint64_t bad_line(const uint32_t *table, size_t table_len, uint64_t lines)
{
    if (lines == 0 || lines > table_len / NUMBERS) {
        return 0;
    }
    uint32_t last = line_number(table, lines - 1, BISQUEMOP_LINE_REACH);
    if (last < 1 || last > BISQUEMOP_TEXT_MAX + 1) {
        return 0;
    }
    for (uint64_t k = 0; k < lines; k++) {
        uint32_t end = line_number(table, k, BISQUEMOP_LINE_END);
        if (!start_is_good(table, k, last - 1) || !rest_is_good(table, k, last - 1) || end > 3 ||
            (end == BISQUEMOP_END_END_OF_TEXT) != (k + 1 == lines) ||
            line_number(table, k, BISQUEMOP_LINE_REACH) > last || !characters_are_good(table, k)) {
            return k;
        }
    }
    return NO_BAD_LINE;
}

uint64_t affected_line(const uint32_t *table, uint64_t lines, uint32_t a)
{
    uint64_t k = 0;
    while (k < lines && line_number(table, k, BISQUEMOP_LINE_REACH) <= a) {
        k++;
    }
    return k;
}

/* Is it a character boundary of a part that is UTF-8. No offset past its end is one. */
static int is_boundary(const struct relay *given, uint64_t at)
{
    return at == given->part_len || (at < given->part_len && (given->part[at] & 0xC0) != 0x80);
}

uint32_t characters_in(const uint8_t *text, size_t bytes)
{
    uint32_t characters = 0;
    for (size_t i = 0; i < bytes; i++) {
        characters += (text[i] & 0xC0) != 0x80;
    }
    return characters;
}

/* Does the rest of line k end at a boundary of the part, and count no more than the characters up to there. */
static int rest_fits(const struct relay *given, uint64_t k)
{
    uint32_t end = line_number(given->table, k, BISQUEMOP_LINE_REST_END);
    if (end == 0) {
        return 1;
    }
    uint32_t at = end - line_number(given->table, k, BISQUEMOP_LINE_START);
    return is_boundary(given, at) &&
           line_number(given->table, k, BISQUEMOP_LINE_REST_COUNT) <= characters_in(given->part, at);
}

static struct refused refused_by(uint32_t number, uint64_t value)
{
    struct refused r = {number, value};
    return r;
}

/* Refusals 5 and 6 of a table that is well formed and a part that is UTF-8; `whole` is the new text's length. */
static struct refused refused_at_first(const struct relay *given, int in_text, uint64_t whole)
{
    struct edit e = given->edit;
    uint64_t k = affected_line(given->table, given->lines, e.a);
    if (k == given->lines) {
        return refused_by(BISQUEMOP_BAD_EDIT, 0);
    }
    if (!rest_fits(given, k)) {
        return refused_by(BISQUEMOP_BAD_LINE, k);
    }
    uint32_t start = line_number(given->table, k, BISQUEMOP_LINE_START);
    if (!in_text || given->part_len != whole - start || !is_boundary(given, e.a - start) ||
        !is_boundary(given, (uint64_t)e.a + e.inserted - start)) {
        return refused_by(BISQUEMOP_BAD_EDIT, 0);
    }
    return refused_by(BISQUEMOP_OK, 0);
}

struct refused refused_before(const struct relay *given)
{
    struct edit e = given->edit;
    uint64_t bad = bad_line(given->table, given->table_len, given->lines), whole = 0;
    int in_text = 0;
    if (given->part_len > BISQUEMOP_TEXT_MAX) {
        return refused_by(BISQUEMOP_TEXT_TOO_LONG, given->part_len);
    }
    if (bad == NO_BAD_LINE) {
        uint64_t length = line_number(given->table, given->lines - 1, BISQUEMOP_LINE_REACH) - 1;
        in_text = e.a <= e.b && e.b <= length;
        whole = in_text ? length - (e.b - e.a) + e.inserted : 0;
        if (whole > BISQUEMOP_TEXT_MAX) {
            return refused_by(BISQUEMOP_TEXT_TOO_LONG, whole);
        }
    }
    size_t prefix = longest_prefix(given->part, given->part_len);
    if (prefix < given->part_len) {
        return refused_by(BISQUEMOP_NOT_UTF8, prefix);
    }
    if (bad != NO_BAD_LINE) {
        return refused_by(BISQUEMOP_BAD_LINE, bad);
    }
    return refused_at_first(given, in_text, whole);
}

int64_t length_change(struct edit e)
{
    return (int64_t)e.inserted - ((int64_t)e.b - e.a);
}

void move_line(const uint32_t *line, int64_t by, int64_t characters, uint32_t *moved)
{
    memcpy(moved, line, NUMBERS * sizeof *line);
    moved[BISQUEMOP_LINE_CHARS] = (uint32_t)(line[BISQUEMOP_LINE_CHARS] + characters);
    moved[BISQUEMOP_LINE_START] = (uint32_t)(line[BISQUEMOP_LINE_START] + by);
    moved[BISQUEMOP_LINE_REACH] = (uint32_t)(line[BISQUEMOP_LINE_REACH] + by);
    if (line[BISQUEMOP_LINE_REST_END] != 0) {
        moved[BISQUEMOP_LINE_REST_END] = (uint32_t)(line[BISQUEMOP_LINE_REST_END] + by);
    }
}

/* Does no line from a start on meet an old line that starts at `old`. */
static int is_passed(struct edit e, uint32_t old, uint32_t start)
{
    return old < e.b || old + length_change(e) < start;
}

uint64_t lines_laid(const struct relay *given, uint64_t first, const uint32_t *new_table, uint64_t new_lines,
                    uint64_t *met)
{
    uint64_t j = 0;
    for (uint64_t i = first; i < new_lines; i++) {
        const uint32_t *line = new_table + NUMBERS * i;
        uint32_t moved[NUMBERS];
        /* starts rise in both tables, so an old line that is passed is met by no later one */
        while (j < given->lines &&
               is_passed(given->edit, line_number(given->table, j, BISQUEMOP_LINE_START), line[BISQUEMOP_LINE_START])) {
            j++;
        }
        if (j == given->lines) {
            break;
        }
        move_line(given->table + NUMBERS * j, length_change(given->edit), 0, moved);
        /* start, rest end and rest count are the first three numbers */
        if (memcmp(moved, line, 3 * sizeof *line) == 0) {
            *met = j;
            return i - first;
        }
    }
    *met = given->lines;
    return new_lines - first;
}
