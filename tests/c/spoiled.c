/*
 * bisquemop_lay_again with whatever it can be lent, by chance: tables of layouts, tables that are only well formed,
 * tables of any numbers, with good and bad parts and edits. It refuses what the scope refuses, and treats all else by
 * the scope's steps.
 * Refusal 5, refusal 6, laying again.
 */
#include "chance.h"
#include "harness.h"
#include "rules.h"

#include <stdio.h>
#include <string.h>

#define NUMBERS BISQUEMOP_LINE_NUMBERS
#define LONGEST 160 /* bytes of a text */
#define LINES (4 * LONGEST)

/* The old text's length, the table, and the part that is lent. */
static size_t len;
static uint32_t table[NUMBERS * LINES];
static uint8_t part[2 * LONGEST];

/* How often each number was returned. */
static unsigned long returned[BISQUEMOP_TOO_SMALL + 1];

static uint32_t any_number(void)
{
    static const uint32_t ends[] = {0,          1,          2,          3,          4,          65534,
                                    65535,      65536,      65537,      0x7FFFFFFF, 0x80000000, 0xFFFEFFFF,
                                    0xFFFF0000, 0xFFFFFFF0, 0xFFFFFFFE, UINT32_MAX};
    if (below(4) == 0) {
        uint32_t high = below(65536);
        return high << 16 | below(65536);
    }
    return ends[below(sizeof ends / sizeof ends[0])];
}

/* A number near another, near an offset of the text, or any. */
static uint32_t another(uint32_t n)
{
    switch (below(4)) {
    case 0:
        return n + 1;
    case 1:
        return n - 1;
    case 2:
        return below((uint32_t)len + 4);
    default:
        return any_number();
    }
}

/* How many characters line k may have before it: more than the line before, and at most its start. */
static uint32_t random_characters(uint64_t k, uint32_t start)
{
    if (k == 0) {
        return 0;
    }
    uint32_t before = line_number(table, k - 1, BISQUEMOP_LINE_CHARS);
    return before + 1 + below(start - before);
}

/* A line with this start, where the next one starts at `next` or, if it is the last, nowhere. */
static void random_line(uint64_t k, uint32_t start, uint32_t next, int last)
{
    uint32_t *line = table + NUMBERS * k, length = (uint32_t)len;
    uint32_t before = k == 0 ? 0 : line_number(table, k - 1, BISQUEMOP_LINE_REACH);
    uint32_t most = before < length ? before : length;
    for (int i = 0; i < NUMBERS; i++) {
        line[i] = any_number();
    }
    line[BISQUEMOP_LINE_START] = start;
    line[BISQUEMOP_LINE_REST_END] = most > start && below(2) ? start + 1 + below(most - start) : 0;
    line[BISQUEMOP_LINE_REST_COUNT] =
        line[BISQUEMOP_LINE_REST_END] == 0 ? 0 : below(line[BISQUEMOP_LINE_REST_END] - start + 1);
    line[BISQUEMOP_LINE_END] = last ? BISQUEMOP_END_END_OF_TEXT : below(2) ? BISQUEMOP_END_LINE_BREAK : below(2);
    line[BISQUEMOP_LINE_REACH] = last ? length + 1 : below(2) ? next : next + below(length + 2 - next);
    line[BISQUEMOP_LINE_CHARS] = random_characters(k, start);
}

/* A table that is well formed, and answers how many lines it has. */
static uint64_t random_table(void)
{
    uint32_t gap = 1 + below(8), start = 0;
    uint64_t lines = 0;
    for (int last = 0; !last;) {
        uint32_t next = start + 1 + below(gap);
        last = next > len || below(30) == 0;
        random_line(lines++, start, next, last);
        start = next;
    }
    return lines;
}

/* UTF-8 of just so many bytes. */
static void random_bytes(uint8_t *to, size_t count)
{
    size_t at = below(2) ? 0 : random_text(to, count / 4);
    while (at < count) {
        to[at++] = (uint8_t) "  ab\n"[below(5)];
    }
}

/* An edit and a part that go with a table, whatever text it is of. */
static void random_lent(struct relay *given)
{
    uint32_t a = below((uint32_t)len + 1), b = below(2) ? a : a + below((uint32_t)len - a + 1);
    uint32_t start = line_number(table, affected_line(table, given->lines, a), BISQUEMOP_LINE_START);
    given->edit.a = a;
    given->edit.b = b;
    given->edit.inserted = below(2) ? 0 : below(below(8) ? 5 : LONGEST);
    size_t front = a - start, back = len - b;
    random_bytes(part, front);
    random_bytes(part + front, given->edit.inserted);
    random_bytes(part + front + given->edit.inserted, back);
    given->part_len = front + given->edit.inserted + back;
}

/* The table of a text, an edit of the text, and the part that goes with them. */
static void true_lent(struct bisquemop_settings s, struct relay *given)
{
    static uint8_t text[LONGEST], edited[LONGEST], inserted[LONGEST];
    len = random_text(text, below(LONGEST / 4 + 1));
    given->lines = lay_text("a text", s, text, len, table, NUMBERS * LINES);
    given->edit = random_edit(text, len, LONGEST, inserted);
    uint64_t first = affected_line(table, given->lines, given->edit.a);
    size_t start = line_number(table, first, BISQUEMOP_LINE_START);
    given->part_len = put_edited(edited, text, len, given->edit, inserted) - start;
    memcpy(part, edited + start, given->part_len);
}

/* What is lent, before it is spoiled. */
static void lend_something(struct bisquemop_settings s, struct relay *given)
{
    uint32_t kind = below(8);
    for (size_t i = 0; i < sizeof table / sizeof table[0]; i++) {
        table[i] = UINT32_C(0xABCD0000) ^ (uint32_t)i;
    }
    if (kind < 4) {
        true_lent(s, given);
        return;
    }
    len = below(LONGEST / 2 + 1);
    given->lines = random_table();
    random_lent(given);
    if (kind == 4) {
        for (size_t i = 0; i < NUMBERS * given->lines; i++) {
            table[i] = below(2) ? below((uint32_t)len + 4) : any_number();
        }
    }
}

/* Changes one thing that is lent, of a table with so many numbers. */
static void spoil(struct relay *given, size_t numbers)
{
    size_t at = below((uint32_t)numbers + 1);
    switch (below(8)) {
    case 0:
        given->edit.a = another(given->edit.a);
        break;
    case 1:
        given->edit.b = another(given->edit.b);
        break;
    case 2:
        given->edit.inserted = another(given->edit.inserted);
        break;
    case 3:
        if (given->part_len > 0) {
            part[below((uint32_t)given->part_len)] = (uint8_t)(below(2) ? ' ' : below(256));
        }
        break;
    case 4:
        given->part_len = below(2) ? below((uint32_t)given->part_len + 1) : given->part_len + below(3);
        break;
    case 5:
        given->lines = below(2) ? given->lines + below(3) - 1 : any_number();
        break;
    default:
        table[at] = another(table[at]);
    }
}

/* How many characters stand before an offset: those before the first affected line, by its own number, and the part's
   from there. */
static uint32_t characters_before(const struct relay *given, uint64_t first, uint32_t offset)
{
    uint32_t base = line_number(given->table, first, BISQUEMOP_LINE_START);
    return line_number(given->table, first, BISQUEMOP_LINE_CHARS) + characters_in(given->part, offset - base);
}

/* Does each line laid say how many characters stand before it. */
static int counted_truly(const struct relay *given, const uint32_t *after, uint64_t first, uint64_t laid)
{
    for (uint64_t k = first; k < first + laid; k++) {
        if (line_number(after, k, BISQUEMOP_LINE_CHARS) !=
            characters_before(given, first, line_number(after, k, BISQUEMOP_LINE_START))) {
            return 0;
        }
    }
    return 1;
}

/*
 * The lines laid, those of the table after the call from `first` on: the first starts, and with the same rest, where
 * the old one did, and from the first without a rest on they are the layout of the text from there.
 */
static int laid_truly(struct bisquemop_settings s, const struct relay *given, const uint32_t *after, uint64_t first,
                      uint64_t laid, uint64_t value)
{
    static uint32_t fresh[NUMBERS * LINES];
    uint32_t base = line_number(given->table, first, BISQUEMOP_LINE_START);
    uint64_t k = first, end = first + laid;
    if (memcmp(after + NUMBERS * k, given->table + NUMBERS * k, 3 * sizeof *after) != 0) {
        return 0;
    }
    while (k < end && line_number(after, k, BISQUEMOP_LINE_REST_END) != 0) {
        k++;
    }
    if (k == end) {
        return 1;
    }
    uint32_t start = line_number(after, k, BISQUEMOP_LINE_START);
    uint64_t lines = lay_text("the text from a line on", s, given->part + (start - base),
                              given->part_len - (start - base), fresh, NUMBERS * LINES);
    if (end == value ? k + lines != end : k + lines <= end) {
        return 0;
    }
    for (uint64_t i = 0; k + i < end; i++) {
        uint32_t moved[NUMBERS];
        move_line(fresh + NUMBERS * i, start, characters_before(given, first, start), moved);
        if (memcmp(moved, after + NUMBERS * (k + i), sizeof moved) != 0) {
            return 0;
        }
    }
    return 1;
}

/* By how many characters the old lines from `met` on are moved: what the first of them counts now, less what it did. */
static int64_t characters_moved(const struct relay *given, uint64_t first, uint64_t met)
{
    int64_t start = line_number(given->table, met, BISQUEMOP_LINE_START) + length_change(given->edit);
    return (int64_t)characters_before(given, first, (uint32_t)start) -
           line_number(given->table, met, BISQUEMOP_LINE_CHARS);
}

/* Is a table well formed, but for the characters: old lines of no text that are moved may count more than there are
   bytes. */
static int formed_else(const uint32_t *after, size_t table_len, uint64_t lines)
{
    static uint32_t else_same[NUMBERS * LINES];
    memcpy(else_same, after, NUMBERS * lines * sizeof *after);
    for (uint64_t k = 0; k < lines; k++) {
        else_same[NUMBERS * k + BISQUEMOP_LINE_CHARS] = line_number(after, k, BISQUEMOP_LINE_START);
    }
    return bad_line(else_same, table_len, lines) == NO_BAD_LINE;
}

/* The table after the call: the old lines before `first`, those laid, old lines moved, and what the table held. */
static int treated_truly(struct bisquemop_settings s, const struct relay *given, const uint32_t *after, uint64_t value,
                         uint64_t laid)
{
    uint64_t first = affected_line(given->table, given->lines, given->edit.a), met;
    if (!formed_else(after, given->table_len, value) || value < first + laid ||
        lines_laid(given, first, after, value, &met) != laid || value != first + laid + (given->lines - met) ||
        !laid_truly(s, given, after, first, laid, value) || !counted_truly(given, after, first, laid)) {
        return 0;
    }
    int64_t characters = met < given->lines ? characters_moved(given, first, met) : 0;
    for (uint64_t i = 0; met + i < given->lines; i++) {
        uint32_t moved[NUMBERS];
        move_line(given->table + NUMBERS * (met + i), length_change(given->edit), characters, moved);
        if (memcmp(moved, after + NUMBERS * (first + laid + i), sizeof moved) != 0) {
            return 0;
        }
    }
    size_t written = NUMBERS * value;
    return memcmp(after, given->table, NUMBERS * first * sizeof *after) == 0 &&
           memcmp(after + written, given->table + written, (given->table_len - written) * sizeof *after) == 0;
}

/* What is lent is good: a call with room for all, and one with the room that was given. */
static void expect_treated(const char *what, struct bisquemop_settings s, struct relay given)
{
    static uint32_t after[NUMBERS * LINES];
    size_t room = given.table_len;
    uint64_t value = 0, laid = 0;
    given.table_len = NUMBERS * LINES;
    memcpy(after, table, sizeof after);
    uint32_t number = bisquemop_settings_lay_again(&s, given.part, given.part_len, after, given.table_len, given.lines,
                                                   given.edit.a, given.edit.b, given.edit.inserted, &value, &laid);
    int treated = number == BISQUEMOP_OK && value <= LINES && treated_truly(s, &given, after, value, laid);
    expect(what, treated);
    if (!treated) {
        return;
    }
    given.table_len = room;
    if (NUMBERS * value <= room) {
        expect_again(what, s, &given, BISQUEMOP_OK, value, laid, after);
        returned[BISQUEMOP_OK]++;
    } else {
        expect_refused(what, s, &given, BISQUEMOP_TOO_SMALL, value);
        returned[BISQUEMOP_TOO_SMALL]++;
    }
}

static void one_table(const char *what)
{
    struct bisquemop_settings s = random_settings();
    struct relay given = {part, 0, table, 0, 0, {0, 0, 0}};
    lend_something(s, &given);
    size_t numbers = NUMBERS * given.lines;
    given.table_len = numbers + (below(2) ? 0 : below(20 * NUMBERS));
    for (uint32_t times = below(3); times > 0; times--) {
        spoil(&given, numbers);
    }
    struct refused r = refused_before(&given);
    if (below(32) == 0) {
        s.trailing = 1;
        r.number = BISQUEMOP_SETTING_OUT_OF_RANGE;
        r.value = 0;
    } else if (below(32) == 0) {
        s.vertical = 3;
        r.number = BISQUEMOP_UNKNOWN_ALIGNMENT;
        r.value = 3;
    }
    if (r.number == BISQUEMOP_OK) {
        expect_treated(what, s, given);
    } else {
        expect_refused(what, s, &given, r.number, r.value);
        returned[r.number]++;
    }
}

static void expect_returned(unsigned long of)
{
    printf("%lu done, and refused by 1 to 8, of which 7 is not used:", returned[BISQUEMOP_OK]);
    for (int number = 1; number <= BISQUEMOP_TOO_SMALL; number++) {
        printf(" %lu", returned[number]);
    }
    printf("\n");
    for (int number = 0; of >= 10000 && number <= BISQUEMOP_TOO_SMALL; number++) {
        expect("each refusal, and 7 never", number == 7 ? returned[number] == 0 : returned[number] >= of / 200);
    }
}

void test_spoiled(unsigned long tables, unsigned long seed)
{
    seed_with(seed);
    for (unsigned long i = 0; i < tables; i++) {
        char what[64];
        snprintf(what, sizeof what, "table %lu, seed %lu", i, seed);
        one_table(what);
        tell_progress(i + 1);
    }
    expect_returned(tables);
}
