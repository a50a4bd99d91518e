#include "harness.h"

#include <inttypes.h>
#include <stdio.h>
#include <string.h>

static unsigned long passed, failed;

/* The answer of one call. What stands beside `value` must stay as it was. */
struct answer {
    uint64_t before, value, after;
    uint32_t number;
};

#define BEFORE UINT64_C(0x1111111111111111)
#define UNWRITTEN UINT64_C(0xAAAAAAAAAAAAAAAA)
#define AFTER UINT64_C(0x2222222222222222)

static struct answer no_answer(void)
{
    struct answer a = {BEFORE, UNWRITTEN, AFTER, UINT32_MAX};
    return a;
}

void expect(const char *what, int holds)
{
    if (holds) {
        passed++;
    } else {
        failed++;
        printf("FAILED %s\n", what);
    }
}

/* Is the answer the expected one. If not, prints all of the line but what the case was given, and the line's end. */
static int compare(const char *what, const struct answer *got, uint32_t number, uint64_t value)
{
    if (got->number == number && got->value == value && got->before == BEFORE && got->after == AFTER) {
        passed++;
        return 1;
    }
    failed++;
    printf("FAILED %s: expected %" PRIu32 " %" PRIu64 ", got %" PRIu32 " ", what, number, value, got->number);
    if (got->value == UNWRITTEN) {
        printf("and no value");
    } else {
        printf("%" PRIu64, got->value);
    }
    if (got->before != BEFORE || got->after != AFTER) {
        printf(", and what stands beside the value was written");
    }
    return 0;
}

void expect_settings(const char *what, struct bisquemop_settings s, uint32_t number, uint64_t value)
{
    struct answer plain = no_answer(), spread = no_answer();
    plain.number = bisquemop_check_settings(s.glyph, s.width, s.tab, s.spacing, s.paragraph, s.base, s.height, s.top,
                                            s.alignment, s.vertical, s.leading, s.trailing, s.wrap, &plain.value);
    if (!compare(what, &plain, number, value)) {
        printf(", from thirteen numbers\n");
    }
    spread.number = bisquemop_settings_check(&s, &spread.value);
    if (!compare(what, &spread, number, value)) {
        printf(", from a struct\n");
    }
}

/* Ends the line of a case that failed with the text it was given. */
static void show_text(const uint8_t *text, size_t len)
{
    printf(", for %lu bytes:", (unsigned long)len);
    for (size_t i = 0; i < len && i < 24; i++) {
        printf(" %02X", (unsigned)text[i]);
    }
    printf(len > 24 ? " ..\n" : "\n");
}

void expect_text(const char *what, const uint8_t *text, size_t len, uint32_t number, uint64_t value)
{
    struct answer a = no_answer();
    a.number = bisquemop_check_text(text, len, &a.value);
    if (!compare(what, &a, number, value)) {
        show_text(text, len);
    }
}

/* The buffers that are lent, between two guards each: the second is for events. */
#define GUARD 16
#define ROOM (BISQUEMOP_LINE_NUMBERS * (BISQUEMOP_TEXT_MAX + 4))

static uint32_t lent[GUARD + ROOM + GUARD], lent_for_events[GUARD + ROOM + GUARD];

/* What stands at a place of it before a call. */
static uint32_t held(size_t i)
{
    return UINT32_C(0xC0000000) ^ (uint32_t)i * UINT32_C(2654435761);
}

static uint32_t *lend_in(uint32_t *buffer, size_t room)
{
    if (room > ROOM) {
        expect("the tests' own buffer is large enough", 0);
        return NULL;
    }
    for (size_t i = 0; i < GUARD + room + GUARD; i++) {
        buffer[i] = held(i);
    }
    return room == 0 ? NULL : buffer + GUARD;
}

/* Does the buffer hold the `count` numbers at `written` at its front, and all else what it held. */
static void compare_in(const uint32_t *buffer, const char *what, size_t room, const uint32_t *written, size_t count)
{
    for (size_t i = 0; i < GUARD + room + GUARD; i++) {
        int front = GUARD <= i && i < GUARD + count;
        uint32_t expected = front ? written[i - GUARD] : held(i);
        if (buffer[i] != expected) {
            failed++;
            printf("FAILED %s: in a buffer of %lu, at %ld: expected %" PRIu32 "%s, got %" PRIu32 "\n", what,
                   (unsigned long)room, (long)i - GUARD, expected, front ? "" : " as before", buffer[i]);
            return;
        }
    }
    passed++;
}

static uint32_t *lend(size_t room)
{
    return lend_in(lent, room);
}

static void compare_lent(const char *what, size_t room, const uint32_t *written, size_t count)
{
    compare_in(lent, what, room, written, count);
}

void expect_tokens(const char *what, const uint8_t *text, size_t len, size_t room, uint32_t number, uint64_t value,
                   const uint32_t *written)
{
    struct answer a = no_answer();
    size_t count = number == BISQUEMOP_OK ? BISQUEMOP_TOKEN_NUMBERS * (size_t)value : 0;
    a.number = bisquemop_tokens(text, len, lend(room), room, &a.value);
    if (!compare(what, &a, number, value)) {
        show_text(text, len);
    }
    compare_lent(what, room, written, count);
}

void expect_layout(const char *what, struct bisquemop_settings s, const uint8_t *text, size_t len, size_t room,
                   uint32_t number, uint64_t value, const uint32_t *written)
{
    struct answer plain = no_answer(), spread = no_answer();
    size_t count = number == BISQUEMOP_OK ? BISQUEMOP_LINE_NUMBERS * (size_t)value : 0;
    plain.number =
        bisquemop_layout(s.glyph, s.width, s.tab, s.spacing, s.paragraph, s.base, s.height, s.top, s.alignment,
                         s.vertical, s.leading, s.trailing, s.wrap, text, len, lend(room), room, &plain.value);
    if (!compare(what, &plain, number, value)) {
        show_text(text, len);
    }
    compare_lent(what, room, written, count);
    spread.number = bisquemop_settings_layout(&s, text, len, lend(room), room, &spread.value);
    if (!compare(what, &spread, number, value)) {
        printf(", from a struct");
        show_text(text, len);
    }
    compare_lent(what, room, written, count);
}

void expect_drawing(const char *what, struct bisquemop_settings s, const uint8_t *text, size_t len, size_t table_room,
                    size_t events_room, uint32_t number, uint64_t value, const uint32_t *lines, uint64_t event_count,
                    const uint32_t *events)
{
    int done = number == BISQUEMOP_OK;
    for (int spread = 0; spread < 2; spread++) {
        struct answer a = no_answer(), counted = no_answer();
        uint32_t *table = lend(table_room), *buffer = lend_in(lent_for_events, events_room);
        a.number = spread
                       ? bisquemop_settings_layout_events(&s, text, len, table, table_room, buffer, events_room,
                                                          &a.value, &counted.value)
                       : bisquemop_layout_events(s.glyph, s.width, s.tab, s.spacing, s.paragraph, s.base, s.height,
                                                 s.top, s.alignment, s.vertical, s.leading, s.trailing, s.wrap, text,
                                                 len, table, table_room, buffer, events_room, &a.value, &counted.value);
        counted.number = a.number;
        if (!compare(what, &a, number, value)) {
            printf(spread ? ", from a struct" : ", from thirteen numbers");
            show_text(text, len);
        }
        if (!compare(what, &counted, number, done ? event_count : UNWRITTEN)) {
            printf(", the count of events");
            show_text(text, len);
        }
        compare_lent(what, table_room, lines, done ? BISQUEMOP_LINE_NUMBERS * (size_t)value : 0);
        compare_in(lent_for_events, what, events_room, events,
                   done ? BISQUEMOP_EVENT_NUMBERS * (size_t)event_count : 0);
    }
}

void expect_open(const char *what, struct bisquemop_settings s, const uint8_t *text, size_t len, uint32_t number,
                 uint64_t value)
{
    struct answer plain = no_answer(), spread = no_answer();
    plain.number = bisquemop_open(s.glyph, s.width, s.tab, s.spacing, s.paragraph, s.base, s.height, s.top, s.alignment,
                                  s.vertical, s.leading, s.trailing, s.wrap, text, len, &plain.value);
    if (!compare(what, &plain, number, value)) {
        show_text(text, len);
    }
    spread.number = bisquemop_settings_open(&s, text, len, &spread.value);
    if (!compare(what, &spread, number, value)) {
        printf(", from a struct");
        show_text(text, len);
    }
}

/* A rest as a call writes it, between numbers that must stay as they were. */
struct lent_rest {
    uint32_t before, end, between, count, after;
};
static const struct lent_rest unwritten_rest = {21, UINT32_C(0xAAAAAAAA), 22, UINT32_C(0xBBBBBBBB), 23};

static void compare_rest(const char *what, const struct lent_rest *got, uint32_t end, uint32_t count)
{
    if (got->end == end && got->count == count && got->before == unwritten_rest.before &&
        got->between == unwritten_rest.between && got->after == unwritten_rest.after) {
        passed++;
        return;
    }
    failed++;
    printf("FAILED %s: expected the next rest %" PRIu32 " %" PRIu32 ", got %" PRIu32 " %" PRIu32
           ", or what stands beside it was written\n",
           what, end, count, got->end, got->count);
}

static uint32_t call_one_line(struct bisquemop_settings s, const uint8_t *text, size_t len, struct stand from,
                              size_t room, int spread, uint64_t *value, struct lent_rest *rest)
{
    uint32_t *entry = lend(room);
    return spread ? bisquemop_settings_one_line(&s, text, len, from.start, from.rest_end, from.rest_count, entry, room,
                                                value, &rest->end, &rest->count)
                  : bisquemop_one_line(s.glyph, s.width, s.tab, s.spacing, s.paragraph, s.base, s.height, s.top,
                                       s.alignment, s.vertical, s.leading, s.trailing, s.wrap, text, len, from.start,
                                       from.rest_end, from.rest_count, entry, room, value, &rest->end, &rest->count);
}

/* What a line's call must return and write. Where it is refused, `rest` is what it was before. */
struct line_answer {
    uint32_t number;
    uint64_t value;
    const uint32_t *entry;
    uint32_t rest_end, rest_count;
};

static void compare_line(const char *what, struct bisquemop_settings s, const uint8_t *text, size_t len,
                         struct stand from, size_t room, const struct line_answer *expected)
{
    for (int spread = 0; spread < 2; spread++) {
        struct answer a = no_answer();
        struct lent_rest rest = unwritten_rest;
        a.number = call_one_line(s, text, len, from, room, spread, &a.value, &rest);
        if (!compare(what, &a, expected->number, expected->value)) {
            printf(", from %" PRIu32 " %" PRIu32 " %" PRIu32 "%s", from.start, from.rest_end, from.rest_count,
                   spread ? ", from a struct" : "");
            show_text(text, len);
        }
        compare_rest(what, &rest, expected->rest_end, expected->rest_count);
        compare_lent(what, room, expected->entry, expected->entry == NULL ? 0 : BISQUEMOP_LINE_NUMBERS);
    }
}

void expect_one_line(const char *what, struct bisquemop_settings s, const uint8_t *text, size_t len, struct stand from,
                     size_t room, const uint32_t *entry, struct stand next)
{
    struct line_answer expected = {BISQUEMOP_OK, next.start, entry, next.rest_end, next.rest_count};
    compare_line(what, s, text, len, from, room, &expected);
}

void expect_no_line(const char *what, struct bisquemop_settings s, const uint8_t *text, size_t len, struct stand from,
                    size_t room, uint32_t number, uint64_t value)
{
    struct line_answer expected = {number, value, NULL, unwritten_rest.end, unwritten_rest.count};
    compare_line(what, s, text, len, from, room, &expected);
}

/* The bytes that are lent, between two guards. */
#ifdef SMALL_MEMORY
#define FILE_ROOM BISQUEMOP_FILE_BYTES(256)
#else
#define FILE_ROOM (BISQUEMOP_FILE_BYTES(BISQUEMOP_LINES_MAX) + 256)
#endif

static uint8_t lent_bytes[GUARD + FILE_ROOM + GUARD];

static uint8_t *lend_bytes(const uint8_t *bytes, size_t room)
{
    if (room > FILE_ROOM) {
        expect("the tests' own bytes are enough", 0);
        return NULL;
    }
    for (size_t i = 0; i < GUARD + room + GUARD; i++) {
        lent_bytes[i] = (uint8_t)held(i);
    }
    if (bytes != NULL) {
        memcpy(lent_bytes + GUARD, bytes, room);
    }
    return room == 0 ? NULL : lent_bytes + GUARD;
}

static void compare_bytes(const char *what, size_t room, const uint8_t *written, size_t count)
{
    for (size_t i = 0; i < GUARD + room + GUARD; i++) {
        int front = GUARD <= i && i < GUARD + count;
        uint8_t expected = front ? written[i - GUARD] : (uint8_t)held(i);
        if (lent_bytes[i] != expected) {
            failed++;
            printf("FAILED %s: in %lu bytes, at %ld: expected %u%s, got %u\n", what, (unsigned long)room,
                   (long)i - GUARD, (unsigned)expected, front ? "" : " as before", (unsigned)lent_bytes[i]);
            return;
        }
    }
    passed++;
}

void expect_write(const char *what, struct bisquemop_settings s, const uint32_t *table, size_t table_len,
                  uint64_t lines, size_t room, uint32_t number, uint64_t value, const uint8_t *written)
{
    size_t count = number == BISQUEMOP_OK ? (size_t)value : 0;
    for (int spread = 0; spread < 2; spread++) {
        struct answer a = no_answer();
        uint8_t *file = lend_bytes(NULL, room);
        a.number = spread ? bisquemop_settings_write_file(&s, table, table_len, lines, file, room, &a.value)
                          : bisquemop_write_file(s.glyph, s.width, s.tab, s.spacing, s.paragraph, s.base, s.height,
                                                 s.top, s.alignment, s.vertical, s.leading, s.trailing, s.wrap, table,
                                                 table_len, lines, file, room, &a.value);
        if (!compare(what, &a, number, value)) {
            printf(spread ? ", from a struct\n" : ", from thirteen numbers\n");
        }
        compare_bytes(what, room, written, count);
    }
}

void expect_read(const char *what, const uint8_t *file, size_t len, size_t settings_room, size_t table_room,
                 uint32_t number, uint64_t value, const uint32_t *settings, const uint32_t *table, uint64_t text_len)
{
    int done = number == BISQUEMOP_OK;
    struct answer a = no_answer(), length = no_answer();
    uint8_t *bytes = lend_bytes(file, len);
    uint32_t *handed = lend_in(lent_for_events, settings_room), *rows = lend(table_room);
    a.number = bisquemop_read_file(bytes, len, handed, settings_room, rows, table_room, &a.value, &length.value);
    length.number = a.number;
    if (!compare(what, &a, number, value)) {
        show_text(file, len);
    }
    if (!compare(what, &length, number, done ? text_len : UNWRITTEN)) {
        printf(", the text's length");
        show_text(file, len);
    }
    compare_lent(what, table_room, table, done ? BISQUEMOP_LINE_NUMBERS * (size_t)value : 0);
    compare_in(lent_for_events, what, settings_room, settings, settings != NULL ? BISQUEMOP_SETTINGS_NUMBERS : 0);
    compare_bytes(what, len, file, len);
}

/* A copy of a table that a call is lent, between the guards. */
static uint32_t *lend_table(const uint32_t *table, size_t table_len)
{
    uint32_t *copy = lend(table_len);
    if (copy != NULL) {
        memcpy(copy, table, table_len * sizeof *table);
    }
    return copy;
}

void expect_affected(const char *what, const uint32_t *table, size_t table_len, uint64_t lines, uint32_t a, uint32_t b,
                     uint32_t inserted, uint32_t number, uint64_t value)
{
    struct answer got = no_answer();
    got.number = bisquemop_first_affected(lend_table(table, table_len), table_len, lines, a, b, inserted, &got.value);
    if (!compare(what, &got, number, value)) {
        printf(", for %" PRIu64 " lines, %" PRIu32 " %" PRIu32 " %" PRIu32 "\n", lines, a, b, inserted);
    }
    compare_lent(what, table_len, table, table_len);
}

void expect_height(const char *what, struct bisquemop_settings s, const uint32_t *table, size_t table_len,
                   uint64_t lines, uint32_t number, uint64_t value)
{
    struct answer plain = no_answer(), spread = no_answer();
    plain.number = bisquemop_height(s.glyph, s.width, s.tab, s.spacing, s.paragraph, s.base, s.height, s.top,
                                    s.alignment, s.vertical, s.leading, s.trailing, s.wrap,
                                    lend_table(table, table_len), table_len, lines, &plain.value);
    if (!compare(what, &plain, number, value)) {
        printf(", for %" PRIu64 " lines\n", lines);
    }
    compare_lent(what, table_len, table, table_len);
    spread.number = bisquemop_settings_height(&s, lend_table(table, table_len), table_len, lines, &spread.value);
    if (!compare(what, &spread, number, value)) {
        printf(", from a struct, for %" PRIu64 " lines\n", lines);
    }
    compare_lent(what, table_len, table, table_len);
}

/* A y between two others, which must stay as they were. */
static void compare_y(const char *what, const int32_t *three, uint64_t line, int32_t y)
{
    if (three[0] == 17 && three[1] == y && three[2] == 18) {
        passed++;
        return;
    }
    failed++;
    printf("FAILED %s: at line %" PRIu64 ", expected y %" PRId32 "%s, got %" PRId32 "%s\n", what, line, y,
           y == KEPT ? " as before" : "", three[1],
           three[0] != 17 || three[2] != 18 ? ", and what stands beside it was written" : "");
}

void expect_y(const char *what, struct bisquemop_settings s, const uint32_t *table, size_t table_len, uint64_t lines,
              uint64_t line, uint32_t number, uint64_t value, int32_t y)
{
    struct answer plain = no_answer(), spread = no_answer();
    int32_t plain_y[3] = {17, KEPT, 18}, spread_y[3] = {17, KEPT, 18};
    plain.number = bisquemop_line_y(s.glyph, s.width, s.tab, s.spacing, s.paragraph, s.base, s.height, s.top,
                                    s.alignment, s.vertical, s.leading, s.trailing, s.wrap,
                                    lend_table(table, table_len), table_len, lines, line, &plain.value, &plain_y[1]);
    if (!compare(what, &plain, number, value)) {
        printf(", for line %" PRIu64 " of %" PRIu64 "\n", line, lines);
    }
    compare_y(what, plain_y, line, y);
    compare_lent(what, table_len, table, table_len);
    spread.number = bisquemop_settings_line_y(&s, lend_table(table, table_len), table_len, lines, line, &spread.value,
                                              &spread_y[1]);
    if (!compare(what, &spread, number, value)) {
        printf(", from a struct, for line %" PRIu64 " of %" PRIu64 "\n", line, lines);
    }
    compare_y(what, spread_y, line, y);
    compare_lent(what, table_len, table, table_len);
}

/* An index that a call is lent, between the guards: noise, or a copy of the ys at `index`. */
static int32_t *lend_index(const int32_t *index, size_t room)
{
    uint32_t *buffer = lend_in(lent_for_events, room);
    if (buffer != NULL && index != NULL) {
        memcpy(buffer, index, room * sizeof *index);
    }
    return (int32_t *)buffer;
}

static void compare_index(const char *what, size_t room, const int32_t *written, size_t count)
{
    compare_in(lent_for_events, what, room, (const uint32_t *)written, count);
}

void expect_index(const char *what, struct bisquemop_settings s, const uint32_t *table, size_t table_len,
                  uint64_t lines, size_t room, uint32_t number, uint64_t value, const int32_t *written)
{
    for (int spread = 0; spread < 2; spread++) {
        struct answer a = no_answer();
        const uint32_t *copy = lend_table(table, table_len);
        int32_t *index = lend_index(NULL, room);
        a.number = spread ? bisquemop_settings_index(&s, copy, table_len, lines, index, room, &a.value)
                          : bisquemop_index(s.glyph, s.width, s.tab, s.spacing, s.paragraph, s.base, s.height, s.top,
                                            s.alignment, s.vertical, s.leading, s.trailing, s.wrap, copy, table_len,
                                            lines, index, room, &a.value);
        if (!compare(what, &a, number, value)) {
            printf(", for %" PRIu64 " lines and %lu ys\n", lines, (unsigned long)room);
        }
        compare_index(what, room, written, number == BISQUEMOP_OK ? (size_t)lines : 0);
        compare_lent(what, table_len, table, table_len);
    }
}

void expect_index_again(const char *what, struct bisquemop_settings s, const uint32_t *table, size_t table_len,
                        uint64_t lines, uint64_t first, const int32_t *index, size_t room, uint32_t number,
                        uint64_t value, const int32_t *after)
{
    for (int spread = 0; spread < 2; spread++) {
        struct answer a = no_answer();
        const uint32_t *copy = lend_table(table, table_len);
        int32_t *lent_index = lend_index(index, room);
        a.number = spread
                       ? bisquemop_settings_index_again(&s, copy, table_len, lines, first, lent_index, room, &a.value)
                       : bisquemop_index_again(s.glyph, s.width, s.tab, s.spacing, s.paragraph, s.base, s.height, s.top,
                                               s.alignment, s.vertical, s.leading, s.trailing, s.wrap, copy, table_len,
                                               lines, first, lent_index, room, &a.value);
        if (!compare(what, &a, number, value)) {
            printf(", for %" PRIu64 " lines and %lu ys, from line %" PRIu64 " on\n", lines, (unsigned long)room, first);
        }
        compare_index(what, room, number == BISQUEMOP_OK ? after : index, room);
        compare_lent(what, table_len, table, table_len);
    }
}

void expect_found(const char *what, const uint32_t *table, size_t table_len, uint64_t lines, const int32_t *index,
                  size_t index_len, int32_t y, uint32_t number, uint64_t value)
{
    struct answer a = no_answer();
    const uint32_t *copy = lend_table(table, table_len);
    a.number = bisquemop_find_line(copy, table_len, lines, lend_index(index, index_len), index_len, y, &a.value);
    if (!compare(what, &a, number, value)) {
        printf(", for %" PRIu64 " lines, %lu ys and y %" PRId32 "\n", lines, (unsigned long)index_len, y);
    }
    compare_index(what, index_len, index, index_len);
    compare_lent(what, table_len, table, table_len);
}

/* Which text was chosen, between numbers that must stay as they were. */
struct lent_which {
    uint32_t before, which, after;
};
static const struct lent_which unwritten_which = {31, UINT32_C(0xAAAAAAAA), 32};

static void compare_which(const char *what, const struct lent_which *got, uint32_t which)
{
    if (got->which == which && got->before == unwritten_which.before && got->after == unwritten_which.after) {
        passed++;
        return;
    }
    failed++;
    printf("FAILED %s: expected text %" PRIu32 "%s, got %" PRIu32 ", or what stands beside it was written\n", what,
           which, which == unwritten_which.which ? " as before" : "", got->which);
}

/* What choosing must return and write. Where it is refused, the last two are what they were before. */
struct choice_answer {
    uint32_t number;
    uint64_t value;
    uint32_t which;
    uint64_t left_out;
};

static uint32_t call_choose(struct bisquemop_settings s, const struct two_texts *t, uint32_t h, int spread,
                            uint64_t *value, uint32_t *which, uint64_t *left_out)
{
    return spread ? bisquemop_settings_choose(&s, t->long_text, t->long_len, t->short_text, t->short_len, h, value,
                                              which, left_out)
                  : bisquemop_choose(s.glyph, s.width, s.tab, s.spacing, s.paragraph, s.base, s.height, s.top,
                                     s.alignment, s.vertical, s.leading, s.trailing, s.wrap, t->long_text, t->long_len,
                                     t->short_text, t->short_len, h, value, which, left_out);
}

static void compare_choice(const char *what, struct bisquemop_settings s, const struct two_texts *given, uint32_t h,
                           const struct choice_answer *expected)
{
    for (int spread = 0; spread < 2; spread++) {
        struct answer a = no_answer(), left_out = no_answer();
        struct lent_which which = unwritten_which;
        a.number = call_choose(s, given, h, spread, &a.value, &which.which, &left_out.value);
        left_out.number = a.number;
        if (!compare(what, &a, expected->number, expected->value)) {
            printf(", for %" PRIu32 " lines%s", h, spread ? ", from a struct" : "");
            show_text(given->short_text, given->short_len);
        }
        compare_which(what, &which, expected->which);
        if (!compare(what, &left_out, expected->number, expected->left_out)) {
            printf(", the characters left out");
            show_text(given->short_text, given->short_len);
        }
    }
}

void expect_choice(const char *what, struct bisquemop_settings s, const struct two_texts *given, uint32_t h,
                   uint64_t part, uint32_t which, uint64_t left_out)
{
    struct choice_answer expected = {BISQUEMOP_OK, part, which, left_out};
    compare_choice(what, s, given, h, &expected);
}

void expect_no_choice(const char *what, struct bisquemop_settings s, const struct two_texts *given, uint32_t h,
                      uint32_t number, uint64_t value)
{
    struct choice_answer expected = {number, value, unwritten_which.which, UNWRITTEN};
    compare_choice(what, s, given, h, &expected);
}

/* Ends the line of a case that failed with the limit and the text it was given. */
static void show_limited(uint32_t h, int spread, const uint8_t *text, size_t len)
{
    printf(", for %" PRIu32 " lines%s", h, spread ? ", from a struct" : "");
    show_text(text, len);
}

void expect_fit(const char *what, struct bisquemop_settings s, const uint8_t *text, size_t len, uint32_t h,
                uint32_t number, uint64_t value)
{
    for (int spread = 0; spread < 2; spread++) {
        struct answer a = no_answer();
        a.number = spread ? bisquemop_settings_columns_fit(&s, text, len, h, &a.value)
                          : bisquemop_columns_fit(s.glyph, s.width, s.tab, s.spacing, s.paragraph, s.base, s.height,
                                                  s.top, s.alignment, s.vertical, s.leading, s.trailing, s.wrap, text,
                                                  len, h, &a.value);
        if (!compare(what, &a, number, value)) {
            show_limited(h, spread, text, len);
        }
    }
}

void expect_plan(const char *what, struct bisquemop_settings s, const uint8_t *text, size_t len, uint32_t h,
                 uint32_t number, uint64_t value)
{
    for (int spread = 0; spread < 2; spread++) {
        struct answer a = no_answer();
        a.number = spread ? bisquemop_settings_columns_plan(&s, text, len, h, &a.value)
                          : bisquemop_columns_plan(s.glyph, s.width, s.tab, s.spacing, s.paragraph, s.base, s.height,
                                                   s.top, s.alignment, s.vertical, s.leading, s.trailing, s.wrap, text,
                                                   len, h, &a.value);
        if (!compare(what, &a, number, value)) {
            show_limited(h, spread, text, len);
        }
    }
}

void expect_pages(const char *what, struct bisquemop_settings s, const uint8_t *text, size_t len, uint32_t h,
                  size_t table_room, size_t pages_room, uint32_t number, uint64_t value, const uint32_t *lines,
                  uint64_t page_count, const uint32_t *pages)
{
    int done = number == BISQUEMOP_OK;
    for (int spread = 0; spread < 2; spread++) {
        struct answer a = no_answer(), counted = no_answer();
        uint32_t *table = lend(table_room), *list = lend_in(lent_for_events, pages_room);
        a.number = spread ? bisquemop_settings_pages(&s, text, len, h, table, table_room, list, pages_room, &a.value,
                                                     &counted.value)
                          : bisquemop_pages(s.glyph, s.width, s.tab, s.spacing, s.paragraph, s.base, s.height, s.top,
                                            s.alignment, s.vertical, s.leading, s.trailing, s.wrap, text, len, h, table,
                                            table_room, list, pages_room, &a.value, &counted.value);
        counted.number = a.number;
        if (!compare(what, &a, number, value)) {
            printf(", by %" PRIu32 " lines%s", h, spread ? ", from a struct" : "");
            show_text(text, len);
        }
        if (!compare(what, &counted, number, done ? page_count : UNWRITTEN)) {
            printf(", the count of pages, by %" PRIu32 " lines", h);
            show_text(text, len);
        }
        compare_lent(what, table_room, lines, done ? BISQUEMOP_LINE_NUMBERS * (size_t)value : 0);
        compare_in(lent_for_events, what, pages_room, pages, done ? BISQUEMOP_PAGE_NUMBERS * (size_t)page_count : 0);
    }
}

void expect_pages_again(const char *what, const uint32_t *table, size_t table_len, uint64_t lines, uint32_t h,
                        uint64_t first, const uint32_t *pages, size_t room, uint32_t number, uint64_t value,
                        const uint32_t *after)
{
    struct answer a = no_answer();
    const uint32_t *copy = lend_table(table, table_len);
    uint32_t *list = lend_in(lent_for_events, room);
    if (list != NULL) {
        memcpy(list, pages, room * sizeof *pages);
    }
    a.number = bisquemop_pages_again(copy, table_len, lines, h, first, list, room, &a.value);
    if (!compare(what, &a, number, value)) {
        printf(", for %" PRIu64 " lines by %" PRIu32 ", from line %" PRIu64 " on\n", lines, h, first);
    }
    compare_in(lent_for_events, what, room, number == BISQUEMOP_OK ? after : pages, room);
    compare_lent(what, table_len, table, table_len);
}

/* A copy of the part that is lent, between letters that would make a word longer. */
#define PART_ROOM (2 * BISQUEMOP_TEXT_MAX)

static uint8_t lent_part[GUARD + PART_ROOM + GUARD];

static const uint8_t *lend_part(const struct relay *given)
{
    if (given->part_len > PART_ROOM) {
        expect("the tests' own copy of a part is large enough", 0);
        return NULL;
    }
    memset(lent_part, 'x', GUARD + given->part_len + GUARD);
    if (given->part == NULL) {
        return NULL;
    }
    memcpy(lent_part + GUARD, given->part, given->part_len);
    return lent_part + GUARD;
}

static int part_is_kept(const struct relay *given)
{
    return given->part_len == 0 || memcmp(lent_part + GUARD, given->part, given->part_len) == 0;
}

/* Ends the line of a case that failed with what laying again was lent. */
static void show_relay(const struct relay *given, int spread)
{
    printf(spread ? ", from a struct" : ", from thirteen numbers");
    printf(", for %" PRIu64 " lines, %" PRIu32 " %" PRIu32 " %" PRIu32, given->lines, given->edit.a, given->edit.b,
           given->edit.inserted);
    show_text(given->part, given->part_len);
}

static void call_again(struct bisquemop_settings s, const struct relay *given, int spread, struct answer *a,
                       struct answer *laid)
{
    uint32_t *table = lend_table(given->table, given->table_len);
    const uint8_t *part = lend_part(given);
    struct edit e = given->edit;
    *a = *laid = no_answer();
    a->number = spread ? bisquemop_settings_lay_again(&s, part, given->part_len, table, given->table_len, given->lines,
                                                      e.a, e.b, e.inserted, &a->value, &laid->value)
                       : bisquemop_lay_again(s.glyph, s.width, s.tab, s.spacing, s.paragraph, s.base, s.height, s.top,
                                             s.alignment, s.vertical, s.leading, s.trailing, s.wrap, part,
                                             given->part_len, table, given->table_len, given->lines, e.a, e.b,
                                             e.inserted, &a->value, &laid->value);
    laid->number = a->number;
}

void expect_again(const char *what, struct bisquemop_settings s, const struct relay *given, uint32_t number,
                  uint64_t value, uint64_t laid, const uint32_t *after)
{
    int done = number == BISQUEMOP_OK;
    for (int spread = 0; spread < 2; spread++) {
        struct answer a, counted;
        call_again(s, given, spread, &a, &counted);
        if (!compare(what, &a, number, value)) {
            show_relay(given, spread);
        }
        if (!compare(what, &counted, number, done ? laid : UNWRITTEN)) {
            printf(", the count of lines laid");
            show_relay(given, spread);
        }
        compare_lent(what, given->table_len, done ? after : given->table, given->table_len);
        if (!part_is_kept(given)) {
            expect("the part is only read", 0);
        }
    }
}

void expect_refused(const char *what, struct bisquemop_settings s, const struct relay *given, uint32_t number,
                    uint64_t value)
{
    expect_again(what, s, given, number, value, 0, NULL);
}

size_t put_edited(uint8_t *to, const uint8_t *text, size_t len, struct edit e, const uint8_t *inserted)
{
    memcpy(to, text, e.a);
    memcpy(to + e.a, inserted, e.inserted);
    memcpy(to + e.a + e.inserted, text + e.b, len - e.b);
    return e.a + e.inserted + (len - e.b);
}

uint64_t lay_text(const char *what, struct bisquemop_settings s, const uint8_t *text, size_t len, uint32_t *table,
                  size_t table_len)
{
    uint64_t lines = 0;
    int done = bisquemop_settings_layout(&s, text, len, table, table_len, &lines) == BISQUEMOP_OK;
    expect(what, done && 1 <= lines && lines <= len + 1 &&
                     table[BISQUEMOP_LINE_NUMBERS * (lines - 1) + BISQUEMOP_LINE_REACH] == len + 1);
    return lines;
}

void tell_progress(unsigned long done)
{
    if (done % 100000 == 0) {
        printf("%lu\n", done);
        fflush(stdout);
    }
}

int finish(void)
{
    printf("%lu passed, %lu failed\n", passed, failed);
    return failed ? 1 : 0;
}
