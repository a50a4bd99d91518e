/* Counts the cases, calls the library for each and prints those that fail. */
#ifndef HARNESS_H
#define HARNESS_H

#include "bisquemop.h"

#include <stddef.h>

/* One case that needs no call: what it is about, and whether it holds. */
void expect(const char *what, int holds);

/* The call must return `number` and write `value`, and nothing beside it. */
void expect_settings(const char *what, struct bisquemop_settings s, uint32_t number, uint64_t value);
void expect_text(const char *what, const uint8_t *text, size_t len, uint32_t number, uint64_t value);

/*
 * The same with a buffer of `room` numbers lent, NULL where that is 0. Where the call is done, the first numbers of the
 * buffer must be those at `written`, as many as `value` tokens or lines have. All others must stay as they were, and so
 * must what stands beside the buffer. A layout is called with thirteen numbers, and with a struct.
 */
void expect_tokens(const char *what, const uint8_t *text, size_t len, size_t room, uint32_t number, uint64_t value,
                   const uint32_t *written);
void expect_layout(const char *what, struct bisquemop_settings s, const uint8_t *text, size_t len, size_t room,
                   uint32_t number, uint64_t value, const uint32_t *written);

/*
 * The same with a table of `table_room` numbers and an event buffer of `events_room` lent. Where the call is done, the
 * two hold `value` lines and `event_count` events, and the count of events is written; else it stays as it was.
 */
void expect_drawing(const char *what, struct bisquemop_settings s, const uint8_t *text, size_t len, size_t table_room,
                    size_t events_room, uint32_t number, uint64_t value, const uint32_t *lines, uint64_t event_count,
                    const uint32_t *events);

/* Where a line starts, and with what rest: its end and its count, 0 and 0 if there is none. */
struct stand {
    uint32_t start, rest_end, rest_count;
};

void expect_open(const char *what, struct bisquemop_settings s, const uint8_t *text, size_t len, uint32_t number,
                 uint64_t value);

/*
 * One line is laid from `from`, with an entry of `room` numbers lent: its first numbers must be the eleven at `entry`,
 * and the next start and the next rest those of `next`. Or it is refused, and all but the value must stay as it was.
 */
void expect_one_line(const char *what, struct bisquemop_settings s, const uint8_t *text, size_t len, struct stand from,
                     size_t room, const uint32_t *entry, struct stand next);
void expect_no_line(const char *what, struct bisquemop_settings s, const uint8_t *text, size_t len, struct stand from,
                    size_t room, uint32_t number, uint64_t value);

/* The same with a table to read, which must stay as it was. */
void expect_affected(const char *what, const uint32_t *table, size_t table_len, uint64_t lines, uint32_t a, uint32_t b,
                     uint32_t inserted, uint32_t number, uint64_t value);
void expect_height(const char *what, struct bisquemop_settings s, const uint32_t *table, size_t table_len,
                   uint64_t lines, uint32_t number, uint64_t value);

/* The same with a y to write: it must be `y`, which is KEPT where it must stay as it was. */
#define KEPT INT32_MIN
void expect_y(const char *what, struct bisquemop_settings s, const uint32_t *table, size_t table_len, uint64_t lines,
              uint64_t line, uint32_t number, uint64_t value, int32_t y);

/*
 * The same with an index of `room` ys to write, which holds noise. Where the call is done, its first ys must be those at
 * `written`, one for each line.
 */
void expect_index(const char *what, struct bisquemop_settings s, const uint32_t *table, size_t table_len,
                  uint64_t lines, size_t room, uint32_t number, uint64_t value, const int32_t *written);

/* The same with an index that holds the `room` ys at `index`. Where the call is done, it must hold those at `after`. */
void expect_index_again(const char *what, struct bisquemop_settings s, const uint32_t *table, size_t table_len,
                        uint64_t lines, uint64_t first, const int32_t *index, size_t room, uint32_t number,
                        uint64_t value, const int32_t *after);

/* The same with a table and an index to read, which must stay as they were. */
void expect_found(const char *what, const uint32_t *table, size_t table_len, uint64_t lines, const int32_t *index,
                  size_t index_len, int32_t y, uint32_t number, uint64_t value);

/*
 * Chooses between two texts for `h` lines. Where the call is done, which one, the part's bytes and the characters left
 * out must be those; else which one and the characters must stay as they were.
 */
struct two_texts {
    const uint8_t *long_text;
    size_t long_len;
    const uint8_t *short_text;
    size_t short_len;
};
void expect_choice(const char *what, struct bisquemop_settings s, const struct two_texts *given, uint32_t h,
                   uint64_t part, uint32_t which, uint64_t left_out);
void expect_no_choice(const char *what, struct bisquemop_settings s, const struct two_texts *given, uint32_t h,
                      uint32_t number, uint64_t value);

/* Whether a text has at most `h` lines and loses no character, and the smallest width by which that is so. */
void expect_fit(const char *what, struct bisquemop_settings s, const uint8_t *text, size_t len, uint32_t h,
                uint32_t number, uint64_t value);
void expect_plan(const char *what, struct bisquemop_settings s, const uint8_t *text, size_t len, uint32_t h,
                 uint32_t number, uint64_t value);

/*
 * The same as a layout with pages of `h` lines and a list of `pages_room` numbers lent. Where the call is done, the two
 * buffers hold `value` lines and `page_count` pages, and the count of pages is written; else it stays as it was.
 */
void expect_pages(const char *what, struct bisquemop_settings s, const uint8_t *text, size_t len, uint32_t h,
                  size_t table_room, size_t pages_room, uint32_t number, uint64_t value, const uint32_t *lines,
                  uint64_t page_count, const uint32_t *pages);

/* The pages of a table to read, in a list that holds the `room` numbers at `pages`. Where the call is done, it must hold
   those at `after`. */
void expect_pages_again(const char *what, const uint32_t *table, size_t table_len, uint64_t lines, uint32_t h,
                        uint64_t first, const uint32_t *pages, size_t room, uint32_t number, uint64_t value,
                        const uint32_t *after);

/* An edit: the old bytes from a up to b are replaced by so many others. */
struct edit {
    uint32_t a, b, inserted;
};

/* Puts the edited text at `to`, and answers its length. */
size_t put_edited(uint8_t *to, const uint8_t *text, size_t len, struct edit e, const uint8_t *inserted);

/* What laying again is lent besides the settings. */
struct relay {
    const uint8_t *part;
    size_t part_len;
    const uint32_t *table;
    size_t table_len;
    uint64_t lines;
    struct edit edit;
};

/*
 * The same with a table to write. Where the call is done, the table must be what stands at `after`, all `table_len`
 * numbers, and `laid` must be written as the count of lines laid; else both must stay as they were. The part is lent as
 * a copy of its own: nothing of the text stands beside it.
 */
void expect_again(const char *what, struct bisquemop_settings s, const struct relay *given, uint32_t number,
                  uint64_t value, uint64_t laid, const uint32_t *after);
void expect_refused(const char *what, struct bisquemop_settings s, const struct relay *given, uint32_t number,
                    uint64_t value);

/* Lays a text into a table, which must have room for it, and answers how many lines there are. */
uint64_t lay_text(const char *what, struct bisquemop_settings s, const uint8_t *text, size_t len, uint32_t *table,
                  size_t table_len);

/*
 * Writes the file of a table to a buffer of `room` bytes, from thirteen numbers and from a struct. Where the call is
 * done, the buffer's front must be the `value` bytes at `written`; all else must stay as it was.
 */
void expect_write(const char *what, struct bisquemop_settings s, const uint32_t *table, size_t table_len,
                  uint64_t lines, size_t room, uint32_t number, uint64_t value, const uint8_t *written);

/*
 * Reads a file, lent as a copy of its own, to buffers of so many numbers. `settings` is what must be handed out, or
 * NULL; where the call is done, `table` is what the table must hold, and the text's length is written.
 */
void expect_read(const char *what, const uint8_t *file, size_t len, size_t settings_room, size_t table_room,
                 uint32_t number, uint64_t value, const uint32_t *settings, const uint32_t *table, uint64_t text_len);

/* Prints how many cases of a long run are done, at every 100,000. */
void tell_progress(unsigned long done);

/* Prints 'N passed, M failed' and answers the program's exit status. */
int finish(void);

/* Each file's cases. */
void test_settings(void);
void test_lengths(void);
void test_sequences(void);
void test_random(void);
void test_tokens(void);
void test_layout(void);
void test_events(void);
void test_tables(void);
void test_heights(void);
void test_index(void);
void test_again(void);
void test_refused(void);
void test_wraps(void);
void test_inside(void);
void test_characters(void);
void test_one_line(void);
void test_choosing(void);
void test_pages(void);
void test_columns(void);
void test_bad_starts(void);
void test_even(void);
void test_files(void);
void test_damaged(unsigned long files, unsigned long seed);
void test_spoiled(unsigned long tables, unsigned long seed);
void test_edits(unsigned long edits, unsigned long seed);

#endif
