/* Laying again as the scope has it, written for the tests alone: nothing here comes from the library. */
#ifndef RULES_H
#define RULES_H

#include "harness.h"

/* A number of line k, counted from 0, by its column. */
uint32_t line_number(const uint32_t *table, uint64_t k, enum bisquemop_line_column column);

/* The first bad line of a table, or NO_BAD_LINE. */
#define NO_BAD_LINE UINT64_MAX
uint64_t bad_line(const uint32_t *table, size_t table_len, uint64_t lines);

/* The first line with a reach above a; `lines` if there is none. */
uint64_t affected_line(const uint32_t *table, uint64_t lines, uint32_t a);

/* The first of refusals 3 to 6 that applies, or BISQUEMOP_OK and 0. */
struct refused {
    uint32_t number;
    uint64_t value;
};
struct refused refused_before(const struct relay *given);

/*
 * How many of the new text's lines, from line `first` on, are laid: those before the first that starts, and with the
 * same rest, where an old line with a start of b or more has come to stand. *met is that old line, and the number of
 * old lines if there is none.
 */
uint64_t lines_laid(const struct relay *given, uint64_t first, const uint32_t *new_table, uint64_t new_lines,
                    uint64_t *met);

/* A line with its start, the end of its rest if it has one, and its reach moved by so many bytes, and what it counts
   before it by so many characters. */
void move_line(const uint32_t *line, int64_t by, int64_t characters, uint32_t *moved);

/* How many characters begin in so many bytes of a text that is UTF-8. */
uint32_t characters_in(const uint8_t *text, size_t bytes);

/* By how much an edit changes the text's length. */
int64_t length_change(struct edit e);

#endif
