/*
 * Random texts, each with a chain of random edits on one table. After each edit the first affected line is looked for
 * and the text laid again, lent from that line's start on, and the table is compared with a fresh layout of the whole
 * new text. How many lines were laid is computed a second time, from the old and the new table.
 * Laying again.
 */
#include "chance.h"
#include "harness.h"
#include "rules.h"

#include <stdio.h>
#include <string.h>

#define NUMBERS BISQUEMOP_LINE_NUMBERS
#define ROOM (NUMBERS * (BISQUEMOP_LINES_MAX + 3))
#define CHAIN 12 /* edits of one text */

/* A text with its lines. Numbers past the last line are what edits and other texts have left there. */
static uint8_t text[BISQUEMOP_TEXT_MAX], edited[BISQUEMOP_TEXT_MAX], inserted[BISQUEMOP_TEXT_MAX];
static size_t len;
static uint32_t table[ROOM];
static uint64_t lines;

/* How many edits were of a kind that matters. */
static unsigned long behind, kept, moved, resumed, none_laid, grown, shrunk, too_small, empty, replaced;

/* The sum that the height is (rule 11). */
static uint64_t height_of(struct bisquemop_settings s)
{
    uint64_t height = s.base;
    for (uint64_t k = 0; k + 1 < lines; k++) {
        uint32_t end = line_number(table, k, BISQUEMOP_LINE_END);
        int last_and_empty = k + 2 == lines && line_number(table, k + 1, BISQUEMOP_LINE_START) == len;
        if (end == BISQUEMOP_END_NEW_LINE) {
            height += s.spacing + s.paragraph;
        } else if (end == BISQUEMOP_END_LINE_BREAK && !last_and_empty) {
            height += s.spacing;
        }
    }
    return height;
}

/* Counts an edit by its kinds. */
static void count_kinds(struct edit e, uint64_t first, uint64_t laid, uint64_t met, uint64_t new_lines)
{
    behind += first > 0;
    kept += met < lines;
    moved += met < lines && length_change(e) != 0;
    resumed += line_number(table, first, BISQUEMOP_LINE_REST_END) != 0;
    none_laid += laid == 0;
    grown += new_lines > lines;
    shrunk += new_lines < lines;
    replaced += e.a == 0 && e.b == len;
    empty += len == 0 || len == e.b - e.a;
}

/* Lays the text again into tables that are large enough, and one that is not. */
static void lay_again(const char *what, struct bisquemop_settings s, struct relay *given, uint64_t first,
                      const uint32_t *fresh, uint64_t new_lines)
{
    static uint32_t after[ROOM];
    uint64_t most = new_lines > lines ? new_lines : lines, met;
    uint64_t laid = lines_laid(given, first, fresh, new_lines, &met);
    count_kinds(given->edit, first, laid, met, new_lines);
    if (new_lines > lines && below(4) == 0) {
        given->table_len = NUMBERS * lines + below((uint32_t)(NUMBERS * (new_lines - lines)));
        expect_refused(what, s, given, BISQUEMOP_TOO_SMALL, new_lines);
        too_small++;
    }
    given->table_len = NUMBERS * most + (below(2) ? 0 : below(3 * NUMBERS));
    memcpy(after, table, given->table_len * sizeof *table);
    memcpy(after, fresh, NUMBERS * new_lines * sizeof *table);
    expect_again(what, s, given, BISQUEMOP_OK, new_lines, laid, after);
    memcpy(table, after, NUMBERS * most * sizeof *table);
}

static void one_edit(const char *what, struct bisquemop_settings s, size_t most)
{
    static uint32_t fresh[ROOM];
    struct edit e = random_edit(text, len, most, inserted);
    size_t new_len = put_edited(edited, text, len, e, inserted);
    uint64_t new_lines = lay_text(what, s, edited, new_len, fresh, NUMBERS * (new_len + 1));
    uint64_t first = affected_line(table, lines, e.a);
    expect_affected(what, table, NUMBERS * lines, lines, e.a, e.b, e.inserted, BISQUEMOP_OK, first);
    expect_height(what, s, table, NUMBERS * lines, lines, BISQUEMOP_OK, height_of(s));
    /* the lines before it, and the start, the rest and the characters before the line itself */
    size_t same = NUMBERS * first + BISQUEMOP_LINE_REST_COUNT + 1;
    uint32_t before = line_number(table, first, BISQUEMOP_LINE_CHARS);
    expect(what, memcmp(table, fresh, same * sizeof *table) == 0 &&
                     before == line_number(fresh, first, BISQUEMOP_LINE_CHARS));

    size_t start = line_number(table, first, BISQUEMOP_LINE_START);
    struct relay given = {edited + start, new_len - start, table, 0, lines, e};
    lay_again(what, s, &given, first, fresh, new_lines);
    memcpy(text, edited, new_len);
    len = new_len;
    lines = new_lines;
}

/* A new text of at most so many bytes, and its lines. One in four texts is as long as it may be. */
static void new_text(const char *what, struct bisquemop_settings s, size_t most)
{
    int full = below(4) == 0;
    len = random_text(text, below((uint32_t)most / 4 + 1));
    while (full && most - len >= 4) {
        len += random_text(text + len, (most - len) / 4);
    }
    lines = lay_text(what, s, text, len, table, NUMBERS * (len + 1));
}

/* How many bytes a text may have: mostly some, at times many, seldom as many as a text can have. */
static size_t random_most(void)
{
    if (below(400) == 0) {
        return BISQUEMOP_TEXT_MAX;
    }
    return below(50) == 0 ? 2000 : 160;
}

/* Of `of` edits, how many hundredths are of a kind. */
static unsigned long part_of(unsigned long kind, unsigned long of)
{
    return of == 0 ? 0 : 100 * kind / of;
}

static void expect_kinds(unsigned long of)
{
    printf(
        "%lu edits: first affected line not line 0 %lu %%, with a rest %lu %%; old lines follow %lu %%, "
        "moved %lu %%; no line laid %lu %%; more lines %lu %%, fewer %lu %%; table too small %lu %%\n",
        of, part_of(behind, of), part_of(resumed, of), part_of(kept, of), part_of(moved, of), part_of(none_laid, of),
        part_of(grown, of), part_of(shrunk, of), part_of(too_small, of));
    if (of < 10000) {
        return;
    }
    expect("a quarter of the edits or more leave lines as they were", behind >= of / 4);
    expect("a quarter or more end at an old line that is moved", moved >= of / 4);
    expect("edits at lines with a rest, and such that lay nothing", resumed >= of / 50 && none_laid >= of / 50);
    expect("edits to more and to fewer lines", grown >= of / 10 && shrunk >= of / 10);
    expect("edits of whole texts, of the empty text and to it", replaced >= of / 50 && empty >= of / 50);
    expect("tables that are too small", too_small >= of / 50);
}

/* A text, and so many edits of it: those from edit `from` on. */
static void one_chain(unsigned long from, unsigned long edits, unsigned long seed)
{
    struct bisquemop_settings s = random_settings();
    size_t most = random_most();
    char what[64];
    snprintf(what, sizeof what, "the text of edit %lu, seed %lu", from, seed);
    new_text(what, s, most);
    for (unsigned long i = from; i < from + edits; i++) {
        snprintf(what, sizeof what, "edit %lu, seed %lu", i, seed);
        redraw_heights(&s);
        one_edit(what, s, most);
        tell_progress(i + 1);
    }
}

void test_edits(unsigned long edits, unsigned long seed)
{
    seed_with(seed);
    for (unsigned long i = 0; i < edits; i += CHAIN) {
        one_chain(i, edits - i < CHAIN ? edits - i : CHAIN, seed);
    }
    expect_kinds(edits);
}
