/*
 * bisquemop_pages and bisquemop_pages_again: the pages of a text, and those that are listed again after an edit. They
 * are cut a second time here, line by line out of the table. The seed is fixed.
 * Rule 10, refusal 1, refusal 2, refusal 3, refusal 4, refusal 5, refusal 8.
 */
#include "chance.h"
#include "examples.h"
#include "harness.h"
#include "long_texts.h"
#include "rules.h"

#include <stdio.h>
#include <string.h>

#define NUMBERS BISQUEMOP_LINE_NUMBERS
#define PAGE BISQUEMOP_PAGE_NUMBERS
#define TEXTS share_of(1500)
#define CHAIN 6       /* edits of one text */
#define CHARACTERS 60 /* of a text */
#define BYTES (8 * CHARACTERS)
#define MOST (BYTES + 1) /* lines of a text, and pages */

/* A text with its lines, and its pages by some limit. */
static uint8_t text[BYTES], edited[BYTES], inserted[BYTES];
static size_t len;
static uint32_t table[NUMBERS * MOST];
static uint64_t lines;
static uint32_t pages[PAGE * MOST];

/* ---- rule 10, once more */

/* Goes from line to line: after so many a new page begins, and every line makes its page longer. Answers how many pages
   there are. */
static uint64_t put_pages(const uint32_t *of, uint64_t count, size_t bytes, uint32_t h, uint32_t *to)
{
    uint64_t page_count = 0;
    uint32_t left = 0;
    for (uint64_t k = 0; k < count; k++) {
        if (left == 0) {
            to[PAGE * page_count + BISQUEMOP_PAGE_LINE] = (uint32_t)k;
            to[PAGE * page_count + BISQUEMOP_PAGE_START] = line_number(of, k, BISQUEMOP_LINE_START);
            page_count++;
            left = h;
        }
        left--;
        to[PAGE * (page_count - 1) + BISQUEMOP_PAGE_END] =
            k + 1 < count ? line_number(of, k + 1, BISQUEMOP_LINE_START) : (uint32_t)bytes;
    }
    return page_count;
}

/* A number of a page, by its column. */
static uint32_t page_number(const uint32_t *list, uint64_t page, enum bisquemop_page_column column)
{
    return list[PAGE * page + column];
}

/* What the library lists: pages that join to the text, all but the last of `h` lines, and the last of 1 to `h`. */
static void pages_join(const char *what, struct bisquemop_settings s, uint32_t h)
{
    static uint32_t laid_here[NUMBERS * MOST], list[PAGE * MOST];
    static uint8_t joined[BYTES];
    uint64_t count = 0, page_count = 0, of_last;
    size_t at = 0;
    int in_order = bisquemop_settings_pages(&s, text, len, h, laid_here, NUMBERS * MOST, list, PAGE * MOST, &count,
                                            &page_count) == BISQUEMOP_OK;
    for (uint64_t k = 0; in_order && k < page_count; k++) {
        uint32_t start = page_number(list, k, BISQUEMOP_PAGE_START), end = page_number(list, k, BISQUEMOP_PAGE_END);
        in_order = start == at && start <= end && end <= len && page_number(list, k, BISQUEMOP_PAGE_LINE) == k * h;
        if (in_order) {
            memcpy(joined + at, text + start, end - start);
            at = end;
        }
    }
    expect(what, in_order && at == len && memcmp(joined, text, len) == 0);
    of_last = count - page_number(list, page_count - 1, BISQUEMOP_PAGE_LINE);
    expect(what, 1 <= of_last && of_last <= h);
}

/* ---- the calls */

/* The pages in every room: just enough, a number more, a page more, too little, none; and a table without room, which
   comes first. */
static void list_all(const char *what, struct bisquemop_settings s, uint32_t h)
{
    uint64_t count = put_pages(table, lines, len, h, pages);
    size_t n = (size_t)lines, enough = PAGE * (size_t)count, room = NUMBERS * n;
    expect_pages(what, s, text, len, h, room, enough, BISQUEMOP_OK, lines, table, count, pages);
    expect_pages(what, s, text, len, h, room + 5, enough + 1, BISQUEMOP_OK, lines, table, count, pages);
    expect_pages(what, s, text, len, h, room, enough + PAGE, BISQUEMOP_OK, lines, table, count, pages);
    expect_pages(what, s, text, len, h, room, enough - 1, BISQUEMOP_TOO_SMALL, count, NULL, 0, NULL);
    expect_pages(what, s, text, len, h, room, 0, BISQUEMOP_TOO_SMALL, count, NULL, 0, NULL);
    expect_pages(what, s, text, len, h, room - 1, enough, BISQUEMOP_TOO_SMALL, lines, NULL, 0, NULL);
    expect_pages(what, s, text, len, h, room - 1, enough - 1, BISQUEMOP_TOO_SMALL, lines, NULL, 0, NULL);
    pages_join(what, s, h);
}

/* The pages of the table, in a list of noise: with 0 for the first affected line all are written. */
static void list_table(const char *what, uint32_t h)
{
    static uint32_t noise[PAGE * MOST + 5], after[PAGE * MOST + 5];
    uint64_t count = put_pages(table, lines, len, h, pages);
    size_t n = NUMBERS * (size_t)lines, enough = PAGE * (size_t)count, room = enough + below(5);
    for (size_t i = 0; i < room; i++) {
        noise[i] = after[i] = below(UINT32_MAX);
    }
    memcpy(after, pages, enough * sizeof *pages);
    expect_pages_again(what, table, n, lines, h, 0, noise, room, BISQUEMOP_OK, count, after);
    expect_pages_again(what, table, n, lines, h, 0, noise, enough - 1, BISQUEMOP_TOO_SMALL, count, NULL);
    expect_pages_again(what, table, n, lines, h, UINT64_MAX, noise, 0, BISQUEMOP_TOO_SMALL, count, NULL);
    expect_pages_again(what, table, n - 1, lines, h, 0, noise, enough - 1, BISQUEMOP_BAD_LINE, 0, NULL);
    expect_pages_again(what, table, n, 0, h, 0, noise, enough, BISQUEMOP_BAD_LINE, 0, NULL);
    expect_pages_again(what, table, n - 1, 0, 0, 0, noise, 0, BISQUEMOP_SETTING_OUT_OF_RANGE, 0, NULL);
    expect_pages_again(what, table, n, lines, 0, 0, noise, room, BISQUEMOP_SETTING_OUT_OF_RANGE, 0, NULL);
}

/* From each line on, and past the last one: pages before the one that holds it keep what they held, and so do all if
   there is no such line. */
static void list_from(const char *what, uint32_t h, uint64_t first)
{
    static uint32_t noise[PAGE * MOST], after[PAGE * MOST];
    uint64_t count = put_pages(table, lines, len, h, pages);
    size_t room = PAGE * (size_t)count;
    for (size_t i = 0; i < room; i++) {
        uint64_t page = i / PAGE, next = (page + 1) * h;
        noise[i] = below(UINT32_MAX);
        after[i] = first >= lines || next <= first ? noise[i] : pages[i];
    }
    expect_pages_again(what, table, NUMBERS * (size_t)lines, lines, h, first, noise, room, BISQUEMOP_OK, count, after);
}

static void list_from_all(const char *what, uint32_t h)
{
    static const uint64_t beyond[] = {UINT64_C(0x100000000), UINT64_C(0xFFFFFFFFFFFF), UINT64_MAX - 1, UINT64_MAX};
    for (uint64_t first = 0; first <= lines + 1; first++) {
        list_from(what, h, first);
    }
    for (size_t i = 0; i < sizeof beyond / sizeof beyond[0]; i++) {
        list_from(what, h, beyond[i]);
    }
}

/* ---- examples */

struct paged {
    uint32_t width, h;
    const char *text;
    uint64_t lines, page_count;
    uint32_t pages[3 * PAGE];
};

static const struct paged paged[] = {
    /* no character: one line, so one page */
    {30, 1, "", 1, 1, {0, 0, 0}},
    /* two lines, starts 0 and 3: a page each, then both on one, with room to spare or not */
    {30, 1, "ab cde", 2, 2, {0, 0, 3, 1, 3, 6}},
    {30, 2, "ab cde", 2, 1, {0, 0, 6}},
    {30, 3, "ab cde", 2, 1, {0, 0, 6}},
    {30, UINT32_MAX, "ab cde", 2, 1, {0, 0, 6}},
    /* three lines by two: the last page has one */
    {30, 2, "aa\nbb\ncc", 3, 2, {0, 0, 6, 2, 6, 8}},
    /* four lines by two: no page without a line */
    {30, 2, "aa\nbb\ncc\rdd", 4, 2, {0, 0, 6, 2, 6, 11}},
    /* an empty last line has a page of its own, with no byte on it */
    {30, 1, "aa\n", 2, 2, {0, 0, 3, 1, 3, 3}},
    {30, 2, "aa\nbb\n", 3, 2, {0, 0, 6, 2, 6, 6}},
    /* a page that begins in the middle of a cut run of spaces */
    {18, 1, "abc   d", 2, 2, {0, 0, 4, 1, 4, 7}},
    /* one that, laid alone, has two lines: the whole leaves two spaces for it, and its bytes have three */
    {18, 1, "ab \xE2\x80\x8B   d", 2, 2, {0, 0, 6, 1, 6, 10}},
    /* what a line drops is on its page; characters of two, three and four bytes */
    {30, 1, "     ab", 2, 2, {0, 0, 7, 1, 7, 7}},
    {12, 1, "\xC3\xA9 b", 2, 2, {0, 0, 3, 1, 3, 4}},
    {6, 1, "\xE3\x81\x82\xF0\x9F\x98\x80", 2, 2, {0, 0, 3, 1, 3, 7}},
};

static void test_example(const char *what, const struct paged *x)
{
    struct bisquemop_settings s = laid(6, x->width, LEFT, 1, DROP);
    len = strlen(x->text);
    memcpy(text, x->text, len);
    lines = lay_text(what, s, text, len, table, NUMBERS * MOST);
    expect(what, lines == x->lines && put_pages(table, lines, len, x->h, pages) == x->page_count);
    expect(what, memcmp(pages, x->pages, PAGE * (size_t)x->page_count * sizeof *pages) == 0);
    expect_pages(what, s, text, len, x->h, NUMBERS * MOST, PAGE * MOST, BISQUEMOP_OK, x->lines, table, x->page_count,
                 x->pages);
    list_all(what, s, x->h);
    list_table(what, x->h);
    list_from_all(what, x->h);
}

static void test_examples(void)
{
    for (size_t i = 0; i < sizeof paged / sizeof paged[0]; i++) {
        char what[64];
        snprintf(what, sizeof what, "pages %lu", (unsigned long)i);
        test_example(what, &paged[i]);
    }
}

/* A list written over another, from its second page on, and not at all. */
static void test_written_past(void)
{
    static const uint32_t held[] = {1, 2, 3, 4, 5, 6, 7}, after[] = {1, 2, 3, 1, 3, 6, 7};
    struct bisquemop_settings s = laid(6, 30, LEFT, 1, DROP);
    lines = lay_text("a page kept", s, (const uint8_t *)"ab cde", 6, table, NUMBERS * MOST);
    expect_pages_again("a page kept", table, 2 * NUMBERS, 2, 1, 1, held, 7, BISQUEMOP_OK, 2, after);
    expect_pages_again("all kept", table, 2 * NUMBERS, 2, 1, 2, held, 7, BISQUEMOP_OK, 2, held);
    /* both lines are on the first page: it is written where any of them is affected */
    expect_pages_again("no page kept", table, 2 * NUMBERS, 2, 2, 1, held, 7, BISQUEMOP_OK, 1,
                       (const uint32_t[]){0, 0, 6, 4, 5, 6, 7});
}

/* Pages are cuts of the whole's layout: the bytes of the second page, laid alone, have other lines. */
static void test_alone(void)
{
    static uint32_t alone[NUMBERS * 5];
    struct bisquemop_settings s = laid(6, 18, LEFT, 1, DROP);
    static const uint8_t whole[] = "ab \xE2\x80\x8B   d";
    uint64_t count = 0, page_count = 0;
    expect("a page of a cut run", bisquemop_settings_pages(&s, whole, 10, 1, table, NUMBERS * MOST, pages, PAGE * MOST,
                                                           &count, &page_count) == BISQUEMOP_OK);
    expect("a page of a cut run", count == 2 && page_count == 2);
    size_t start = page_number(pages, 1, BISQUEMOP_PAGE_START);
    count = lay_text("its bytes laid alone", s, whole + start, 10 - start, alone, NUMBERS * 5);
    expect("its bytes laid alone", count == 2);
}

/* ---- refused */

/* Settings and texts that no call lays, whatever room there is. A limit of no lines comes before all of them. */
static void test_unlaid(const struct unlaid *x, size_t table_room, size_t pages_room)
{
    expect_pages(x->what, x->settings, x->text, x->len, 1, table_room, pages_room, x->number, x->value, NULL, 0, NULL);
    expect_pages(x->what, x->settings, x->text, x->len, UINT32_MAX, table_room, pages_room, x->number, x->value, NULL,
                 0, NULL);
    expect_pages(x->what, x->settings, x->text, x->len, 0, table_room, pages_room, BISQUEMOP_SETTING_OUT_OF_RANGE, 0,
                 NULL, 0, NULL);
}

/* A limit of no lines with all else good, with too little room, and with a text of nothing. */
static void test_no_lines(void)
{
    struct bisquemop_settings s = laid(6, 30, LEFT, 1, DROP);
    const uint8_t *a = (const uint8_t *)"a";
    expect_pages("no lines", s, a, 1, 0, 2 * NUMBERS, 2 * PAGE, BISQUEMOP_SETTING_OUT_OF_RANGE, 0, NULL, 0, NULL);
    expect_pages("no lines, no room", s, a, 1, 0, 0, 0, BISQUEMOP_SETTING_OUT_OF_RANGE, 0, NULL, 0, NULL);
    expect_pages("no lines, no text", s, NULL, 0, 0, NUMBERS, PAGE, BISQUEMOP_SETTING_OUT_OF_RANGE, 0, NULL, 0, NULL);
}

/* A table that is bad at any line: the first such is told, before the room is looked at. */
static unsigned long bad_tables;

static void spoil(const char *what, uint32_t h)
{
    static const uint32_t noise[PAGE * 2] = {9, 8, 7, 6, 5, 4};
    size_t where = below((uint32_t)(NUMBERS * lines)), n = NUMBERS * (size_t)lines;
    uint32_t was = table[where];
    uint64_t bad;
    table[where] = below(2) ? below(UINT32_MAX) : was + 1;
    bad = bad_line(table, n, lines);
    if (bad != NO_BAD_LINE) {
        expect_pages_again(what, table, n, lines, h, below((uint32_t)lines + 1), noise, below(6), BISQUEMOP_BAD_LINE,
                           bad, NULL);
        bad_tables++;
    }
    table[where] = was;
}

/* ---- the longest texts: of up to 65,536 lines */

#ifdef SMALL_MEMORY
#define LEAST 7 /* lines of a page */
#else
#define LEAST 1
#endif

static void test_long_text(const struct long_text *x)
{
    static uint32_t list[PAGE * (BISQUEMOP_LINES_MAX / LEAST + 1)];
    const uint32_t count = (uint32_t)x->count, limits[] = {LEAST, LEAST + 1, 9, count, count + 1, 65535, UINT32_MAX};
    const size_t room = NUMBERS * x->count;
    for (size_t i = 0; i < sizeof limits / sizeof limits[0]; i += step_of(3)) {
        uint32_t h = limits[i] < LEAST ? LEAST : limits[i];
        uint64_t n = put_pages(x->lines, count, sizeof x->text, h, list);
        size_t enough = PAGE * (size_t)n;
        expect_pages(x->what, x->settings, x->text, sizeof x->text, h, room, enough, BISQUEMOP_OK, count, x->lines, n,
                     list);
        expect_pages(x->what, x->settings, x->text, sizeof x->text, h, room, enough - 1, BISQUEMOP_TOO_SMALL, n, NULL,
                     0, NULL);
    }
}

/* ---- edits by chance */

static unsigned long kept_some, grown, shrunk;

/* A limit by which a text of these lines has a few pages, or any. */
static uint32_t random_limit(void)
{
    switch (below(8)) {
    case 0:
        return (uint32_t)lines + below(3);
    case 1:
        return UINT32_MAX - below(2);
    default:
        return 1 + below(4);
    }
}

/* The list of the new pages, where it held the old ones and noise behind them. */
static void list_after(const char *what, uint32_t h, uint64_t first, uint32_t *old, uint64_t old_count)
{
    static uint32_t after[PAGE * (MOST + 1)];
    uint64_t count = put_pages(table, lines, len, h, pages);
    size_t room = PAGE * (size_t)(count > old_count ? count : old_count) + below(PAGE), n = NUMBERS * (size_t)lines;
    for (size_t i = PAGE * (size_t)old_count; i < room; i++) {
        old[i] = below(UINT32_MAX);
    }
    memcpy(after, old, room * sizeof *after);
    memcpy(after, pages, PAGE * (size_t)count * sizeof *after);
    expect_pages_again(what, table, n, lines, h, first, old, room, BISQUEMOP_OK, count, after);
    expect_pages_again(what, table, n, lines, h, first, old, PAGE * (size_t)count - 1, BISQUEMOP_TOO_SMALL, count,
                       NULL);
    if (first >= h) {
        /* a page before the one that holds the first affected line is not written, even if it is wrong */
        size_t kept = PAGE * (size_t)(first / h);
        for (size_t i = 0; i < kept; i++) {
            old[i] = after[i] = below(UINT32_MAX);
        }
        expect_pages_again(what, table, n, lines, h, first, old, room, BISQUEMOP_OK, count, after);
        kept_some++;
    }
}

static void one_edit(const char *what, struct bisquemop_settings s)
{
    static uint32_t old[PAGE * (MOST + 1)];
    struct edit e = random_edit(text, len, BYTES, inserted);
    uint64_t first = affected_line(table, lines, e.a), old_lines = lines, old_count, laid_again;
    uint32_t h = random_limit();
    size_t start = line_number(table, first, BISQUEMOP_LINE_START),
           new_len = put_edited(edited, text, len, e, inserted);
    expect_affected(what, table, NUMBERS * (size_t)lines, lines, e.a, e.b, e.inserted, BISQUEMOP_OK, first);
    old_count = put_pages(table, lines, len, h, old);
    expect(what, bisquemop_settings_lay_again(&s, edited + start, new_len - start, table, NUMBERS * MOST, old_lines,
                                              e.a, e.b, e.inserted, &lines, &laid_again) == BISQUEMOP_OK);
    memcpy(text, edited, new_len);
    len = new_len;
    list_all(what, s, h);
    grown += put_pages(table, lines, len, h, pages) > old_count;
    shrunk += put_pages(table, lines, len, h, pages) < old_count;
    list_after(what, h, first, old, old_count);
}

static void one_text(const char *what, struct bisquemop_settings s)
{
    len = random_text(text, below(CHARACTERS));
    lines = lay_text(what, s, text, len, table, NUMBERS * MOST);
    list_all(what, s, 1);
    list_all(what, s, (uint32_t)lines);
    list_all(what, s, 1 + below((uint32_t)lines + 1));
    list_all(what, s, UINT32_MAX);
    list_table(what, random_limit());
    list_from_all(what, random_limit());
    spoil(what, random_limit());
    for (int i = 0; i < CHAIN; i++) {
        one_edit(what, s);
    }
}

void test_pages(void)
{
    expect("the columns of a page", BISQUEMOP_PAGE_LINE == 0 && BISQUEMOP_PAGE_START == 1 && BISQUEMOP_PAGE_END == 2 &&
                                        BISQUEMOP_PAGE_NUMBERS == 3);
    test_examples();
    test_written_past();
    test_alone();
    each_unlaid(test_unlaid, 0, 0);
    each_unlaid(test_unlaid, 4 * NUMBERS, 4 * PAGE);
    test_no_lines();
    each_long_text(test_long_text);
    test_by_chance(111, TEXTS, "and its pages", one_text);
    expect_of_all("edits that keep pages, to more pages and to fewer",
                  kept_some > TEXTS && grown > TEXTS / 2 && shrunk > TEXTS / 2);
    expect_of_all("tables that are bad", bad_tables > TEXTS / 3);
}
