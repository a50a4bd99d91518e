/*
 * A rules page on a handheld that shows four lines at a time, and a clue for a place of two.
 *
 * The rules have no short form, so they are paged: the library lays the whole text and lists where each page begins and
 * ends. After an edit the text is laid again, and of the list only the pages from the one that holds the first affected
 * line on are written. A clue is delivered long and short: the library chooses the long one if there is room for it, and
 * else as much of the short one as there is room for, and says how many characters are left out. The player must be
 * told. scripts/run-example paged runs it.
 */
#include <bisquemop.h>

#include <inttypes.h>
#include <stdio.h>
#include <stdlib.h>
#include <string.h>

enum { GLYPH = 6, COLUMNS = 20, ROWS = 4, CLUE_ROWS = 2, TEXT_ROOM = 400, LINES_ROOM = 40, PAGES_ROOM = 12 };
#define LINE BISQUEMOP_LINE_NUMBERS
#define PAGE BISQUEMOP_PAGE_NUMBERS
#define TABLE_LEN (LINE * LINES_ROOM)
#define PAGES_LEN (PAGE * PAGES_ROOM)

static const struct bisquemop_settings settings = {
    .glyph = GLYPH,
    .width = COLUMNS * GLYPH,
    .tab = 4 * GLYPH,
    .spacing = 8,
    .base = 8,
    .height = 8 * ROWS,
    .wrap = BISQUEMOP_WRAP_WAIT, /* no word is lost */
};

/* The rules: their text, its lines, and its pages. */
static uint8_t text[TEXT_ROOM + 1];
static uint32_t len, table[TABLE_LEN], pages[PAGES_LEN];
static uint64_t lines, page_count;

/* Every call returns a number, and 0 alone is good. */
static void must(uint32_t number)
{
    if (number != BISQUEMOP_OK) {
        printf("refused: %" PRIu32 "\n", number);
        exit(1);
    }
}

/* A number of a page, by its column. */
static uint32_t of_page(uint64_t page, enum bisquemop_page_column column)
{
    return pages[PAGE * page + column];
}

/* ---- the screen */

/* A row with a line's characters, which are all one byte long here, and blanks behind them. */
static void print_row(const uint8_t *from, uint32_t count)
{
    while (count > 0 && (from[count - 1] == ' ' || from[count - 1] == '\n')) {
        count--;
    }
    printf("  |%-*.*s|\n", COLUMNS, (int)count, (const char *)from);
}

/* Shows one page: its lines are those of the table, from its first line on to where the next page begins. */
static void show_page(uint64_t page)
{
    uint64_t line = of_page(page, BISQUEMOP_PAGE_LINE);
    uint32_t start = of_page(page, BISQUEMOP_PAGE_START), end = of_page(page, BISQUEMOP_PAGE_END);
    printf("page %" PRIu64 " of %" PRIu64 ", bytes %" PRIu32 " to %" PRIu32 "\n", page + 1, page_count, start, end);
    for (int row = 0; row < ROWS; row++, line++) {
        uint32_t next = line + 1 < lines ? table[LINE * (line + 1) + BISQUEMOP_LINE_START] : len;
        print_row(text + start, start < end ? next - start : 0);
        start = start < end ? next : end;
    }
}

static void show_from(uint64_t page)
{
    for (; page < page_count; page++) {
        show_page(page);
    }
}

/* ---- the rules, page by page */

static void list_pages(const char *rules)
{
    len = (uint32_t)strlen(rules);
    memcpy(text, rules, len);
    must(bisquemop_settings_pages(&settings, text, len, ROWS, table, TABLE_LEN, pages, PAGES_LEN, &lines, &page_count));
}

/* Replaces bytes of the text, lays again what that changed, and brings the list of pages up to date. Answers the first
   page that was written. */
static uint64_t edit(uint32_t a, uint32_t b, const char *by)
{
    uint32_t inserted = (uint32_t)strlen(by);
    uint64_t first, laid;
    must(bisquemop_first_affected(table, TABLE_LEN, lines, a, b, inserted, &first));
    memmove(text + a + inserted, text + b, len - b);
    memcpy(text + a, by, inserted);
    len = len - (b - a) + inserted;
    uint32_t start = table[LINE * first + BISQUEMOP_LINE_START];
    must(bisquemop_settings_lay_again(&settings, text + start, len - start, table, TABLE_LEN, lines, a, b, inserted,
                                      &lines, &laid));
    must(bisquemop_pages_again(table, TABLE_LEN, lines, ROWS, first, pages, PAGES_LEN, &page_count));
    return first / ROWS;
}

/* The list that an edit left is the one that is made afresh: that is proved, and looked at here. */
static void compare_with_fresh(void)
{
    static uint32_t fresh_table[TABLE_LEN], fresh[PAGES_LEN];
    uint64_t fresh_lines, fresh_count;
    must(bisquemop_settings_pages(&settings, text, len, ROWS, fresh_table, TABLE_LEN, fresh, PAGES_LEN, &fresh_lines,
                                  &fresh_count));
    if (fresh_count != page_count || memcmp(fresh, pages, PAGE * (size_t)page_count * sizeof *pages) != 0) {
        printf("the list is another than one made afresh\n");
        exit(1);
    }
}

/* Puts words in the place of others, and shows the pages that were written. */
static void replace(const char *words, const char *by)
{
    text[len] = 0;
    const char *at = strstr((const char *)text, words);
    uint32_t a = (uint32_t)(at - (const char *)text);
    uint64_t before = page_count, from = edit(a, a + (uint32_t)strlen(words), by);
    compare_with_fresh();
    printf("\n\"%s\" becomes \"%s\"\n", words, by);
    printf("pages before: %" PRIu64 "; kept: %" PRIu64 "; written: %" PRIu64 "\n", before, from, page_count - from);
    show_from(from);
}

/* ---- a clue, long or short */

/* Shows the part that has room. Its lines are those of the text that it comes from, and not of the part laid alone. */
static void show_clue(const char *long_clue, const char *short_clue)
{
    static uint32_t rows[TABLE_LEN];
    uint64_t part, left_out, count, end;
    uint32_t which;
    must(bisquemop_settings_choose(&settings, (const uint8_t *)long_clue, strlen(long_clue),
                                   (const uint8_t *)short_clue, strlen(short_clue), CLUE_ROWS, &part, &which,
                                   &left_out));
    const char *clue = which == BISQUEMOP_LONG_TEXT ? long_clue : short_clue;
    must(bisquemop_settings_layout(&settings, (const uint8_t *)clue, strlen(clue), rows, TABLE_LEN, &count));
    for (uint64_t line = 0; line < count && line < CLUE_ROWS; line++) {
        uint32_t start = rows[LINE * line + BISQUEMOP_LINE_START];
        end = line + 1 < count ? rows[LINE * (line + 1) + BISQUEMOP_LINE_START] : part;
        print_row((const uint8_t *)clue + start, (uint32_t)end - start);
    }
    printf("   the %s clue", which == BISQUEMOP_LONG_TEXT ? "long" : "short");
    if (left_out > 0) {
        printf(", and %" PRIu64 " characters more", left_out);
    }
    printf("\n");
}

int main(void)
{
    static const char long_clue[] = "The dog that barks at all of us did not bark at the baker.";
    list_pages(
        "How to play\n"
        "Each clue is true, and one of the nine bakers lies in none of them. Ask them in any order.\n"
        "A baker who has been asked twice says nothing more.\nName the one who lied.");
    printf("The rules, four lines to a page:\n");
    show_from(0);
    replace("twice", "three times");
    replace("Name the one who lied.", "Name the one who lied. You have but one guess, and no more.");

    printf("\nA clue for two rows, long and short:\n");
    show_clue("The dog did not bark at the baker.", "The dog kept still.");
    show_clue(long_clue, "The dog did not bark at him.");
    show_clue(long_clue, "The dog did not bark at the baker, but stood still.");
    return 0;
}
