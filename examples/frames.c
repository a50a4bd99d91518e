/*
 * A clue on a handheld whose screen is slow: a line is laid and shown, then the next, and the player types in between.
 *
 * The program keeps the lines laid so far and what the next one starts from. When something is typed, the lines that
 * have not looked at it stay as they are, and laying goes on from the first that has. The clue has letters, spaces and
 * line feeds alone and is aligned left, so that each character stands one glyph behind the one before it, and line k on
 * row k; examples/handheld.c draws any text. scripts/run-example frames runs it on a bare Cortex-M4.
 */
#include <bisquemop.h>

#include <inttypes.h>
#include <stdio.h>
#include <stdlib.h>
#include <string.h>

enum {
    COLUMNS = 12,
    ROWS = 8,
    GLYPH = 6,
    TEXT_ROOM = 96,
    LINES_ROOM = 24,
    LINE = BISQUEMOP_LINE_NUMBERS,
    TABLE_LEN = LINE * LINES_ROOM
};

static const struct bisquemop_settings settings = {
    .glyph = GLYPH,
    .width = COLUMNS * GLYPH,
    .tab = 4 * GLYPH,
    .spacing = 8,
    .base = 8,
    .height = 8 * ROWS,
    .leading = 1,
    .wrap = BISQUEMOP_WRAP_WAIT, /* no word of a clue is lost */
};

static uint8_t text[TEXT_ROOM];
static uint32_t len;

/* The lines laid so far; and where the next one starts, and with what rest. */
static uint32_t table[TABLE_LEN], lines, next_start, next_rest_end, next_rest_count;

/* Rows of the screen that show a line, and how many lines were laid in all. */
static uint32_t rows_shown, laid;

/* Every call returns a number, and 0 alone is good. */
static void must(uint32_t number)
{
    if (number != BISQUEMOP_OK) {
        printf("refused: %" PRIu32 "\n", number);
        exit(1);
    }
}

/* A number of a line, by its column. */
static uint32_t of_line(uint32_t line, enum bisquemop_line_column column)
{
    return table[LINE * line + column];
}

/* ---- laying */

static void lay_next_line(void)
{
    uint64_t start;
    must(bisquemop_settings_one_line(&settings, text, len, next_start, next_rest_end, next_rest_count,
                                     table + LINE * lines, TABLE_LEN - LINE * lines, &start, &next_rest_end,
                                     &next_rest_count));
    next_start = (uint32_t)start;
    lines++;
}

static int is_laid(void)
{
    return lines > 0 && of_line(lines - 1, BISQUEMOP_LINE_END) == BISQUEMOP_END_END_OF_TEXT;
}

/*
 * Goes back to the first line laid so far that an edit at byte `a` affects: the first whose reach is above `a`, which
 * may stand before the line that holds the edit. If there is none, the next line is laid from where it was to start.
 * bisquemop_first_affected has this rule for whole tables; as long as no line ends the text there is none to lend it.
 */
static void go_back(uint32_t a)
{
    uint32_t line = 0;
    while (line < lines && of_line(line, BISQUEMOP_LINE_REACH) <= a) {
        line++;
    }
    if (line < lines) {
        next_start = of_line(line, BISQUEMOP_LINE_START);
        next_rest_end = of_line(line, BISQUEMOP_LINE_REST_END);
        next_rest_count = of_line(line, BISQUEMOP_LINE_REST_COUNT);
        lines = line;
    }
}

/* ---- the screen */

/* What a refresh of one row shows: a line, or nothing. */
static void refresh_row(uint32_t row, const uint8_t *from, uint32_t count)
{
    char shown[COLUMNS + 1];
    memset(shown, ' ', COLUMNS);
    shown[COLUMNS] = 0;
    for (uint32_t k = 0; k < count && k < COLUMNS && from[k] != '\n'; k++) {
        shown[k] = (char)from[k];
    }
    printf("  row %" PRIu32 " |%s|\n", row, shown);
}

/* One turn of the handheld's loop: a line is laid and its row refreshed. Behind the last line rows are cleared. */
static void take_turn(void)
{
    uint32_t row = lines;
    lay_next_line();
    laid++;
    if (row < ROWS) {
        refresh_row(row, text + of_line(row, BISQUEMOP_LINE_START), next_start - of_line(row, BISQUEMOP_LINE_START));
    }
    if (rows_shown < lines) {
        rows_shown = lines;
    }
    for (; is_laid() && rows_shown > lines; rows_shown--) {
        refresh_row(rows_shown - 1, text, 0);
    }
}

/* ---- the player */

/* The bytes from `a` up to `b` are replaced by others. */
static void replace(uint32_t a, uint32_t b, const char *by)
{
    uint32_t inserted = (uint32_t)strlen(by);
    if (len - (b - a) + inserted > TEXT_ROOM) {
        printf("there is no room for \"%s\"\n", by);
        exit(1);
    }
    memmove(text + a + inserted, text + b, len - b);
    memcpy(text + a, by, inserted);
    len = len - (b - a) + inserted;
}

/* The same while lines are shown. */
static void type(const char *what, uint32_t a, uint32_t b, const char *typed)
{
    uint32_t shown = lines;
    replace(a, b, typed);
    go_back(a);
    if (lines < shown) {
        printf("%s: from line %" PRIu32 " on all is laid again\n", what, lines);
    } else {
        printf("%s: no line laid so far is affected\n", what);
    }
}

/* So many turns, or as many as there are lines. */
static void take_turns(int count)
{
    for (; count > 0 && !is_laid(); count--) {
        take_turn();
    }
}

/* Are the lines those of the whole text, laid at once. */
static int is_whole(void)
{
    static uint32_t whole[TABLE_LEN];
    uint64_t count;
    must(bisquemop_settings_layout(&settings, text, len, whole, TABLE_LEN, &count));
    return count == lines && memcmp(table, whole, LINE * lines * sizeof *table) == 0;
}

int main(void)
{
    uint64_t first;
    replace(0, 0, "Who lied?\n              not the baker,\nnot his wife.");
    must(bisquemop_settings_open(&settings, text, len, &first));
    next_start = (uint32_t)first;
    printf("A clue is shown line by line while it is laid:\n");
    take_turns(2);
    type("A word is typed at the end", len, len, " Really.");
    take_turns(2);
    type("The indent is taken out", 10, 24, "");
    take_turns(2);
    type("The baker becomes a son, who has room on the line before", 18, 23, "son");
    take_turns(LINES_ROOM);
    type("The word at the end is taken away", len - 8, len, "");
    take_turns(LINES_ROOM);
    if (!is_whole()) {
        printf("these are not the lines of the whole\n");
        return 1;
    }
    printf("%" PRIu32 " lines, as laid at once; %" PRIu32 " were laid on the way\n", lines, laid);
    return 0;
}
