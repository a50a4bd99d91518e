/*
 * A clue on a small screen: laid by the old rule, which drops a word, and where words wait; drawn, edited and laid again.
 * Then a level editor asks how wide the box should be, and at last a screen reader for a character by its number.
 *
 * The screen is a grid of characters here. Everything else is as in an app: the library says where each line starts and
 * stands, what is drawn in it and where, what an edit changes, and how many characters a line had to drop. An app must
 * not keep that last number to itself.
 */
#include <bisquemop.h>

#include <inttypes.h>
#include <stdio.h>
#include <stdlib.h>
#include <string.h>

enum {
    GLYPH = 6, /* pixels */
    BASE = 8,
    COLUMNS = 12,
    ROWS = 6,
    TEXT_ROOM = 200 /* bytes; table and events have room for any text of so many */
};
#define TABLE_LEN (BISQUEMOP_LINE_NUMBERS * (TEXT_ROOM + 1))
#define EVENTS_LEN (BISQUEMOP_EVENT_NUMBERS * TEXT_ROOM)

struct app {
    struct bisquemop_settings settings;
    uint8_t text[TEXT_ROOM];
    size_t len;
    uint32_t table[TABLE_LEN];
    uint64_t lines;
    uint64_t first, laid; /* the lines that were laid last: so many from this one on */
    uint32_t events[EVENTS_LEN];
    uint64_t event_count;
    char screen[ROWS][COLUMNS][5]; /* a character's bytes, and a zero */
};

/* Every call returns a number, and 0 alone is good. */
static void must(const char *call, uint32_t number, const uint64_t *value)
{
    if (number != BISQUEMOP_OK) {
        printf("%s refused: %" PRIu32 " %" PRIu64 "\n", call, number, *value);
        exit(1);
    }
}

static uint32_t of_line(const struct app *app, uint64_t line, enum bisquemop_line_column column)
{
    return app->table[BISQUEMOP_LINE_NUMBERS * line + column];
}

/* Where a line's bytes end: where the next line starts. */
static size_t line_end(const struct app *app, uint64_t line)
{
    return line + 1 < app->lines ? of_line(app, line + 1, BISQUEMOP_LINE_START) : app->len;
}

/* The row of the screen in which a line stands, or -1 if it does not show. */
static int row_of(const struct app *app, uint64_t line)
{
    uint64_t shows;
    int32_t y;
    must("bisquemop_line_y",
         bisquemop_settings_line_y(&app->settings, app->table, TABLE_LEN, app->lines, line, &shows, &y), &shows);
    return shows == BISQUEMOP_SHOWS ? (y - app->settings.top) / BASE : -1;
}

/* ---- laying and drawing */

static void lay(struct app *app)
{
    must("bisquemop_layout_events",
         bisquemop_settings_layout_events(&app->settings, app->text, app->len, app->table, TABLE_LEN, app->events,
                                          EVENTS_LEN, &app->lines, &app->event_count),
         &app->lines);
}

static void lay_all(struct app *app, enum bisquemop_wrap wrap)
{
    app->settings.wrap = wrap;
    lay(app);
    app->first = 0;
    app->laid = app->lines;
}

/* How many bytes the character has that begins at an offset. */
static size_t character_bytes(const struct app *app, size_t at)
{
    uint8_t lead = app->text[at];
    return lead < 0xC0 ? 1 : lead < 0xE0 ? 2 : lead < 0xF0 ? 3 : 4;
}

/* Puts the characters of a printed event into a row, and "-" for a soft hyphen. Answers whether all have room there. */
static int put(struct app *app, int row, const uint32_t *event)
{
    size_t at = event[BISQUEMOP_EVENT_START], end = event[BISQUEMOP_EVENT_END];
    size_t column = event[BISQUEMOP_EVENT_X] / GLYPH;
    for (; at < end && column < COLUMNS; column++) {
        char *cell = app->screen[row][column];
        size_t n = character_bytes(app, at);
        memset(cell, 0, sizeof app->screen[row][column]);
        memcpy(cell, app->text + at, n);
        if (strcmp(cell, "\xC2\xAD") == 0) {
            memcpy(cell, "-", 2);
        }
        at += n;
    }
    return at == end;
}

/* Draws all events and answers whether all show. They stand line after line: an event is of the last line that starts
   at or before it. */
static int draw(struct app *app)
{
    uint64_t line = 0;
    int all = 1;
    memset(app->screen, 0, sizeof app->screen);
    for (uint64_t k = 0; k < app->event_count; k++) {
        const uint32_t *event = app->events + BISQUEMOP_EVENT_NUMBERS * k;
        while (line + 1 < app->lines && event[BISQUEMOP_EVENT_START] >= line_end(app, line)) {
            line++;
        }
        if (event[BISQUEMOP_EVENT_KIND] == BISQUEMOP_DRAWN_PRINTED) {
            int row = row_of(app, line);
            all = row >= 0 && put(app, row, event) && all;
        }
    }
    return all;
}

/* ---- what the player sees, and what the player must be told */

/* What became of a line, and what it dropped. It ends where it drops a word, so that those are its last characters. */
static void say_line(const struct app *app, uint64_t line)
{
    size_t end = line_end(app, line), from = end;
    uint32_t dropped = of_line(app, line, BISQUEMOP_LINE_DROPPED);
    printf("  %s", line < app->first ? "not touched" : line < app->first + app->laid ? "laid" : "moved");
    for (uint32_t k = 0; k < dropped; k++) {
        do {
            from--;
        } while ((app->text[from] & 0xC0) == 0x80);
    }
    if (dropped > 0) {
        printf(", %" PRIu32 " characters dropped: \"%.*s\"", dropped, (int)(end - from),
               (const char *)app->text + from);
    }
}

static void show(struct app *app)
{
    int whole = draw(app);
    printf("  +------------+\n");
    for (int row = 0; row < ROWS; row++) {
        printf("  |");
        for (int column = 0; column < COLUMNS; column++) {
            const char *cell = app->screen[row][column];
            printf("%s", cell[0] ? cell : " ");
        }
        printf("|");
        for (uint64_t line = 0; line < app->lines; line++) {
            if (row_of(app, line) == row) {
                say_line(app, line);
            }
        }
        printf("\n");
    }
    printf("  +------------+\n");
    for (uint64_t line = 0; line < app->lines; line++) {
        whole = whole && of_line(app, line, BISQUEMOP_LINE_DROPPED) == 0;
    }
    printf(whole ? "  the whole clue is on the screen\n" : "  PART OF THE CLUE IS NOT ON THE SCREEN\n");
}

/* ---- an edit */

/* Replaces the text's bytes from a up to b, and lays again what that affects. */
static void edit(struct app *app, uint32_t a, uint32_t b, const char *by)
{
    uint32_t inserted = (uint32_t)strlen(by);
    uint64_t lines = app->lines;
    size_t start;

    must("bisquemop_first_affected",
         bisquemop_first_affected(app->table, TABLE_LEN, lines, a, b, inserted, &app->first), &app->first);
    if (app->len - (b - a) + inserted > TEXT_ROOM) {
        printf("there is no room for the new text\n");
        exit(1);
    }
    memmove(app->text + a + inserted, app->text + b, app->len - b);
    memcpy(app->text + a, by, inserted);
    app->len = app->len - (b - a) + inserted;

    start = of_line(app, app->first, BISQUEMOP_LINE_START);
    must("bisquemop_lay_again",
         bisquemop_settings_lay_again(&app->settings, app->text + start, app->len - start, app->table, TABLE_LEN, lines,
                                      a, b, inserted, &app->lines, &app->laid),
         &app->lines);
}

/* What to draw comes from a layout with events. That its table is the one that laying again has left, is proved. */
static void redraw(struct app *app)
{
    static uint32_t again[TABLE_LEN];
    memcpy(again, app->table, sizeof again);
    lay(app);
    if (memcmp(again, app->table, sizeof again) != 0) {
        printf("laying again left another table than a fresh layout\n");
        exit(1);
    }
    show(app);
}

/* ---- a level editor asks how wide the box should be */

/* Says the smallest width by which the clue has at most so many lines and loses nothing, and whether the box it has is
   as good. */
static void propose_width(const struct app *app, uint32_t lines)
{
    uint64_t fits, width;
    must("bisquemop_columns_fit", bisquemop_settings_columns_fit(&app->settings, app->text, app->len, lines, &fits),
         &fits);
    must("bisquemop_columns_plan", bisquemop_settings_columns_plan(&app->settings, app->text, app->len, lines, &width),
         &width);
    printf("  in %" PRIu32 " lines: ", lines);
    if (width == BISQUEMOP_NONE) {
        printf("no box will do\n");
    } else {
        printf("a box of %" PRIu64 " will do; this one %s\n", width, fits ? "does" : "does not");
    }
}

/* ---- a screen reader speaks of characters, and not of bytes */

/* The line that holds a character, counted from 1: the last line with fewer characters before it. */
static uint64_t line_of_character(const struct app *app, uint32_t character)
{
    uint64_t line = 0;
    while (line + 1 < app->lines && of_line(app, line + 1, BISQUEMOP_LINE_CHARS) < character) {
        line++;
    }
    return line;
}

/* Says which character of a line it is, and where its bytes stand. */
static void say_character(const struct app *app, uint32_t character)
{
    uint64_t line = line_of_character(app, character);
    uint32_t in_line = character - of_line(app, line, BISQUEMOP_LINE_CHARS);
    size_t at = of_line(app, line, BISQUEMOP_LINE_START);
    for (uint32_t k = 1; k < in_line; k++) {
        at += character_bytes(app, at);
    }
    printf("  character %" PRIu32 " is character %" PRIu32 " of line %" PRIu64 ": \"%.*s\", at byte %lu\n", character,
           in_line, line + 1, (int)character_bytes(app, at), (const char *)app->text + at, (unsigned long)at + 1);
}

int main(void)
{
    static const char clue[] = "Who lied?\n            not the baker,\nnot his wife.";
    static struct app app; /* all zero: left aligned at the top, the table and the screen empty */
    app.settings.glyph = GLYPH;
    app.settings.width = COLUMNS * GLYPH;
    app.settings.tab = 4 * GLYPH;
    app.settings.spacing = BASE;
    app.settings.base = BASE;
    app.settings.height = ROWS * BASE;
    app.settings.leading = 1; /* the indents of clues are meant */
    app.len = sizeof clue - 1;
    memcpy(app.text, clue, app.len);

    printf("A clue with an indent as wide as the column, by the old rule:\n");
    lay_all(&app, BISQUEMOP_WRAP_DROP);
    show(&app);

    printf("\nThe same, and words wait for a line with room:\n");
    lay_all(&app, BISQUEMOP_WRAP_WAIT);
    show(&app);

    printf("\nThe indent becomes one space:\n");
    edit(&app, 10, 22, " ");
    redraw(&app);

    printf("\nThe baker becomes a butler:\n");
    edit(&app, 19, 24, "butler");
    redraw(&app);

    printf("\nThe butler becomes a fianc\u00e9e:\n");
    edit(&app, 19, 25, "fianc\u00e9e");
    redraw(&app);

    printf("\nA level editor asks for a width in pixels, the box being %" PRIu32 ":\n", app.settings.width);
    for (uint32_t lines = 2; lines <= ROWS; lines++) {
        propose_width(&app, lines);
    }

    printf("\nA screen reader asks for the 20th character, and for the 40th:\n");
    say_character(&app, 20);
    say_character(&app, 40);
    return 0;
}
