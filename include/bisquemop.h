/*
 * Bisquemop lays text in a box where every character has the same width, and says for each line where it starts, where
 * it ends and where it is drawn, and how many characters it had to drop.
 *
 *   bisquemop_check_settings   are these settings good
 *   bisquemop_check_text       is this a text
 *   bisquemop_tokens           the words, spaces and breaks of a text
 *   bisquemop_layout           lays a text: a table of its lines
 *   bisquemop_layout_events    the same, and what is drawn in each line
 *   bisquemop_open             before lines are laid one by one: where the first one starts
 *   bisquemop_one_line         lays one line, and says where the next one starts
 *   bisquemop_first_affected   after an edit, the first line that it can change
 *   bisquemop_lay_again        after an edit, lays what changed and moves the other lines of the table
 *   bisquemop_height           how high a laid text is
 *   bisquemop_line_y           where a line stands, and whether it shows
 *   bisquemop_index            where every line stands: an index of their ys
 *   bisquemop_index_again      after an edit, the ys that changed
 *   bisquemop_find_line        the line under a y, as a tap has one
 *   bisquemop_write_file       settings and a table as the bytes of a layout file, which another machine can read
 *   bisquemop_read_file        settings and a table from such bytes
 *   bisquemop_choose           a long text if it has at most so many lines, else as much of a short one
 *   bisquemop_pages            lays a text, and lists its pages of so many lines each
 *   bisquemop_pages_again      after an edit, the pages that changed
 *   bisquemop_columns_fit      does a text have at most so many lines and lose no character
 *   bisquemop_columns_plan     the smallest box width by which that is so
 *
 * Those that take thirteen settings have a twin bisquemop_settings_.. that takes a struct of them.
 *
 * Link with libbisquemop.a of your machine. The header is C99, and C++ can include it too. It is the same on every
 * machine: counts have 64 bits on machines of 32 bits too.
 *
 * What holds of every call:
 *  - It returns 0 when done, and else the number of the first test that failed (enum bisquemop_refusal).
 *  - It always writes *value: when done what the call answers, and else what goes with the number returned.
 *  - When it refuses it writes nothing else, but for the settings that go with BISQUEMOP_RETIRED_SETTING. A buffer then
 *    holds what it held.
 *  - It allocates nothing, keeps no pointer and has no state, so threads may call it side by side.
 *  - `value` points to a uint64_t of the caller's. It must not be NULL.
 *  - A buffer is a pointer and the number of its elements, not of its bytes, and may be NULL if that number is 0.
 *  - The text, the buffers and the numbers that a call writes must not overlap one another.
 *
 * Offsets are in bytes from the text's start, widths and heights in pixels, counts in characters.
 */
#ifndef BISQUEMOP_H
#define BISQUEMOP_H

#include <stdint.h>

/* The version of this header, and of the library that it is for. */
#define BISQUEMOP_VERSION "0.2.0"
#define BISQUEMOP_VERSION_MAJOR 0
#define BISQUEMOP_VERSION_MINOR 2
#define BISQUEMOP_VERSION_PATCH 0

#ifdef __cplusplus
extern "C" {
#endif

/* What the calls rest on besides the machine's own way to pass numbers and pointers: that numbers stand at multiples of
   their size, since the library reads and writes them whole, and that a pointer has 32 or 64 bits. On a machine where
   that is not so this does not compile. */
struct bisquemop_placed {
    uint8_t byte;
    uint32_t four;
    uint8_t another;
    uint64_t eight;
};
typedef char bisquemop_numbers_stand_at_multiples_of_their_size[sizeof(struct bisquemop_placed) == 24 ? 1 : -1];
typedef char bisquemop_pointers_have_32_or_64_bits[sizeof(void *) == 4 || sizeof(void *) == 8 ? 1 : -1];

/* Why a call refused what it was given, and what *value then is. The tests are made in the order of these numbers, but
   for a file: there 9 and 11 come first, and 12 after 2. 7 is not used: it was for a line that breaks without taking a
   character, and there is none, as is proved. */
enum bisquemop_refusal {
    BISQUEMOP_OK = 0,                   /* the call is done, and says what *value is */
    BISQUEMOP_SETTING_OUT_OF_RANGE = 1, /* 0; a limit of no lines is out of range too */
    BISQUEMOP_UNKNOWN_ALIGNMENT = 2,    /* the number that was given for it */
    BISQUEMOP_TEXT_TOO_LONG = 3,        /* the text's length in bytes */
    BISQUEMOP_NOT_UTF8 = 4,             /* the length in bytes of its longest prefix that is UTF-8 */
    BISQUEMOP_BAD_LINE = 5,             /* the first bad line of the table; 0 for one line's bad start or bad rest */
    BISQUEMOP_BAD_EDIT = 6,             /* 0 */
    BISQUEMOP_TOO_SMALL = 8,            /* how many lines, tokens, events, ys, settings, bytes or pages the buffer must
                                           have room for */
    BISQUEMOP_BAD_FIELD = 9,            /* the offset in the file of the first field that is not as it should be */
    BISQUEMOP_BAD_INDEX = 10,           /* the index's length if it is not the count of lines; else the first line whose
                                           y is smaller than that of the line before it */
    BISQUEMOP_OLD_ENTRY = 11,           /* the offset in the file of a line that has too few numbers, as once */
    BISQUEMOP_RETIRED_SETTING = 12      /* 0; the file's other settings are handed out, with a 0 for `trailing` */
};

/* How a line stands between the sides of the box. */
enum bisquemop_alignment {
    BISQUEMOP_ALIGN_LEFT = 0,
    BISQUEMOP_ALIGN_CENTRE = 1,
    BISQUEMOP_ALIGN_RIGHT = 2,
    BISQUEMOP_ALIGN_JUSTIFIED = 3
};

/* How the lines stand between the top and the bottom of the box. */
enum bisquemop_vertical { BISQUEMOP_VERTICAL_TOP = 0, BISQUEMOP_VERTICAL_MIDDLE = 1, BISQUEMOP_VERTICAL_BOTTOM = 2 };

/* What becomes of a word of which no character fits into a line that has no word yet, as after an indent. By WAIT, left
   aligned and in a box at least a glyph wide, no line of any text drops anything. */
enum bisquemop_wrap {
    BISQUEMOP_WRAP_DROP = 0, /* the line drops it, and counts its characters */
    BISQUEMOP_WRAP_WAIT = 1  /* it stays for the next line if the cursor has left the place where it started in this
                                one; else the next line would have no more room, and the line drops it */
};

/* The limits, both ends included. A setting whose lower limit has no name here may be 0. */
#define BISQUEMOP_TEXT_MAX 65535   /* bytes */
#define BISQUEMOP_LINES_MAX 65536  /* no text has more lines */
#define BISQUEMOP_TOKENS_MAX 65535 /* no text has more tokens */
#define BISQUEMOP_EVENTS_MAX 65535 /* no text has more events */
#define BISQUEMOP_GLYPH_MIN 1      /* this and all below: pixels */
#define BISQUEMOP_GLYPH_MAX 64
#define BISQUEMOP_WIDTH_MAX 4096
#define BISQUEMOP_TAB_MAX 4096
#define BISQUEMOP_SPACING_MAX 4096
#define BISQUEMOP_PARAGRAPH_MAX 4096
#define BISQUEMOP_BASE_MIN 1
#define BISQUEMOP_BASE_MAX 64
#define BISQUEMOP_HEIGHT_MAX 4096
#define BISQUEMOP_TOP_MIN (-4096)
#define BISQUEMOP_TOP_MAX 4096

/* The columns of a line in a table: line k's number of a column stands at BISQUEMOP_LINE_NUMBERS * k + the column. */
enum bisquemop_line_column {
    BISQUEMOP_LINE_START = 0,      /* the offset where the line starts */
    BISQUEMOP_LINE_REST_END = 1,   /* if the line before cut a run of spaces, the offset where the rest ends that this
                                      line starts with; else 0 */
    BISQUEMOP_LINE_REST_COUNT = 2, /* how many spaces that rest counts as; 0 if there is none */
    BISQUEMOP_LINE_END = 3,        /* how the line ends: one of enum bisquemop_end */
    BISQUEMOP_LINE_LEFT = 4,       /* how far from the box's left side the line is drawn */
    BISQUEMOP_LINE_SPACE = 5,      /* the width of a space */
    BISQUEMOP_LINE_EXTRA = 6,      /* so many of the line's first spaces are one pixel wider, each */
    BISQUEMOP_LINE_WIDTH = 7,      /* the width measured, with plain spaces: never above the box's */
    BISQUEMOP_LINE_DROPPED = 8,    /* how many characters belong to a word dropped here, which no line draws: the line's
                                      last characters */
    BISQUEMOP_LINE_REACH = 9,      /* the offset after the furthest character that the line depends on, and the text's
                                      length plus 1 if it depends on where the text ends */
    BISQUEMOP_LINE_CHARS = 10      /* how many characters the text has before the line's start */
};
#define BISQUEMOP_LINE_NUMBERS 11 /* how many numbers a line has in a table */

/* The bytes of a layout file of so many lines. */
#define BISQUEMOP_FILE_BYTES(lines) (UINT64_C(65) + (3 + 4 * BISQUEMOP_LINE_NUMBERS) * (uint64_t)(lines))

/* How a line ends. The last line of a text ends by the end of the text, and no other does. */
enum bisquemop_end {
    BISQUEMOP_END_NEW_LINE = 0,
    BISQUEMOP_END_CARRIAGE_RETURN = 1,
    BISQUEMOP_END_END_OF_TEXT = 2,
    BISQUEMOP_END_LINE_BREAK = 3 /* the line is full */
};

/* Whether a line shows. */
enum bisquemop_showing {
    BISQUEMOP_HIDDEN = 0, /* the line is above the box, below it, or juts out of it */
    BISQUEMOP_SHOWS = 1,
    BISQUEMOP_NO_LINE = 2 /* there is no such line */
};

/* What *value is where a call looked for a line, or for a width, and there is none. */
#define BISQUEMOP_NONE UINT64_MAX

/* The columns of a page: page k's number of a column stands at BISQUEMOP_PAGE_NUMBERS * k + the column. */
enum bisquemop_page_column {
    BISQUEMOP_PAGE_LINE = 0,  /* its first line */
    BISQUEMOP_PAGE_START = 1, /* the offset where that line starts */
    BISQUEMOP_PAGE_END = 2    /* the offset where the next page starts; of the last page the text's length */
};
#define BISQUEMOP_PAGE_NUMBERS 3 /* how many numbers a page has in a list */

/* Which of two texts was chosen. */
enum bisquemop_which { BISQUEMOP_LONG_TEXT = 0, BISQUEMOP_SHORT_TEXT = 1 };

/* The columns of a token: token k's number of a column stands at BISQUEMOP_TOKEN_NUMBERS * k + the column. */
enum bisquemop_token_column {
    BISQUEMOP_TOKEN_KIND = 0,  /* one of enum bisquemop_kind */
    BISQUEMOP_TOKEN_START = 1, /* the offset of its first byte */
    BISQUEMOP_TOKEN_END = 2,   /* the offset after its last byte, where the next token starts */
    BISQUEMOP_TOKEN_COUNT = 3  /* of white space the spaces that it counts as, else 0 */
};
#define BISQUEMOP_TOKEN_NUMBERS 4 /* how many numbers a token has in a buffer */

/* What a token is. */
enum bisquemop_kind {
    BISQUEMOP_KIND_NEW_LINE = 0,        /* U+000A */
    BISQUEMOP_KIND_CARRIAGE_RETURN = 1, /* U+000D */
    BISQUEMOP_KIND_TAB = 2,             /* U+0009 */
    BISQUEMOP_KIND_WHITESPACE = 3,      /* other white space as long as it goes on, but not U+00A0, U+2007 and U+202F;
                                           and U+200B, which counts 0 and stands alone where a token starts with it */
    BISQUEMOP_KIND_WORD = 4,            /* other characters as long as they go on. U+00A0, U+2007 and U+202F are among
                                           them: they glue, so that no line breaks at them unless it breaks the word */
    BISQUEMOP_KIND_BREAK = 5            /* U+00AD, where a word may be broken */
};

/* The columns of an event: event k's number of a column stands at BISQUEMOP_EVENT_NUMBERS * k + the column. */
enum bisquemop_event_column {
    BISQUEMOP_EVENT_KIND = 0,  /* one of enum bisquemop_drawn */
    BISQUEMOP_EVENT_START = 1, /* the offset of the first byte that it stands for */
    BISQUEMOP_EVENT_END = 2,   /* the offset after the last of them */
    BISQUEMOP_EVENT_COUNT = 3, /* of a space the spaces that it counts as, else 0 */
    BISQUEMOP_EVENT_WIDTH = 4, /* how far it moves the pen */
    BISQUEMOP_EVENT_X = 5      /* where the pen stands before it, from the box's left side */
};
#define BISQUEMOP_EVENT_NUMBERS 6 /* how many numbers an event has in a buffer */

/* What an event is. Only printed ones show, but others move the pen too. */
enum bisquemop_drawn {
    BISQUEMOP_DRAWN_SPACE = 0,   /* spaces, one gluing character of a word, a tab, or the U+000A or U+000D that ends the
                                    line, which is 0 wide, as spaces at a line's end are, and those at its start where
                                    `leading` is off */
    BISQUEMOP_DRAWN_PRINTED = 1, /* the characters of its bytes, which are of a word; "-" if its bytes are U+00AD's;
                                    nothing if it has no bytes, as at the end of a word that ends in a gluing
                                    character */
    BISQUEMOP_DRAWN_MOVE = 2     /* a tab that does not fit, as wide as the room up to the box's right side, or one at a
                                    line's end */
};

/* How a text is laid: eight numbers of pixels, two alignments, a switch, a number that must be 0, and what becomes of a
   word that has no room. */
struct bisquemop_settings {
    uint32_t glyph;     /* the width of every character: 1 to 64 */
    uint32_t width;     /* the width of the box: 0 to 4,096 */
    uint32_t tab;       /* tab stops stand at its multiples, and there are none if it is 0: 0 to 4,096 */
    uint32_t spacing;   /* how far below a line the next one stands: 0 to 4,096 */
    uint32_t paragraph; /* how much further, after a line that ends by a new line: 0 to 4,096 */
    uint32_t base;      /* the height of a single line: 1 to 64 */
    uint32_t height;    /* the height of the box: 0 to 4,096 */
    int32_t top;        /* the y of the box's upper side: -4,096 to 4,096 */
    uint32_t alignment; /* one of enum bisquemop_alignment */
    uint32_t vertical;  /* one of enum bisquemop_vertical */
    uint32_t leading;   /* spaces at the start of a line: 0 off, 1 on */
    uint32_t trailing;  /* must be 0. It was for spaces at the end of a line, and keeps its place */
    uint32_t wrap;      /* one of enum bisquemop_wrap: 0 or 1 */
};

#define BISQUEMOP_SETTINGS_NUMBERS 13 /* how many settings there are */

/*
 * Checks the thirteen settings, given one after the other in the order of struct bisquemop_settings. Returns
 *   BISQUEMOP_OK                    all are good; *value is 0
 *   BISQUEMOP_SETTING_OUT_OF_RANGE  one of the eleven that are no alignment is out of its range, as `trailing` is if it
 *                                   is not 0; *value is 0
 *   BISQUEMOP_UNKNOWN_ALIGNMENT     an alignment is none of its enum; *value is the number that was given,
 *                                   and where both are unknown, that of `alignment`
 */
uint32_t bisquemop_check_settings(uint32_t glyph, uint32_t width, uint32_t tab, uint32_t spacing, uint32_t paragraph,
                                  uint32_t base, uint32_t height, int32_t top, uint32_t alignment, uint32_t vertical,
                                  uint32_t leading, uint32_t trailing, uint32_t wrap, uint64_t *value);

/* The same for settings in a struct, which must not be NULL. */
static inline uint32_t bisquemop_settings_check(const struct bisquemop_settings *s, uint64_t *value)
{
    return bisquemop_check_settings(s->glyph, s->width, s->tab, s->spacing, s->paragraph, s->base, s->height, s->top,
                                    s->alignment, s->vertical, s->leading, s->trailing, s->wrap, value);
}

/*
 * Checks the `len` bytes at `text`, which may be NULL if `len` is 0. The text ends after them, so a byte 0 is a
 * character like any other. Returns
 *   BISQUEMOP_OK             it is UTF-8 of at most 65,535 bytes; *value is 0
 *   BISQUEMOP_TEXT_TOO_LONG  it has more bytes than that, UTF-8 or not; *value is `len`
 *   BISQUEMOP_NOT_UTF8       it is not UTF-8; *value is the length in bytes of its longest prefix that is
 */
uint32_t bisquemop_check_text(const uint8_t *text, uint64_t len, uint64_t *value);

/*
 * Splits the `len` bytes at `text` into tokens, which follow one another and cover the text, and writes four numbers
 * (enum bisquemop_token_column) for each to `tokens`, which has `tokens_len` numbers. One token for each byte of the
 * text, 4 * len numbers, is surely enough. Numbers past the last token written keep what they held. Returns
 *   BISQUEMOP_OK             done; *value is how many tokens were written
 *   BISQUEMOP_TEXT_TOO_LONG  as by bisquemop_check_text; *value is `len`
 *   BISQUEMOP_NOT_UTF8       as by bisquemop_check_text; *value is the length of its longest valid prefix
 *   BISQUEMOP_TOO_SMALL      `tokens` has no room for all; *value is how many tokens there are
 */
uint32_t bisquemop_tokens(const uint8_t *text, uint64_t len, uint32_t *tokens, uint64_t tokens_len, uint64_t *value);

/*
 * Lays the `len` bytes at `text` by the thirteen settings, and writes eleven numbers (enum bisquemop_line_column) for
 * each line to `table`, which has `table_len` numbers. One line more than the text has bytes, 11 * (len + 1) numbers,
 * is surely enough. There is always a line, though the text be empty. Numbers past the last line written keep what they
 * held. The numbers do not depend on the spacings, the heights, the top and the vertical alignment. Returns
 *   BISQUEMOP_OK                    done; *value is how many lines were written
 *   BISQUEMOP_SETTING_OUT_OF_RANGE  as by bisquemop_check_settings; *value is 0
 *   BISQUEMOP_UNKNOWN_ALIGNMENT     as by bisquemop_check_settings; *value is the number that was given
 *   BISQUEMOP_TEXT_TOO_LONG         as by bisquemop_check_text; *value is `len`
 *   BISQUEMOP_NOT_UTF8              as by bisquemop_check_text; *value is the length of its longest valid prefix
 *   BISQUEMOP_TOO_SMALL             `table` has no room for all; *value is how many lines there are
 */
uint32_t bisquemop_layout(uint32_t glyph, uint32_t width, uint32_t tab, uint32_t spacing, uint32_t paragraph,
                          uint32_t base, uint32_t height, int32_t top, uint32_t alignment, uint32_t vertical,
                          uint32_t leading, uint32_t trailing, uint32_t wrap, const uint8_t *text, uint64_t len,
                          uint32_t *table, uint64_t table_len, uint64_t *value);

/* The same for settings in a struct, which must not be NULL. */
static inline uint32_t bisquemop_settings_layout(const struct bisquemop_settings *s, const uint8_t *text, uint64_t len,
                                                 uint32_t *table, uint64_t table_len, uint64_t *value)
{
    return bisquemop_layout(s->glyph, s->width, s->tab, s->spacing, s->paragraph, s->base, s->height, s->top,
                            s->alignment, s->vertical, s->leading, s->trailing, s->wrap, text, len, table, table_len,
                            value);
}

/*
 * The same as bisquemop_layout, and writes six numbers (enum bisquemop_event_column) for each event to `events`, which
 * has `events_len` numbers: what is drawn, line after line and from left to right. One event for each byte of the text,
 * 6 * len numbers, is surely enough. Numbers past the last event written keep what they held. *event_count, a uint64_t
 * of the caller's that must not be NULL, is how many events were written, and keeps what it held if the call refuses.
 * Returns
 *   BISQUEMOP_OK                    done; *value is how many lines were written
 *   BISQUEMOP_SETTING_OUT_OF_RANGE  as by bisquemop_check_settings; *value is 0
 *   BISQUEMOP_UNKNOWN_ALIGNMENT     as by bisquemop_check_settings; *value is the number that was given
 *   BISQUEMOP_TEXT_TOO_LONG         as by bisquemop_check_text; *value is `len`
 *   BISQUEMOP_NOT_UTF8              as by bisquemop_check_text; *value is the length of its longest valid prefix
 *   BISQUEMOP_TOO_SMALL             `table` has no room for all lines; *value is how many there are. Or it has, and
 *                                   `events` has no room for all events; *value is how many of these there are
 */
uint32_t bisquemop_layout_events(uint32_t glyph, uint32_t width, uint32_t tab, uint32_t spacing, uint32_t paragraph,
                                 uint32_t base, uint32_t height, int32_t top, uint32_t alignment, uint32_t vertical,
                                 uint32_t leading, uint32_t trailing, uint32_t wrap, const uint8_t *text, uint64_t len,
                                 uint32_t *table, uint64_t table_len, uint32_t *events, uint64_t events_len,
                                 uint64_t *value, uint64_t *event_count);

/* The same for settings in a struct, which must not be NULL. */
static inline uint32_t bisquemop_settings_layout_events(const struct bisquemop_settings *s, const uint8_t *text,
                                                        uint64_t len, uint32_t *table, uint64_t table_len,
                                                        uint32_t *events, uint64_t events_len, uint64_t *value,
                                                        uint64_t *event_count)
{
    return bisquemop_layout_events(s->glyph, s->width, s->tab, s->spacing, s->paragraph, s->base, s->height, s->top,
                                   s->alignment, s->vertical, s->leading, s->trailing, s->wrap, text, len, table,
                                   table_len, events, events_len, value, event_count);
}

/*
 * A text can be laid line by line, too, by a program that shows a line while the next is laid: bisquemop_open says
 * where the first line starts, which has no rest, and bisquemop_one_line lays a line and says where the next one starts
 * and with what rest. Lines so laid until one ends by the end of the text are those that bisquemop_layout writes, and
 * who stops after k lines has the first k of them. The caller alone keeps what is needed between the calls.
 */

/*
 * Checks the thirteen settings and the `len` bytes at `text`, and says where the first line starts. Returns
 *   BISQUEMOP_OK                    done; *value is the first start, 0
 *   BISQUEMOP_SETTING_OUT_OF_RANGE  as by bisquemop_check_settings; *value is 0
 *   BISQUEMOP_UNKNOWN_ALIGNMENT     as by bisquemop_check_settings; *value is the number that was given
 *   BISQUEMOP_TEXT_TOO_LONG         as by bisquemop_check_text; *value is `len`
 *   BISQUEMOP_NOT_UTF8              as by bisquemop_check_text; *value is the length of its longest valid prefix
 */
uint32_t bisquemop_open(uint32_t glyph, uint32_t width, uint32_t tab, uint32_t spacing, uint32_t paragraph,
                        uint32_t base, uint32_t height, int32_t top, uint32_t alignment, uint32_t vertical,
                        uint32_t leading, uint32_t trailing, uint32_t wrap, const uint8_t *text, uint64_t len,
                        uint64_t *value);

/* The same for settings in a struct, which must not be NULL. */
static inline uint32_t bisquemop_settings_open(const struct bisquemop_settings *s, const uint8_t *text, uint64_t len,
                                               uint64_t *value)
{
    return bisquemop_open(s->glyph, s->width, s->tab, s->spacing, s->paragraph, s->base, s->height, s->top,
                          s->alignment, s->vertical, s->leading, s->trailing, s->wrap, text, len, value);
}

/*
 * Lays one line of the `len` bytes at `text`, all of the text: the line that starts at the offset `start`, with a rest
 * that ends at `rest_end` and counts `rest_count` spaces, or with none if these two are 0. It writes the line's eleven
 * numbers (enum bisquemop_line_column) to the front of `entry`, which has `entry_len` numbers; those past them keep
 * what they held. The line is the first that the text from `start` on has after that rest. Any place between two
 * characters is a start, though no line of the text's layout starts there; so are 0 and `len`. *next_rest_end and
 * *next_rest_count, two uint32_t of the caller's that must not be NULL, are the rest of the next line, 0 and 0 if it
 * has none, and keep what they held if the call refuses. Returns
 *   BISQUEMOP_OK                    done; *value is where the next line starts. After a line that ends by the end of
 *                                   the text there is no next line, and it is `len`
 *   BISQUEMOP_SETTING_OUT_OF_RANGE  as by bisquemop_check_settings; *value is 0
 *   BISQUEMOP_UNKNOWN_ALIGNMENT     as by bisquemop_check_settings; *value is the number that was given
 *   BISQUEMOP_TEXT_TOO_LONG         as by bisquemop_check_text; *value is `len`
 *   BISQUEMOP_NOT_UTF8              as by bisquemop_check_text; *value is the length of its longest valid prefix
 *   BISQUEMOP_BAD_LINE              `start` is above `len`, or lies within a character; or `rest_end` and `rest_count`
 *                                   are not both 0, and `rest_end` is not above `start`, is above `len`, or lies within
 *                                   a character, or `rest_count` is above the characters from `start` up to there;
 *                                   *value is 0
 *   BISQUEMOP_TOO_SMALL             `entry` has fewer than eleven numbers; *value is 1
 */
uint32_t bisquemop_one_line(uint32_t glyph, uint32_t width, uint32_t tab, uint32_t spacing, uint32_t paragraph,
                            uint32_t base, uint32_t height, int32_t top, uint32_t alignment, uint32_t vertical,
                            uint32_t leading, uint32_t trailing, uint32_t wrap, const uint8_t *text, uint64_t len,
                            uint32_t start, uint32_t rest_end, uint32_t rest_count, uint32_t *entry, uint64_t entry_len,
                            uint64_t *value, uint32_t *next_rest_end, uint32_t *next_rest_count);

/* The same for settings in a struct, which must not be NULL. */
static inline uint32_t bisquemop_settings_one_line(const struct bisquemop_settings *s, const uint8_t *text,
                                                   uint64_t len, uint32_t start, uint32_t rest_end, uint32_t rest_count,
                                                   uint32_t *entry, uint64_t entry_len, uint64_t *value,
                                                   uint32_t *next_rest_end, uint32_t *next_rest_count)
{
    return bisquemop_one_line(s->glyph, s->width, s->tab, s->spacing, s->paragraph, s->base, s->height, s->top,
                              s->alignment, s->vertical, s->leading, s->trailing, s->wrap, text, len, start, rest_end,
                              rest_count, entry, entry_len, value, next_rest_end, next_rest_count);
}

/*
 * The next calls are lent a table that a layout wrote, and the caller says how many lines it holds. What they check is
 * this: the last reach, which is the text's length plus 1, is 1 to 65,536; starts rise strictly from 0, and none passes
 * the text's length or the reach before it; end types are known, and the last line and no other ends by the end of the
 * text; no reach passes the last one; a rest ends above its line's start, and at most at the text's length and the
 * reach before it, and counts at most its bytes; line 0 has no rest; the characters before a line rise strictly from 0,
 * and are at most its start. They look at no line past the count.
 */

/*
 * Says which line is the first that an edit affects. The `table_len` numbers at `table` hold the `lines` lines of the
 * old text, whose length the last line's reach says. The edit replaces the old text's bytes from `a` up to `b` by
 * `inserted` new ones. No line before the one answered changes, and it may stand before the line that holds `a`: it is
 * the first whose reach is above `a`. The table is only read. Returns
 *   BISQUEMOP_OK             done; *value is the line, counted from 0
 *   BISQUEMOP_TEXT_TOO_LONG  the edited text has more than 65,535 bytes; *value is its length
 *   BISQUEMOP_BAD_LINE       a line breaks what is said above; *value is the first that does, and 0 too if `lines` is 0
 *                            or more than `table` has room for, or if the last reach is not 1 to 65,536
 *   BISQUEMOP_BAD_EDIT       `a` is above `b`, or `b` above the old text's length; *value is 0
 * An edited text that is too long is looked for only where the table and the edit are good, so 5 and 6 can be returned
 * whatever `inserted` is.
 */
uint32_t bisquemop_first_affected(const uint32_t *table, uint64_t table_len, uint64_t lines, uint32_t a, uint32_t b,
                                  uint32_t inserted, uint64_t *value);

/*
 * Lays a text again after an edit. The `table_len` numbers at `table` hold the `lines` lines of the old text, and the
 * edit has replaced the old text's bytes from `a` up to `b` by `inserted` new ones. Lent is a part of the new text, the
 * `part_len` bytes at `part`: all from the start on that the table has for the first affected line, the line that
 * bisquemop_first_affected answers. If the table is what bisquemop_layout wrote for the old text by these settings (the
 * spacings, the heights, the top and the vertical alignment may differ), it is then exactly what bisquemop_layout would
 * write for the whole new text.
 *
 * Lines before the first affected one are not touched. From there on lines are laid until one is to start, and with the
 * same rest, where a line of the old text that began at `b` or later has come to stand: the old lines from that one on
 * follow, with their offsets and their counts of characters moved. Numbers past the new last line keep what they held.
 * *laid, a uint64_t of the caller's that must not be NULL, is how many lines were laid, and keeps what it held if the
 * call refuses. Returns
 *   BISQUEMOP_OK                    done; *value is how many lines the table now holds
 *   BISQUEMOP_SETTING_OUT_OF_RANGE  as by bisquemop_check_settings; *value is 0
 *   BISQUEMOP_UNKNOWN_ALIGNMENT     as by bisquemop_check_settings; *value is the number that was given
 *   BISQUEMOP_TEXT_TOO_LONG         `part` has more than 65,535 bytes; *value is `part_len`. Or the edited text has, as
 *                                   by bisquemop_first_affected; *value is its length
 *   BISQUEMOP_NOT_UTF8              `part` is not UTF-8; *value is the length of its longest valid prefix
 *   BISQUEMOP_BAD_LINE              as by bisquemop_first_affected; *value is the first bad line. Or the first affected
 *                                   line has a rest that ends within a character of `part` or past it, or that counts
 *                                   more than the characters up to there; *value is that line
 *   BISQUEMOP_BAD_EDIT              `a` is above `b`, or `b` above the old text's length; or `part_len` is not the new
 *                                   text's length less the first affected line's start; or `a`, or `a` plus `inserted`,
 *                                   lies within a character of the new text; *value is 0
 *   BISQUEMOP_TOO_SMALL             `table` has no room for all; *value is how many lines there are
 */
uint32_t bisquemop_lay_again(uint32_t glyph, uint32_t width, uint32_t tab, uint32_t spacing, uint32_t paragraph,
                             uint32_t base, uint32_t height, int32_t top, uint32_t alignment, uint32_t vertical,
                             uint32_t leading, uint32_t trailing, uint32_t wrap, const uint8_t *part, uint64_t part_len,
                             uint32_t *table, uint64_t table_len, uint64_t lines, uint32_t a, uint32_t b,
                             uint32_t inserted, uint64_t *value, uint64_t *laid);

/* The same for settings in a struct, which must not be NULL. */
static inline uint32_t bisquemop_settings_lay_again(const struct bisquemop_settings *s, const uint8_t *part,
                                                    uint64_t part_len, uint32_t *table, uint64_t table_len,
                                                    uint64_t lines, uint32_t a, uint32_t b, uint32_t inserted,
                                                    uint64_t *value, uint64_t *laid)
{
    return bisquemop_lay_again(s->glyph, s->width, s->tab, s->spacing, s->paragraph, s->base, s->height, s->top,
                               s->alignment, s->vertical, s->leading, s->trailing, s->wrap, part, part_len, table,
                               table_len, lines, a, b, inserted, value, laid);
}

/*
 * The height of a text whose `lines` lines the `table_len` numbers at `table` hold: `base`, plus `spacing` for each
 * line that ends by a new line or is full, plus `paragraph` for each that ends by a new line. A full line before a last
 * line that starts at the text's end adds nothing. The table is only read. Returns
 *   BISQUEMOP_OK                    done; *value is the height in pixels, which may be more than the box's
 *   BISQUEMOP_SETTING_OUT_OF_RANGE  as by bisquemop_check_settings; *value is 0
 *   BISQUEMOP_UNKNOWN_ALIGNMENT     as by bisquemop_check_settings; *value is the number that was given
 *   BISQUEMOP_BAD_LINE              as by bisquemop_first_affected; *value is the first bad line
 */
uint32_t bisquemop_height(uint32_t glyph, uint32_t width, uint32_t tab, uint32_t spacing, uint32_t paragraph,
                          uint32_t base, uint32_t height, int32_t top, uint32_t alignment, uint32_t vertical,
                          uint32_t leading, uint32_t trailing, uint32_t wrap, const uint32_t *table, uint64_t table_len,
                          uint64_t lines, uint64_t *value);

/* The same for settings in a struct, which must not be NULL. */
static inline uint32_t bisquemop_settings_height(const struct bisquemop_settings *s, const uint32_t *table,
                                                 uint64_t table_len, uint64_t lines, uint64_t *value)
{
    return bisquemop_height(s->glyph, s->width, s->tab, s->spacing, s->paragraph, s->base, s->height, s->top,
                            s->alignment, s->vertical, s->leading, s->trailing, s->wrap, table, table_len, lines,
                            value);
}

/*
 * Where line `line`, counted from 0, of such a text stands, and whether it shows. Its y is `top`, plus the vertical
 * offset, plus what the lines before it add: each adds what bisquemop_height counts for it, but here a full line before
 * an empty last line adds `spacing` too, and after a carriage return the y is the same. The offset is 0 at the top; in
 * the middle it is half of what the box is higher than the text, toward zero; at the bottom it is all of that. It is
 * negative where the text is higher than the box. A line shows if its y is at least `top` and at most `top` plus
 * `height` less `base`. `y` points to an int32_t of the caller's, apart from all else. It must not be NULL. The table
 * is only read. Returns
 *   BISQUEMOP_OK                    done; *value is one of enum bisquemop_showing: 1 if the line shows, 0 if not, 2 if
 *                                   there is no such line. *y is the line's y; if there is no such line, it is not
 *                                   written
 *   BISQUEMOP_SETTING_OUT_OF_RANGE  as by bisquemop_check_settings; *value is 0
 *   BISQUEMOP_UNKNOWN_ALIGNMENT     as by bisquemop_check_settings; *value is the number that was given
 *   BISQUEMOP_BAD_LINE              as by bisquemop_first_affected; *value is the first bad line
 */
uint32_t bisquemop_line_y(uint32_t glyph, uint32_t width, uint32_t tab, uint32_t spacing, uint32_t paragraph,
                          uint32_t base, uint32_t height, int32_t top, uint32_t alignment, uint32_t vertical,
                          uint32_t leading, uint32_t trailing, uint32_t wrap, const uint32_t *table, uint64_t table_len,
                          uint64_t lines, uint64_t line, uint64_t *value, int32_t *y);

/* The same for settings in a struct, which must not be NULL. */
static inline uint32_t bisquemop_settings_line_y(const struct bisquemop_settings *s, const uint32_t *table,
                                                 uint64_t table_len, uint64_t lines, uint64_t line, uint64_t *value,
                                                 int32_t *y)
{
    return bisquemop_line_y(s->glyph, s->width, s->tab, s->spacing, s->paragraph, s->base, s->height, s->top,
                            s->alignment, s->vertical, s->leading, s->trailing, s->wrap, table, table_len, lines, line,
                            value, y);
}

/*
 * Writes the y of each of a text's `lines` lines, which the `table_len` numbers at `table` hold, to `index`, which has
 * `index_len` numbers: the y that bisquemop_line_y answers, line 0's first. No y is smaller than the one before it, and
 * lines joined by a carriage return share theirs. Numbers past the last line keep what they held. The table is only
 * read. Returns
 *   BISQUEMOP_OK                    done; *value is `lines`
 *   BISQUEMOP_SETTING_OUT_OF_RANGE  as by bisquemop_check_settings; *value is 0
 *   BISQUEMOP_UNKNOWN_ALIGNMENT     as by bisquemop_check_settings; *value is the number that was given
 *   BISQUEMOP_BAD_LINE              as by bisquemop_first_affected; *value is the first bad line
 *   BISQUEMOP_TOO_SMALL             `index` has no room for all; *value is `lines`
 */
uint32_t bisquemop_index(uint32_t glyph, uint32_t width, uint32_t tab, uint32_t spacing, uint32_t paragraph,
                         uint32_t base, uint32_t height, int32_t top, uint32_t alignment, uint32_t vertical,
                         uint32_t leading, uint32_t trailing, uint32_t wrap, const uint32_t *table, uint64_t table_len,
                         uint64_t lines, int32_t *index, uint64_t index_len, uint64_t *value);

/* The same for settings in a struct, which must not be NULL. */
static inline uint32_t bisquemop_settings_index(const struct bisquemop_settings *s, const uint32_t *table,
                                                uint64_t table_len, uint64_t lines, int32_t *index, uint64_t index_len,
                                                uint64_t *value)
{
    return bisquemop_index(s->glyph, s->width, s->tab, s->spacing, s->paragraph, s->base, s->height, s->top,
                           s->alignment, s->vertical, s->leading, s->trailing, s->wrap, table, table_len, lines, index,
                           index_len, value);
}

/*
 * Brings an index up to date after an edit. `table` and `lines` are those of the new text, as bisquemop_lay_again left
 * them; `first` is the first affected line, as bisquemop_first_affected answered it; `index` holds the ys of the old
 * text's lines, by these settings. It then holds exactly what bisquemop_index writes for the new table. With the text
 * at the top of its box, only the ys from line `first` on are written: where `first` is past the last line, none. In
 * the middle and at the bottom every line moves with the text's height, and all are written. Returns what
 * bisquemop_index returns: the room must be enough for the new lines.
 */
uint32_t bisquemop_index_again(uint32_t glyph, uint32_t width, uint32_t tab, uint32_t spacing, uint32_t paragraph,
                               uint32_t base, uint32_t height, int32_t top, uint32_t alignment, uint32_t vertical,
                               uint32_t leading, uint32_t trailing, uint32_t wrap, const uint32_t *table,
                               uint64_t table_len, uint64_t lines, uint64_t first, int32_t *index, uint64_t index_len,
                               uint64_t *value);

/* The same for settings in a struct, which must not be NULL. */
static inline uint32_t bisquemop_settings_index_again(const struct bisquemop_settings *s, const uint32_t *table,
                                                      uint64_t table_len, uint64_t lines, uint64_t first,
                                                      int32_t *index, uint64_t index_len, uint64_t *value)
{
    return bisquemop_index_again(s->glyph, s->width, s->tab, s->spacing, s->paragraph, s->base, s->height, s->top,
                                 s->alignment, s->vertical, s->leading, s->trailing, s->wrap, table, table_len, lines,
                                 first, index, index_len, value);
}

/*
 * Says which line is under `y`: the last whose y is at most that, of lines joined by a carriage return the last. The
 * `table_len` numbers at `table` hold a text's `lines` lines, and the `index_len` numbers at `index` their ys, as many
 * as there are lines. An index that bisquemop_index wrote for this table is never refused. Table and index are only
 * read. Returns
 *   BISQUEMOP_OK         done; *value is the line, counted from 0, or BISQUEMOP_NONE if `y` is above all lines
 *   BISQUEMOP_BAD_LINE   as by bisquemop_first_affected; *value is the first bad line
 *   BISQUEMOP_BAD_INDEX  `index_len` is not `lines`; *value is `index_len`. Or a y is smaller than the one before it;
 *                        *value is the first such line
 */
uint32_t bisquemop_find_line(const uint32_t *table, uint64_t table_len, uint64_t lines, const int32_t *index,
                             uint64_t index_len, int32_t y, uint64_t *value);

/*
 * Writes the thirteen settings and the `lines` lines of the table as a layout file to the `file_len` bytes at `file`,
 * which must have room for BISQUEMOP_FILE_BYTES(lines). The bytes are the same on every machine; docs/LAYOUT-FILE.md
 * has their form. The text's length in it is the one that the table says. Bytes past the file keep what they held. The
 * table is only read. Returns
 *   BISQUEMOP_OK                    done; *value is how many bytes were written
 *   BISQUEMOP_SETTING_OUT_OF_RANGE  as by bisquemop_check_settings; *value is 0
 *   BISQUEMOP_UNKNOWN_ALIGNMENT     as by bisquemop_check_settings; *value is the number that was given
 *   BISQUEMOP_BAD_LINE              as by bisquemop_first_affected; *value is the first bad line
 *   BISQUEMOP_TOO_SMALL             `file` has no room for all; *value is how many bytes there are
 */
uint32_t bisquemop_write_file(uint32_t glyph, uint32_t width, uint32_t tab, uint32_t spacing, uint32_t paragraph,
                              uint32_t base, uint32_t height, int32_t top, uint32_t alignment, uint32_t vertical,
                              uint32_t leading, uint32_t trailing, uint32_t wrap, const uint32_t *table,
                              uint64_t table_len, uint64_t lines, uint8_t *file, uint64_t file_len, uint64_t *value);

/* The same for settings in a struct, which must not be NULL. */
static inline uint32_t bisquemop_settings_write_file(const struct bisquemop_settings *s, const uint32_t *table,
                                                     uint64_t table_len, uint64_t lines, uint8_t *file,
                                                     uint64_t file_len, uint64_t *value)
{
    return bisquemop_write_file(s->glyph, s->width, s->tab, s->spacing, s->paragraph, s->base, s->height, s->top,
                                s->alignment, s->vertical, s->leading, s->trailing, s->wrap, table, table_len, lines,
                                file, file_len, value);
}

/*
 * Reads the `file_len` bytes at `file`, and hands out the settings as thirteen numbers, in the order of struct
 * bisquemop_settings and the top as 32 bits in two's complement, to `settings`, which has `settings_len` numbers; the
 * lines to `table`, which has `table_len`; and the text's length to *text_len. Numbers past those written keep what
 * they held. bisquemop_settings_from makes a struct of the settings. A file whose table is well formed is read though
 * its lines be of no layout: only who wrote it can know. `text_len` points to a uint64_t of the caller's, apart from
 * all else. It must not be NULL. Returns
 *   BISQUEMOP_OK                    done; *value is how many lines were written
 *   BISQUEMOP_BAD_FIELD             a field is cut short, out of order, unknown, of the wrong length, missing or after
 *                                   the end; *value is the offset of the first, and the file's length if one is missing
 *                                   there
 *   BISQUEMOP_OLD_ENTRY             such a field is a line, whole and in its place, of ten numbers, where lines have
 *                                   more; *value is its offset
 *   BISQUEMOP_SETTING_OUT_OF_RANGE  as by bisquemop_check_settings; *value is 0
 *   BISQUEMOP_UNKNOWN_ALIGNMENT     as by bisquemop_check_settings; *value is the number that the file has
 *   BISQUEMOP_RETIRED_SETTING       `trailing` is 1, which is retired; *value is 0. The settings are handed out, with a
 *                                   0 there, so that the text can be laid again. No line is
 *   BISQUEMOP_TEXT_TOO_LONG         the text's length is over 65,535; *value is that length
 *   BISQUEMOP_BAD_LINE              there is no line, the text's length is not the one that the lines say, or a line is
 *                                   bad as by bisquemop_first_affected; *value is the first bad line, 0 of the first two
 *   BISQUEMOP_TOO_SMALL             `settings` or `table` has no room; *value is 13, or how many lines there are. Where
 *                                   settings would go with BISQUEMOP_RETIRED_SETTING, this comes in its place
 */
uint32_t bisquemop_read_file(const uint8_t *file, uint64_t file_len, uint32_t *settings, uint64_t settings_len,
                             uint32_t *table, uint64_t table_len, uint64_t *value, uint64_t *text_len);

/* A struct of the thirteen numbers that were handed out. The top is put together without a cast, since one of
   C would be a warning in C++. */
static inline struct bisquemop_settings bisquemop_settings_from(const uint32_t *numbers)
{
    struct bisquemop_settings s;
    int32_t low_bits = numbers[7] & INT32_MAX; /* of the top, all but the highest */
    s.glyph = numbers[0];
    s.width = numbers[1];
    s.tab = numbers[2];
    s.spacing = numbers[3];
    s.paragraph = numbers[4];
    s.base = numbers[5];
    s.height = numbers[6];
    s.top = numbers[7] <= INT32_MAX ? low_bits : low_bits - INT32_MAX - 1;
    s.alignment = numbers[8];
    s.vertical = numbers[9];
    s.leading = numbers[10];
    s.trailing = numbers[11];
    s.wrap = numbers[12];
    return s;
}

/*
 * Chooses between a long text and a short one for a place that has `h` lines. If the layout of the `long_len` bytes at
 * `long_text` has at most `h` lines, the choice is all of it. Otherwise it is the beginning of the `short_len` bytes at
 * `short_text` that its first `h` lines take, which is all of it if it has no more lines. The choice is a part of the
 * text that it comes from: its first *value bytes. *which, a uint32_t of the caller's, is one of enum bisquemop_which,
 * and *left_out, a uint64_t of the caller's, is how many characters of that text come after the part, 0 for the long
 * text. Neither may be NULL, and both keep what they held if the call refuses. The short text is checked in any case.
 * No table is needed, and of neither text more than `h` lines are laid. Returns
 *   BISQUEMOP_OK                    done; *value is how many bytes the part has
 *   BISQUEMOP_SETTING_OUT_OF_RANGE  `h` is 0, or as by bisquemop_check_settings; *value is 0
 *   BISQUEMOP_UNKNOWN_ALIGNMENT     as by bisquemop_check_settings; *value is the number that was given
 *   BISQUEMOP_TEXT_TOO_LONG         as by bisquemop_check_text; *value is that text's length. The long text is looked
 *                                   at first, for this and for the next; then the short one
 *   BISQUEMOP_NOT_UTF8              as by bisquemop_check_text; *value is the length of its longest valid prefix
 */
uint32_t bisquemop_choose(uint32_t glyph, uint32_t width, uint32_t tab, uint32_t spacing, uint32_t paragraph,
                          uint32_t base, uint32_t height, int32_t top, uint32_t alignment, uint32_t vertical,
                          uint32_t leading, uint32_t trailing, uint32_t wrap, const uint8_t *long_text,
                          uint64_t long_len, const uint8_t *short_text, uint64_t short_len, uint32_t h, uint64_t *value,
                          uint32_t *which, uint64_t *left_out);

/* The same for settings in a struct, which must not be NULL. */
static inline uint32_t bisquemop_settings_choose(const struct bisquemop_settings *s, const uint8_t *long_text,
                                                 uint64_t long_len, const uint8_t *short_text, uint64_t short_len,
                                                 uint32_t h, uint64_t *value, uint32_t *which, uint64_t *left_out)
{
    return bisquemop_choose(s->glyph, s->width, s->tab, s->spacing, s->paragraph, s->base, s->height, s->top,
                            s->alignment, s->vertical, s->leading, s->trailing, s->wrap, long_text, long_len,
                            short_text, short_len, h, value, which, left_out);
}

/*
 * The same as bisquemop_layout, and writes three numbers (enum bisquemop_page_column) for each page of `h` lines to
 * `pages`, which has `pages_len` numbers. The last page has 1 to `h` lines. Pages are cuts of the whole text's layout:
 * their stretches follow one another and cover the text, and a page's lines are those of the table, whose first may
 * start with a rest. One page for each line is surely enough, and (lines + h - 1) / h are needed. Numbers past the last
 * page written keep what they held. *page_count, a uint64_t of the caller's that must not be NULL, is how many pages
 * were written, and keeps what it held if the call refuses. Returns
 *   BISQUEMOP_OK                    done; *value is how many lines were written
 *   BISQUEMOP_SETTING_OUT_OF_RANGE  `h` is 0, or as by bisquemop_check_settings; *value is 0
 *   BISQUEMOP_UNKNOWN_ALIGNMENT     as by bisquemop_check_settings; *value is the number that was given
 *   BISQUEMOP_TEXT_TOO_LONG         as by bisquemop_check_text; *value is `len`
 *   BISQUEMOP_NOT_UTF8              as by bisquemop_check_text; *value is the length of its longest valid prefix
 *   BISQUEMOP_TOO_SMALL             `table` has no room for all lines; *value is how many there are. Or it has, and
 *                                   `pages` has no room for all pages; *value is how many of these there are
 */
uint32_t bisquemop_pages(uint32_t glyph, uint32_t width, uint32_t tab, uint32_t spacing, uint32_t paragraph,
                         uint32_t base, uint32_t height, int32_t top, uint32_t alignment, uint32_t vertical,
                         uint32_t leading, uint32_t trailing, uint32_t wrap, const uint8_t *text, uint64_t len,
                         uint32_t h, uint32_t *table, uint64_t table_len, uint32_t *pages, uint64_t pages_len,
                         uint64_t *value, uint64_t *page_count);

/* The same for settings in a struct, which must not be NULL. */
static inline uint32_t bisquemop_settings_pages(const struct bisquemop_settings *s, const uint8_t *text, uint64_t len,
                                                uint32_t h, uint32_t *table, uint64_t table_len, uint32_t *pages,
                                                uint64_t pages_len, uint64_t *value, uint64_t *page_count)
{
    return bisquemop_pages(s->glyph, s->width, s->tab, s->spacing, s->paragraph, s->base, s->height, s->top,
                           s->alignment, s->vertical, s->leading, s->trailing, s->wrap, text, len, h, table, table_len,
                           pages, pages_len, value, page_count);
}

/*
 * Brings a list of pages up to date after an edit. `table` and `lines` are those of the new text, as
 * bisquemop_lay_again left them; `first` is the first affected line, as bisquemop_first_affected answered it; `pages`
 * holds the pages of the old text, by the same `h`. It then holds exactly what bisquemop_pages lists for the new text.
 * Only the pages from the one that holds line `first` on are written: where `first` is past the last line, none. With 0
 * for `first` it lists the pages of any table. The table is only read. Returns
 *   BISQUEMOP_OK                    done; *value is how many pages there are now
 *   BISQUEMOP_SETTING_OUT_OF_RANGE  `h` is 0; *value is 0
 *   BISQUEMOP_BAD_LINE              as by bisquemop_first_affected; *value is the first bad line
 *   BISQUEMOP_TOO_SMALL             `pages` has no room for all; *value is how many pages there are
 */
uint32_t bisquemop_pages_again(const uint32_t *table, uint64_t table_len, uint64_t lines, uint32_t h, uint64_t first,
                               uint32_t *pages, uint64_t pages_len, uint64_t *value);

/*
 * Says whether the `len` bytes at `text`, laid by the thirteen settings, have at most `h` lines and no line drops a
 * character. No table is needed: at most `h` lines are laid, and none after the first that drops something. Returns
 *   BISQUEMOP_OK                    done; *value is 1 if both are so, else 0
 *   BISQUEMOP_SETTING_OUT_OF_RANGE  `h` is 0, or as by bisquemop_check_settings; *value is 0
 *   BISQUEMOP_UNKNOWN_ALIGNMENT     as by bisquemop_check_settings; *value is the number that was given
 *   BISQUEMOP_TEXT_TOO_LONG         as by bisquemop_check_text; *value is `len`
 *   BISQUEMOP_NOT_UTF8              as by bisquemop_check_text; *value is the length of its longest valid prefix
 */
uint32_t bisquemop_columns_fit(uint32_t glyph, uint32_t width, uint32_t tab, uint32_t spacing, uint32_t paragraph,
                               uint32_t base, uint32_t height, int32_t top, uint32_t alignment, uint32_t vertical,
                               uint32_t leading, uint32_t trailing, uint32_t wrap, const uint8_t *text, uint64_t len,
                               uint32_t h, uint64_t *value);

/* The same for settings in a struct, which must not be NULL. */
static inline uint32_t bisquemop_settings_columns_fit(const struct bisquemop_settings *s, const uint8_t *text,
                                                      uint64_t len, uint32_t h, uint64_t *value)
{
    return bisquemop_columns_fit(s->glyph, s->width, s->tab, s->spacing, s->paragraph, s->base, s->height, s->top,
                                 s->alignment, s->vertical, s->leading, s->trailing, s->wrap, text, len, h, value);
}

/*
 * Proposes a width for the box: the smallest from 0 to 4,096 by which bisquemop_columns_fit says yes, the other
 * settings being these. A wider box may have more lines than a narrower one, so it is not said that all wider ones are
 * good too. `width` is checked as any setting, and not used. Returns
 *   BISQUEMOP_OK                    done; *value is that width, or BISQUEMOP_NONE if there is none
 * and else what bisquemop_columns_fit returns.
 */
uint32_t bisquemop_columns_plan(uint32_t glyph, uint32_t width, uint32_t tab, uint32_t spacing, uint32_t paragraph,
                                uint32_t base, uint32_t height, int32_t top, uint32_t alignment, uint32_t vertical,
                                uint32_t leading, uint32_t trailing, uint32_t wrap, const uint8_t *text, uint64_t len,
                                uint32_t h, uint64_t *value);

/* The same for settings in a struct, which must not be NULL. */
static inline uint32_t bisquemop_settings_columns_plan(const struct bisquemop_settings *s, const uint8_t *text,
                                                       uint64_t len, uint32_t h, uint64_t *value)
{
    return bisquemop_columns_plan(s->glyph, s->width, s->tab, s->spacing, s->paragraph, s->base, s->height, s->top,
                                  s->alignment, s->vertical, s->leading, s->trailing, s->wrap, text, len, h, value);
}

#ifdef __cplusplus
}
#endif

#endif
