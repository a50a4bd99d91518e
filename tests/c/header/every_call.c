/*
 * Uses every call of the header, with the struct and with thirteen numbers. It is only compiled, as C99 and as C++17,
 * so it keeps to what both have.
 */
#include "bisquemop.h"
#include "bisquemop.h" /* a second time does no harm */

/* What an app lends. */
struct lent {
    struct bisquemop_settings settings;
    const uint8_t *text;
    uint64_t len;
    uint32_t *tokens;
    uint32_t *table;
    uint64_t table_len;
    uint32_t *events;
    uint8_t *file;
    uint64_t file_len;
    uint32_t numbers[BISQUEMOP_SETTINGS_NUMBERS];
    uint64_t lines, value, count;
    uint32_t rest_end, rest_count;
    int32_t y, *index;
    const uint8_t *short_text;
    uint64_t short_len;
    uint32_t which, *pages;
    uint64_t pages_len;
};

uint32_t checks(struct lent *l);
uint32_t fresh(struct lent *l);
uint32_t one_by_one(struct lent *l);
uint32_t again(struct lent *l, uint32_t a, uint32_t b, uint32_t inserted);
uint32_t heights(struct lent *l);
uint32_t index_of(struct lent *l);
uint32_t files(struct lent *l);
uint32_t choice(struct lent *l, uint32_t h);
uint32_t pages_of(struct lent *l, uint32_t h);
uint32_t columns(struct lent *l, uint32_t h);
uint32_t by_numbers(struct lent *l);

uint32_t checks(struct lent *l)
{
    uint32_t refused = bisquemop_settings_check(&l->settings, &l->value);
    if (refused == BISQUEMOP_OK) {
        refused = bisquemop_check_text(l->text, l->len, &l->value);
    }
    return refused;
}

uint32_t fresh(struct lent *l)
{
    uint32_t refused = bisquemop_tokens(l->text, l->len, l->tokens, BISQUEMOP_TOKEN_NUMBERS * l->len, &l->value);
    if (refused == BISQUEMOP_OK) {
        refused = bisquemop_settings_layout(&l->settings, l->text, l->len, l->table, l->table_len, &l->lines);
    }
    if (refused == BISQUEMOP_OK) {
        refused = bisquemop_settings_layout_events(&l->settings, l->text, l->len, l->table, l->table_len, l->events,
                                                   BISQUEMOP_EVENT_NUMBERS * l->len, &l->lines, &l->count);
    }
    return refused;
}

/* The first line, and where the next one starts. */
uint32_t one_by_one(struct lent *l)
{
    uint32_t refused = bisquemop_settings_open(&l->settings, l->text, l->len, &l->value);
    if (refused == BISQUEMOP_OK) {
        refused = bisquemop_settings_one_line(&l->settings, l->text, l->len, (uint32_t)l->value, 0, 0, l->table,
                                              BISQUEMOP_LINE_NUMBERS, &l->value, &l->rest_end, &l->rest_count);
    }
    return refused;
}

/* `text` is the new text. */
uint32_t again(struct lent *l, uint32_t a, uint32_t b, uint32_t inserted)
{
    uint32_t start, refused;
    refused = bisquemop_first_affected(l->table, l->table_len, l->lines, a, b, inserted, &l->value);
    if (refused != BISQUEMOP_OK) {
        return refused;
    }
    start = l->table[BISQUEMOP_LINE_NUMBERS * l->value + BISQUEMOP_LINE_START];
    return bisquemop_settings_lay_again(&l->settings, l->text + start, l->len - start, l->table, l->table_len, l->lines,
                                        a, b, inserted, &l->lines, &l->count);
}

uint32_t heights(struct lent *l)
{
    uint32_t refused = bisquemop_settings_height(&l->settings, l->table, l->table_len, l->lines, &l->value);
    if (refused == BISQUEMOP_OK) {
        refused = bisquemop_settings_line_y(&l->settings, l->table, l->table_len, l->lines, 0, &l->value, &l->y);
    }
    return refused;
}

/* `lines` ys are lent. */
uint32_t index_of(struct lent *l)
{
    uint32_t refused =
        bisquemop_settings_index(&l->settings, l->table, l->table_len, l->lines, l->index, l->lines, &l->value);
    if (refused == BISQUEMOP_OK) {
        refused = bisquemop_settings_index_again(&l->settings, l->table, l->table_len, l->lines, 0, l->index, l->lines,
                                                 &l->value);
    }
    if (refused == BISQUEMOP_OK) {
        refused = bisquemop_find_line(l->table, l->table_len, l->lines, l->index, l->lines, l->y, &l->value);
    }
    if (refused == BISQUEMOP_OK && l->value == BISQUEMOP_NONE) {
        refused = BISQUEMOP_BAD_INDEX;
    }
    return refused;
}

uint32_t files(struct lent *l)
{
    uint32_t refused =
        bisquemop_settings_write_file(&l->settings, l->table, l->table_len, l->lines, l->file, l->file_len, &l->value);
    if (refused == BISQUEMOP_OK) {
        refused = bisquemop_read_file(l->file, l->value, l->numbers, BISQUEMOP_SETTINGS_NUMBERS, l->table, l->table_len,
                                      &l->lines, &l->count);
    }
    if (refused == BISQUEMOP_OK || refused == BISQUEMOP_RETIRED_SETTING) {
        l->settings = bisquemop_settings_from(l->numbers);
    }
    return refused;
}

uint32_t choice(struct lent *l, uint32_t h)
{
    uint32_t refused = bisquemop_settings_choose(&l->settings, l->text, l->len, l->short_text, l->short_len, h,
                                                 &l->value, &l->which, &l->count);
    if (refused == BISQUEMOP_OK && l->which == BISQUEMOP_SHORT_TEXT) {
        l->text = l->short_text;
    }
    l->len = refused == BISQUEMOP_OK ? l->value : l->len;
    return refused;
}

/* The pages, and where the last one starts. */
uint32_t pages_of(struct lent *l, uint32_t h)
{
    uint32_t refused = bisquemop_settings_pages(&l->settings, l->text, l->len, h, l->table, l->table_len, l->pages,
                                                l->pages_len, &l->lines, &l->count);
    if (refused == BISQUEMOP_OK) {
        refused = bisquemop_pages_again(l->table, l->table_len, l->lines, h, 0, l->pages, l->pages_len, &l->count);
    }
    if (refused == BISQUEMOP_OK) {
        l->value = l->pages[BISQUEMOP_PAGE_NUMBERS * (l->count - 1) + BISQUEMOP_PAGE_START];
    }
    return refused;
}

/* The width that is proposed, if there is one. */
uint32_t columns(struct lent *l, uint32_t h)
{
    uint32_t refused = bisquemop_settings_columns_fit(&l->settings, l->text, l->len, h, &l->value);
    if (refused == BISQUEMOP_OK && l->value == 0) {
        refused = bisquemop_settings_columns_plan(&l->settings, l->text, l->len, h, &l->value);
        l->settings.width = l->value == BISQUEMOP_NONE ? l->settings.width : (uint32_t)l->value;
    }
    return refused;
}

/* The same calls, without the struct. */
#define SETTINGS 6, 30, 24, 10, 0, 8, 48, -2, BISQUEMOP_ALIGN_LEFT, BISQUEMOP_VERTICAL_TOP, 1, 0, BISQUEMOP_WRAP_WAIT

uint32_t by_numbers(struct lent *l)
{
    uint32_t refused = bisquemop_check_settings(SETTINGS, &l->value);
    refused |= bisquemop_layout(SETTINGS, l->text, l->len, l->table, l->table_len, &l->lines);
    refused |= bisquemop_layout_events(SETTINGS, l->text, l->len, l->table, l->table_len, l->events,
                                       BISQUEMOP_EVENT_NUMBERS * l->len, &l->lines, &l->count);
    refused |= bisquemop_open(SETTINGS, l->text, l->len, &l->value);
    refused |= bisquemop_one_line(SETTINGS, l->text, l->len, 0, 0, 0, l->table, l->table_len, &l->value, &l->rest_end,
                                  &l->rest_count);
    refused |=
        bisquemop_lay_again(SETTINGS, l->text, l->len, l->table, l->table_len, l->lines, 0, 0, 0, &l->value, &l->count);
    refused |= bisquemop_height(SETTINGS, l->table, l->table_len, l->lines, &l->value);
    refused |= bisquemop_line_y(SETTINGS, l->table, l->table_len, l->lines, 0, &l->value, &l->y);
    refused |= bisquemop_index(SETTINGS, l->table, l->table_len, l->lines, l->index, l->lines, &l->value);
    refused |= bisquemop_index_again(SETTINGS, l->table, l->table_len, l->lines, 0, l->index, l->lines, &l->value);
    refused |= bisquemop_write_file(SETTINGS, l->table, l->table_len, l->lines, l->file, l->file_len, &l->value);
    refused |=
        bisquemop_choose(SETTINGS, l->text, l->len, l->short_text, l->short_len, 3, &l->value, &l->which, &l->count);
    refused |= bisquemop_pages(SETTINGS, l->text, l->len, 3, l->table, l->table_len, l->pages, l->pages_len, &l->value,
                               &l->count);
    refused |= bisquemop_columns_fit(SETTINGS, l->text, l->len, 3, &l->value);
    refused |= bisquemop_columns_plan(SETTINGS, l->text, l->len, 3, &l->value);
    return refused;
}
