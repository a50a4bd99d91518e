/* A laid text: its lines, what is drawn in them, and what is lost. */
#include "laid.h"

#include "refusals.h"

static const uint64_t table_len = BISQUEMOP_LINE_NUMBERS * BISQUEMOP_LINES_MAX;
static const uint64_t events_len = BISQUEMOP_EVENT_NUMBERS * BISQUEMOP_EVENTS_MAX;

static void find_ys(struct laid *laid)
{
    uint64_t count;
    if (laid->wanted->height_given) {
        uint32_t refused = bisquemop_settings_index(&laid->wanted->settings, laid->table, table_len, laid->lines,
                                                    laid->ys, BISQUEMOP_LINES_MAX, &count);
        must(refused, count);
    }
}

void lay(struct laid *laid, const struct text *text, const struct wanted *wanted)
{
    uint32_t refused;
    laid->text = text;
    laid->wanted = wanted;
    refused = bisquemop_settings_layout_events(&wanted->settings, text->bytes, text->len, laid->table, table_len,
                                               laid->events, events_len, &laid->lines, &laid->event_count);
    must(refused, laid->lines);
    find_ys(laid);
}

void lay_lines(struct laid *laid, const struct text *text, const struct wanted *wanted)
{
    uint32_t refused;
    laid->text = text;
    laid->wanted = wanted;
    laid->event_count = 0;
    refused =
        bisquemop_settings_layout(&wanted->settings, text->bytes, text->len, laid->table, table_len, &laid->lines);
    must(refused, laid->lines);
    find_ys(laid);
}

uint32_t of_line(const struct laid *laid, uint64_t line, enum bisquemop_line_column column)
{
    return laid->table[BISQUEMOP_LINE_NUMBERS * line + column];
}

uint32_t of_event(const struct laid *laid, uint64_t event, enum bisquemop_event_column column)
{
    return laid->events[BISQUEMOP_EVENT_NUMBERS * event + column];
}

uint64_t line_end(const struct laid *laid, uint64_t line)
{
    return line + 1 < laid->lines ? of_line(laid, line + 1, BISQUEMOP_LINE_START) : laid->text->len;
}

struct stretch dropped_by(const struct laid *laid, uint64_t line)
{
    const uint8_t *end = laid->text->bytes + line_end(laid, line);
    struct stretch dropped = {end, end};
    uint32_t left = of_line(laid, line, BISQUEMOP_LINE_DROPPED);
    while (left > 0) {
        dropped.at--;
        left -= (*dropped.at & 0xC0) != 0x80;
    }
    return dropped;
}

uint64_t all_dropped(const struct laid *laid)
{
    uint64_t count = 0;
    for (uint64_t line = 0; line < laid->lines; line++) {
        count += of_line(laid, line, BISQUEMOP_LINE_DROPPED);
    }
    return count;
}

int is_outside(const struct laid *laid, uint64_t line)
{
    const struct bisquemop_settings *settings = &laid->wanted->settings;
    int32_t y = laid->ys[line], lowest = settings->top + (int32_t)settings->height - (int32_t)settings->base;
    return laid->wanted->height_given && of_line(laid, line, BISQUEMOP_LINE_WIDTH) > 0 &&
           (y < settings->top || y > lowest);
}

uint64_t all_outside(const struct laid *laid)
{
    uint64_t count = 0;
    for (uint64_t line = 0; line < laid->lines; line++) {
        count += (uint64_t)is_outside(laid, line);
    }
    return count;
}

int juts_out(const struct laid *laid, uint64_t event)
{
    uint32_t end = of_event(laid, event, BISQUEMOP_EVENT_X) + of_event(laid, event, BISQUEMOP_EVENT_WIDTH);
    return of_event(laid, event, BISQUEMOP_EVENT_KIND) == BISQUEMOP_DRAWN_PRINTED &&
           of_event(laid, event, BISQUEMOP_EVENT_START) < of_event(laid, event, BISQUEMOP_EVENT_END) &&
           end > laid->wanted->settings.width;
}

uint64_t all_jutting(const struct laid *laid)
{
    uint64_t count = 0;
    for (uint64_t event = 0; event < laid->event_count; event++) {
        count += (uint64_t)juts_out(laid, event);
    }
    return count;
}

int all_shows(const struct laid *laid)
{
    return all_dropped(laid) == 0 && all_outside(laid) == 0 && all_jutting(laid) == 0;
}
