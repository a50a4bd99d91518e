/* bisquemop_check_settings: each setting at the ends of its range, and which refusal comes first. */
/* Refusal 1, refusal 2. */
#include "harness.h"

#include <stdio.h>

static struct bisquemop_settings good(void)
{
    struct bisquemop_settings s = {6, 240, 24, 10, 4, 8, 160, 0, BISQUEMOP_ALIGN_LEFT, BISQUEMOP_VERTICAL_TOP, 1, 0, 0};
    return s;
}

/* The settings that have a range and no sign. */
struct range {
    const char *name;
    uint32_t low, high;
};

#define RANGES 10

/* clang-format off */
static const struct range ranges[RANGES] = {
    {"glyph", 1, 64},
    {"width", 0, 4096},
    {"tab", 0, 4096},
    {"spacing", 0, 4096},
    {"paragraph", 0, 4096},
    {"base", 1, 64},
    {"height", 0, 4096},
    {"leading", 0, 1},
    {"trailing", 0, 0}, /* retired */
    {"wrap", 0, 1},
};
/* clang-format on */

static uint32_t *setting(struct bisquemop_settings *s, int i)
{
    uint32_t *all[RANGES] = {
        &s->glyph, &s->width,  &s->tab,     &s->spacing,  &s->paragraph,
        &s->base,  &s->height, &s->leading, &s->trailing, &s->wrap,
    };
    return all[i];
}

static void one_setting(int i, uint32_t n)
{
    char what[64];
    struct bisquemop_settings s = good();
    int in_range = ranges[i].low <= n && n <= ranges[i].high;
    *setting(&s, i) = n;
    snprintf(what, sizeof what, "%s %lu", ranges[i].name, (unsigned long)n);
    expect_settings(what, s, in_range ? BISQUEMOP_OK : BISQUEMOP_SETTING_OUT_OF_RANGE, 0);
}

static void one_top(int32_t n, uint32_t number)
{
    char what[64];
    struct bisquemop_settings s = good();
    s.top = n;
    snprintf(what, sizeof what, "top %ld", (long)n);
    expect_settings(what, s, number, 0);
}

static void test_ranges(void)
{
    for (int i = 0; i < RANGES; i++) {
        if (ranges[i].low > 0) {
            one_setting(i, ranges[i].low - 1);
        }
        one_setting(i, ranges[i].low);
        one_setting(i, ranges[i].low + 1);
        one_setting(i, ranges[i].high - 1);
        one_setting(i, ranges[i].high);
        one_setting(i, ranges[i].high + 1);
        one_setting(i, 0x80000000u);
        one_setting(i, UINT32_MAX);
    }
    one_top(-4097, BISQUEMOP_SETTING_OUT_OF_RANGE);
    one_top(-4096, BISQUEMOP_OK);
    one_top(-1, BISQUEMOP_OK);
    one_top(0, BISQUEMOP_OK);
    one_top(4096, BISQUEMOP_OK);
    one_top(4097, BISQUEMOP_SETTING_OUT_OF_RANGE);
    one_top(INT32_MIN, BISQUEMOP_SETTING_OUT_OF_RANGE);
    one_top(INT32_MAX, BISQUEMOP_SETTING_OUT_OF_RANGE);
}

/* Each known number of one alignment with each of the other's, and numbers that are unknown. */
static void test_alignments(void)
{
    static const uint32_t numbers[] = {0, 1, 2, 3, 4, 64, 0x80000000u, UINT32_MAX};
    const size_t count = sizeof numbers / sizeof numbers[0];
    for (size_t i = 0; i < count; i++) {
        for (size_t j = 0; j < count; j++) {
            char what[64];
            struct bisquemop_settings s = good();
            s.alignment = numbers[i];
            s.vertical = numbers[j];
            snprintf(what, sizeof what, "alignment %lu, vertical %lu", (unsigned long)s.alignment,
                     (unsigned long)s.vertical);
            if (s.alignment > 3) {
                expect_settings(what, s, BISQUEMOP_UNKNOWN_ALIGNMENT, s.alignment);
            } else if (s.vertical > 2) {
                expect_settings(what, s, BISQUEMOP_UNKNOWN_ALIGNMENT, s.vertical);
            } else {
                expect_settings(what, s, BISQUEMOP_OK, 0);
            }
        }
    }
}

/* A setting that is out of range comes before an unknown alignment, whichever setting it is. */
static void test_order(void)
{
    for (int i = 0; i < RANGES; i++) {
        char what[64];
        struct bisquemop_settings s = good();
        *setting(&s, i) = ranges[i].high + 1;
        s.alignment = 7;
        snprintf(what, sizeof what, "%s too large, alignment unknown", ranges[i].name);
        expect_settings(what, s, BISQUEMOP_SETTING_OUT_OF_RANGE, 0);
        s.alignment = BISQUEMOP_ALIGN_RIGHT;
        s.vertical = 7;
        snprintf(what, sizeof what, "%s too large, vertical unknown", ranges[i].name);
        expect_settings(what, s, BISQUEMOP_SETTING_OUT_OF_RANGE, 0);
    }
    struct bisquemop_settings s = good();
    s.top = INT32_MIN;
    s.alignment = UINT32_MAX;
    s.vertical = UINT32_MAX;
    expect_settings("top too small, both alignments unknown", s, BISQUEMOP_SETTING_OUT_OF_RANGE, 0);
}

static void test_all_at_once(void)
{
    struct bisquemop_settings s = {1, 0, 0, 0, 0, 1, 0, -4096, 0, 0, 0, 0, 0};
    expect_settings("all at their least", s, BISQUEMOP_OK, 0);
    struct bisquemop_settings t = {64, 4096, 4096, 4096, 4096, 64, 4096, 4096, 3, 2, 1, 0, 1};
    expect_settings("all at their most", t, BISQUEMOP_OK, 0);
    t.trailing = 1;
    expect_settings("all at their most, and trailing spaces on", t, BISQUEMOP_SETTING_OUT_OF_RANGE, 0);
    struct bisquemop_settings none = {0, 0, 0, 0, 0, 0, 0, 0, 0, 0, 0, 0, 0};
    expect_settings("all 0", none, BISQUEMOP_SETTING_OUT_OF_RANGE, 0);
}

/* The header's names are the numbers that the library means. */
static void test_names(void)
{
    struct bisquemop_settings s = {
        BISQUEMOP_GLYPH_MAX,
        BISQUEMOP_WIDTH_MAX,
        BISQUEMOP_TAB_MAX,
        BISQUEMOP_SPACING_MAX,
        BISQUEMOP_PARAGRAPH_MAX,
        BISQUEMOP_BASE_MAX,
        BISQUEMOP_HEIGHT_MAX,
        BISQUEMOP_TOP_MAX,
        BISQUEMOP_ALIGN_JUSTIFIED,
        BISQUEMOP_VERTICAL_BOTTOM,
        1,
        0,
        BISQUEMOP_WRAP_WAIT,
    };
    expect_settings("the named upper limits", s, BISQUEMOP_OK, 0);
    s.glyph = BISQUEMOP_GLYPH_MIN;
    s.base = BISQUEMOP_BASE_MIN;
    s.top = BISQUEMOP_TOP_MIN;
    expect_settings("the named lower limits", s, BISQUEMOP_OK, 0);
    expect("the names of the refusals", BISQUEMOP_OK == 0 && BISQUEMOP_SETTING_OUT_OF_RANGE == 1 &&
                                            BISQUEMOP_UNKNOWN_ALIGNMENT == 2 && BISQUEMOP_TEXT_TOO_LONG == 3 &&
                                            BISQUEMOP_NOT_UTF8 == 4);
    expect("the names of the alignments", BISQUEMOP_ALIGN_LEFT == 0 && BISQUEMOP_ALIGN_CENTRE == 1 &&
                                              BISQUEMOP_ALIGN_RIGHT == 2 && BISQUEMOP_ALIGN_JUSTIFIED == 3 &&
                                              BISQUEMOP_VERTICAL_TOP == 0 && BISQUEMOP_VERTICAL_MIDDLE == 1 &&
                                              BISQUEMOP_VERTICAL_BOTTOM == 2);
    expect("the names of the wraps", BISQUEMOP_WRAP_DROP == 0 && BISQUEMOP_WRAP_WAIT == 1);
}

void test_settings(void)
{
    test_ranges();
    test_alignments();
    test_order();
    test_all_at_once();
    test_names();
}
