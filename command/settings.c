/* The settings of a layout as options, and what they are where no option says so. */
#include "settings.h"

#include <stddef.h>

const char settings_help[] =
    "\n"
    "How the text is laid, in pixels where nothing else is said:\n"
    "  --columns N      the width of the box in characters (20)\n"
    "  --width N        the same in pixels: 0 to 4096\n"
    "  --glyph N        the width of every character: 1 to 64 (6)\n"
    "  --tab N          tab stops stand at its multiples: 0 to 4096, none if 0\n"
    "                   (4 characters)\n"
    "  --align WORD     left, centre, right or justified (left)\n"
    "  --leading WORD   spaces at the start of a line: on or off (on)\n"
    "  --wrap WORD      a word of which no character fits behind an indent: drop or\n"
    "                   wait (drop, by which words can be lost; where they wait,\n"
    "                   left aligned, none is)\n"
    "  --base N         the height of a single line: 1 to 64 (8)\n"
    "  --spacing N      how far below a line the next one stands: 0 to 4096\n"
    "                   (the base)\n"
    "  --paragraph N    how much further after a line feed: 0 to 4096 (0)\n"
    "  --height N       the height of the box: 0 to 4096 (no line is outside of it)\n"
    "  --top N          the y of its upper side: -4096 to 4096 (0)\n"
    "  --vertical WORD  top, middle or bottom (top)\n"
    "  --chomp          a line feed at the end of the file is no part of the text\n";

const char *const alignment_names[] = {"left", "centre", "right", "justified", NULL};
const char *const vertical_names[] = {"top", "middle", "bottom", NULL};
const char *const switch_names[] = {"off", "on", NULL};
const char *const wrap_names[] = {"drop", "wait", NULL};

/* Numbers of pixels, and where each goes. */
struct number_option {
    const char *name;
    size_t place;
    long least, most;
};
#define PLACE(setting) offsetof(struct bisquemop_settings, setting)
static const struct number_option number_options[] = {
    {"--glyph", PLACE(glyph), BISQUEMOP_GLYPH_MIN, BISQUEMOP_GLYPH_MAX},
    {"--width", PLACE(width), 0, BISQUEMOP_WIDTH_MAX},
    {"--tab", PLACE(tab), 0, BISQUEMOP_TAB_MAX},
    {"--spacing", PLACE(spacing), 0, BISQUEMOP_SPACING_MAX},
    {"--paragraph", PLACE(paragraph), 0, BISQUEMOP_PARAGRAPH_MAX},
    {"--base", PLACE(base), BISQUEMOP_BASE_MIN, BISQUEMOP_BASE_MAX},
    {"--height", PLACE(height), 0, BISQUEMOP_HEIGHT_MAX},
};

/* Words, each of which stands for its place among the names. */
struct choice_option {
    const char *name;
    size_t place;
    const char *const *names;
};
static const struct choice_option choice_options[] = {
    {"--align", PLACE(alignment), alignment_names},
    {"--vertical", PLACE(vertical), vertical_names},
    {"--leading", PLACE(leading), switch_names},
    {"--wrap", PLACE(wrap), wrap_names},
};

#define COUNT(array) (sizeof(array) / sizeof(array)[0])

struct wanted nothing_wanted(void)
{
    struct wanted wanted = {.columns = NOT_GIVEN};
    wanted.settings.glyph = 6;
    wanted.settings.width = NOT_GIVEN;
    wanted.settings.tab = NOT_GIVEN;
    wanted.settings.spacing = NOT_GIVEN;
    wanted.settings.base = 8;
    wanted.settings.height = NOT_GIVEN;
    wanted.settings.leading = 1;
    return wanted;
}

static void put(struct bisquemop_settings *settings, size_t place, uint32_t number)
{
    *(uint32_t *)(void *)((char *)settings + place) = number;
}

static int takes_number(struct words *words, struct bisquemop_settings *settings)
{
    for (size_t k = 0; k < COUNT(number_options); k++) {
        const struct number_option *option = &number_options[k];
        if (is_option(words, option->name)) {
            put(settings, option->place, (uint32_t)option_number(words, option->least, option->most));
            return 1;
        }
    }
    return 0;
}

static int takes_choice(struct words *words, struct bisquemop_settings *settings)
{
    for (size_t k = 0; k < COUNT(choice_options); k++) {
        const struct choice_option *option = &choice_options[k];
        if (is_option(words, option->name)) {
            put(settings, option->place, option_choice(words, option->names));
            return 1;
        }
    }
    return 0;
}

int takes_setting(struct words *words, struct wanted *wanted)
{
    if (is_option(words, "--columns")) {
        wanted->columns = (uint32_t)option_number(words, 0, BISQUEMOP_WIDTH_MAX);
    } else if (is_option(words, "--top")) {
        wanted->settings.top = (int32_t)option_number(words, BISQUEMOP_TOP_MIN, BISQUEMOP_TOP_MAX);
    } else if (is_option(words, "--chomp")) {
        option_alone(words);
        wanted->chomp = 1;
    } else {
        return takes_number(words, &wanted->settings) || takes_choice(words, &wanted->settings);
    }
    return 1;
}

/* ---- defaults */

uint32_t pixels_of(const struct words *words, uint32_t columns, uint32_t glyph)
{
    uint32_t pixels = columns * glyph;
    if (pixels > BISQUEMOP_WIDTH_MAX) {
        misused(words, "%u columns of %u pixels are %u, and a box is at most %d wide", columns, glyph, pixels,
                BISQUEMOP_WIDTH_MAX);
    }
    return pixels;
}

static void default_to(uint32_t *number, uint32_t otherwise)
{
    if (*number == NOT_GIVEN) {
        *number = otherwise;
    }
}

void settle(const struct words *words, struct wanted *wanted)
{
    struct bisquemop_settings *settings = &wanted->settings;
    if (wanted->columns != NOT_GIVEN && settings->width != NOT_GIVEN) {
        misused(words, "the width is given twice, by --columns and by --width");
    }
    if (settings->width == NOT_GIVEN) {
        default_to(&wanted->columns, DEFAULT_COLUMNS);
        settings->width = pixels_of(words, wanted->columns, settings->glyph);
    }
    wanted->height_given = settings->height != NOT_GIVEN;
    default_to(&settings->tab, 4 * settings->glyph);
    default_to(&settings->spacing, settings->base);
    default_to(&settings->height, BISQUEMOP_HEIGHT_MAX);
}
