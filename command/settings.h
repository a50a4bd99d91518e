/* The settings of a layout as options, and what they are where no option says so. */
#ifndef SETTINGS_H
#define SETTINGS_H

#include "words.h"

#include <bisquemop.h>

/* What the options said. Numbers that were not given are NOT_GIVEN until they are settled. */
#define NOT_GIVEN UINT32_MAX
struct wanted {
    struct bisquemop_settings settings;
    uint32_t columns;
    int height_given; /* then lines outside of the box are lost */
    int chomp;        /* the line feed at the file's end is no part of the text */
};

enum { DEFAULT_COLUMNS = 20 };

extern const char settings_help[];
extern const char *const alignment_names[], *const vertical_names[], *const switch_names[], *const wrap_names[];

struct wanted nothing_wanted(void);

/* Takes the option at hand if it is one of the settings, and answers whether it is. */
int takes_setting(struct words *words, struct wanted *wanted);

/* Puts defaults where nothing was given. */
void settle(const struct words *words, struct wanted *wanted);

/* So many glyphs in pixels; said and ended if no box is so wide. */
uint32_t pixels_of(const struct words *words, uint32_t columns, uint32_t glyph);

#endif
