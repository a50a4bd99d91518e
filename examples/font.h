/*
 * A font for small screens, drawn for this project: cells of six by eight dots, a letter in the first five columns and
 * seven rows. The eighth row is for what hangs below the line. Letters stand in the picture as they show. The last one
 * is a box, for every character that has no picture.
 */
#ifndef FONT_H
#define FONT_H

#include <string.h>

enum { FONT_WIDTH = 6, FONT_HEIGHT = 8, FONT_BOX = 1 };

struct font_part {
    const char *characters;
    const char *rows[FONT_HEIGHT];
};

/* clang-format off */
static const struct font_part font[] = {
    {"ABCDEFGHIJKLM", {
        " ###  ####   ###  ####  ##### #####  ###  #   #  ###     ## #   # #     #   # ",
        "#   # #   # #   # #   # #     #     #   # #   #   #       # #  #  #     ## ## ",
        "#   # #   # #     #   # #     #     #     #   #   #       # # #   #     # # # ",
        "##### ####  #     #   # ####  ####  #  ## #####   #       # ##    #     # # # ",
        "#   # #   # #     #   # #     #     #   # #   #   #       # # #   #     #   # ",
        "#   # #   # #   # #   # #     #     #   # #   #   #   #   # #  #  #     #   # ",
        "#   # ####   ###  ####  ##### #      ###  #   #  ###   ###  #   # ##### #   # ",
        "                                                                              ",
    }},
    {"NOPQRSTUVWXYZ", {
        "#   #  ###  ####   ###  ####   #### ##### #   # #   # #   # #   # #   # ##### ",
        "##  # #   # #   # #   # #   # #       #   #   # #   # #   # #   # #   #     # ",
        "# # # #   # #   # #   # #   # #       #   #   # #   # #   #  # #   # #     #  ",
        "#  ## #   # ####  #   # ####   ###    #   #   # #   # # # #   #     #     #   ",
        "#   # #   # #     # # # # #       #   #   #   # #   # # # #  # #    #    #    ",
        "#   # #   # #     #  #  #  #      #   #   #   #  # #  ## ## #   #   #   #     ",
        "#   #  ###  #      ## # #   # ####    #    ###    #   #   # #   #   #   ##### ",
        "                                                                              ",
    }},
    {"abcdefghijklm", {
        "      #               #         ##        #       #      #  #      ##         ",
        "      #               #        #  #       #                 #       #         ",
        " ###  # ##   ###   ## #  ###   #     #### # ##   ##     ##  #  #    #   ## #  ",
        "    # ##  # #     #  ## #   # ####  #   # ##  #   #      #  # #     #   # # # ",
        " #### #   # #     #   # #####  #    #   # #   #   #      #  ##      #   # # # ",
        "#   # ##  # #     #  ## #      #    #   # #   #   #      #  # #     #   # # # ",
        " #### # ##   ###   ## #  ###   #     #### #   #  ###     #  #  #   ###  # # # ",
        "                                     ###               ##                     ",
    }},
    {"nopqrstuvwxyz", {
        "                                                                              ",
        "                                     #                                        ",
        "# ##   ###  # ##   ## # # ##   #### ####  #   # #   # #   # #   # #   # ##### ",
        "##  # #   # ##  # #  ## ##  # #      #    #   # #   # #   #  # #  #   #    #  ",
        "#   # #   # #   # #   # #      ###   #    #   # #   # # # #   #   #   #   #   ",
        "#   # #   # ##  # #  ## #         #  #  # #  ##  # #  # # #  # #   ####  #    ",
        "#   #  ###  # ##   ## # #     ####    ##   ## #   #    # #  #   #     # ##### ",
        "            #         #                                            ###        ",
    }},
    {"0123456789", {
        " ###    #    ###  #####    #  #####   ##  #####  ###   ###  ",
        "#   #  ##   #   #    #    ##  #      #        # #   # #   # ",
        "#  ##   #       #   #    # #  ####  #        #  #   # #   # ",
        "# # #   #      #     #  #  #      # ####    #    ###   #### ",
        "##  #   #     #       # #####     # #   #  #    #   #     # ",
        "#   #   #    #    #   #    #  #   # #   #  #    #   #    #  ",
        " ###   ###  #####  ###     #   ###   ###   #     ###   ##   ",
        "                                                            ",
    }},
    {".,:;!?'\"-() \1", {
        "                          #    ###    #    # #           #   #          ##### ",
        "                          #   #   #   #    # #          #     #         #   # ",
        "              #     #     #       #  #                 #       #        #   # ",
        "                          #      #              #####  #       #        #   # ",
        "                          #     #                      #       #        #   # ",
        "        #           #                                   #     #         #   # ",
        "  #     #     #     #     #     #                        #   #          ##### ",
        "       #           #                                                          ",
    }},
};
/* clang-format on */

/* Whether a character's cell has a dot in a column and a row. */
static int font_has_dot(char character, int column, int row)
{
    const struct font_part *part = font;
    const char *at = NULL;
    for (size_t k = 0; at == NULL && k < sizeof font / sizeof font[0]; k++) {
        part = &font[k];
        at = character == 0 ? NULL : strchr(part->characters, character);
    }
    if (at == NULL) {
        at = strchr(part->characters, FONT_BOX);
    }
    return part->rows[row][FONT_WIDTH * (at - part->characters) + column] == '#';
}

#endif
