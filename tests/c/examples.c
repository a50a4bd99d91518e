/* The table of examples: texts, settings, and the lines and events that they give (rule 8, rule 9, rule 10, rule 12, rule 13). */
#include "examples.h"

#include <stdio.h>
#include <string.h>

#define SHY "\xC2\xAD"
#define NBSP "\xC2\xA0"
#define FIGURE "\xE2\x80\x87"
#define NARROW "\xE2\x80\xAF"

struct bisquemop_settings laid(uint32_t glyph, uint32_t width, uint32_t alignment, uint32_t leading, uint32_t wrap)
{
    struct bisquemop_settings s = {glyph,   width, 24,  10, 3, 8, 40, 0, alignment, BISQUEMOP_VERTICAL_TOP,
                                   leading, 0,     wrap};
    return s;
}

/* clang-format off */
const struct example examples[] = {
    /* an indent as wide as the box drops "not", and the line says so */
    {6, 30, LEFT, 1, DROP, "     not the baker",
     3, {0, 0, 0, 3, 0, 6, 0, 0, 3, 9, 0, /**/ 8, 0, 0, 3, 0, 6, 0, 24, 0, 19, 8, /**/
         13, 0, 0, 2, 0, 6, 0, 30, 0, 19, 13},
     5, {SPACE, 0, 5, 5, 30, 0, /**/ SPACE, 8, 9, 1, 6, 0, /**/ PRINTED, 9, 12, 0, 18, 6, /**/
         SPACE, 12, 13, 1, 0, 24, /**/ PRINTED, 13, 18, 0, 30, 0}},

    /* ---- the others that the definitions are held to */

    {6, 30, LEFT, 1, DROP, "",
     1, {0, 0, 0, 2, 0, 6, 0, 0, 0, 1, 0},
     0, {0}},
    /* a space as wide as the box, "ab" dropped, an empty last line at 7 */
    {6, 30, LEFT, 1, DROP, "     ab",
     2, {0, 0, 0, 3, 0, 6, 0, 0, 2, 8, 0, /**/ 7, 0, 0, 2, 0, 6, 0, 0, 0, 8, 7},
     1, {SPACE, 0, 5, 5, 30, 0}},
    /* a word wider than the box */
    {6, 30, LEFT, 1, DROP, "abcdefg",
     2, {0, 0, 0, 3, 0, 6, 0, 30, 0, 8, 0, /**/ 5, 0, 0, 2, 0, 6, 0, 12, 0, 8, 5},
     2, {PRINTED, 0, 5, 0, 30, 0, /**/ PRINTED, 5, 7, 0, 12, 0}},
    /* no character fits, and one does */
    {6, 5, LEFT, 1, DROP, "abc",
     2, {0, 0, 0, 3, 0, 6, 0, 0, 3, 4, 0, /**/ 3, 0, 0, 2, 0, 6, 0, 0, 0, 4, 3},
     0, {0}},
    {6, 6, LEFT, 1, DROP, "abc",
     3, {0, 0, 0, 3, 0, 6, 0, 6, 0, 4, 0, /**/ 1, 0, 0, 3, 0, 6, 0, 6, 0, 4, 1, /**/ 2, 0, 0, 2, 0, 6, 0, 6, 0, 4, 2},
     3, {PRINTED, 0, 1, 0, 6, 0, /**/ PRINTED, 1, 2, 0, 6, 0, /**/ PRINTED, 2, 3, 0, 6, 0}},
    /* a cut space run: the second line starts at 4 with a rest of two spaces */
    {6, 18, LEFT, 1, DROP, "abc   d",
     2, {0, 0, 0, 3, 0, 6, 0, 18, 0, 7, 0, /**/ 4, 6, 2, 2, 0, 6, 0, 18, 0, 8, 4},
     3, {PRINTED, 0, 3, 0, 18, 0, /**/ SPACE, 4, 6, 2, 12, 0, /**/ PRINTED, 6, 7, 0, 6, 12}},
    /* a tab that does not fit carries pen and cursor to the edge, and "x" waits for the second line */
    {6, 30, LEFT, 1, DROP, "abcd\tx",
     2, {0, 0, 0, 3, 0, 6, 0, 24, 0, 7, 0, /**/ 5, 0, 0, 2, 0, 6, 0, 6, 0, 7, 5},
     3, {PRINTED, 0, 4, 0, 24, 0, /**/ MOVE, 4, 5, 0, 6, 24, /**/ PRINTED, 5, 6, 0, 6, 0}},
    /* on an empty line it leaves no room for "x", which is dropped; words that wait are below */
    {6, 20, LEFT, 1, DROP, "\tx",
     2, {0, 0, 0, 3, 0, 6, 0, 0, 1, 3, 0, /**/ 2, 0, 0, 2, 0, 6, 0, 0, 0, 3, 2},
     1, {MOVE, 0, 1, 0, 20, 0}},
    /* a soft hyphen: not needed, printed, kept for the next line */
    {6, 24, LEFT, 1, DROP, "ab" SHY "cd",
     1, {0, 0, 0, 2, 0, 6, 0, 24, 0, 7, 0},
     2, {PRINTED, 0, 2, 0, 12, 0, /**/ PRINTED, 4, 6, 0, 12, 12}},
    {6, 23, LEFT, 1, DROP, "ab" SHY "cd",
     2, {0, 0, 0, 3, 0, 6, 0, 18, 0, 7, 0, /**/ 4, 0, 0, 2, 0, 6, 0, 12, 0, 7, 3},
     3, {PRINTED, 0, 2, 0, 12, 0, /**/ PRINTED, 2, 4, 0, 6, 12, /**/ PRINTED, 4, 6, 0, 12, 0}},
    {6, 17, LEFT, 1, DROP, "ab" SHY "cd",
     3, {0, 0, 0, 3, 0, 6, 0, 12, 0, 7, 0, /**/ 2, 0, 0, 3, 0, 6, 0, 12, 0, 7, 2, /**/ 5, 0, 0, 2, 0, 6, 0, 6, 0, 7, 4},
     4, {PRINTED, 0, 2, 0, 12, 0, /**/ PRINTED, 2, 4, 0, 6, 0, /**/ PRINTED, 4, 5, 0, 6, 6, /**/
         PRINTED, 5, 6, 0, 6, 0}},
    {6, 30, LEFT, 1, DROP, "a" NBSP "b",
     1, {0, 0, 0, 2, 0, 6, 0, 18, 0, 5, 0},
     3, {PRINTED, 0, 1, 0, 6, 0, /**/ SPACE, 1, 3, 1, 6, 6, /**/ PRINTED, 3, 4, 0, 6, 12}},
    /* justified: spaces 8 and 7, and the first line ends at 51; a skipped leading space counts, and takes no room */
    {6, 51, JUSTIFIED, 0, DROP, "aa bb cc dd",
     2, {0, 0, 0, 3, 0, 7, 1, 48, 0, 10, 0, /**/ 9, 0, 0, 2, 0, 6, 0, 12, 0, 12, 9},
     6, {PRINTED, 0, 2, 0, 12, 0, /**/ SPACE, 2, 3, 1, 8, 12, /**/ PRINTED, 3, 5, 0, 12, 20, /**/
         SPACE, 5, 6, 1, 7, 32, /**/ PRINTED, 6, 8, 0, 12, 39, /**/ PRINTED, 9, 11, 0, 12, 0}},
    {6, 51, JUSTIFIED, 0, DROP, " aa bb cc dd",
     2, {0, 0, 0, 3, 0, 7, 0, 48, 0, 11, 0, /**/ 10, 0, 0, 2, 0, 6, 0, 12, 0, 13, 10},
     7, {SPACE, 0, 1, 1, 0, 0, /**/ PRINTED, 1, 3, 0, 12, 0, /**/ SPACE, 3, 4, 1, 7, 12, /**/
         PRINTED, 4, 6, 0, 12, 19, /**/ SPACE, 6, 7, 1, 7, 31, /**/ PRINTED, 7, 9, 0, 12, 38, /**/
         PRINTED, 10, 12, 0, 12, 0}},
    {6, 30, LEFT, 1, DROP, "ab cde",
     2, {0, 0, 0, 3, 0, 6, 0, 12, 0, 7, 0, /**/ 3, 0, 0, 2, 0, 6, 0, 18, 0, 7, 3},
     3, {PRINTED, 0, 2, 0, 12, 0, /**/ SPACE, 2, 3, 1, 0, 12, /**/ PRINTED, 3, 6, 0, 18, 0}},
    /* a line feed, centred; a carriage return */
    {6, 30, CENTRE, 0, DROP, "ab\ncd",
     2, {0, 0, 0, 0, 9, 6, 0, 12, 0, 3, 0, /**/ 3, 0, 0, 2, 9, 6, 0, 12, 0, 6, 3},
     3, {PRINTED, 0, 2, 0, 12, 9, /**/ SPACE, 2, 3, 0, 0, 21, /**/ PRINTED, 3, 5, 0, 12, 9}},
    {6, 30, LEFT, 1, DROP, "ab\rcd",
     2, {0, 0, 0, 1, 0, 6, 0, 12, 0, 3, 0, /**/ 3, 0, 0, 2, 0, 6, 0, 12, 0, 6, 3},
     3, {PRINTED, 0, 2, 0, 12, 0, /**/ SPACE, 2, 3, 0, 0, 12, /**/ PRINTED, 3, 5, 0, 12, 0}},
    /* three lines, as the examples of edits have them */
    {6, 30, LEFT, 1, DROP, "aa\nbb\ncc",
     3, {0, 0, 0, 0, 0, 6, 0, 12, 0, 3, 0, /**/ 3, 0, 0, 0, 0, 6, 0, 12, 0, 6, 3, /**/
         6, 0, 0, 2, 0, 6, 0, 12, 0, 9, 6},
     5, {PRINTED, 0, 2, 0, 12, 0, /**/ SPACE, 2, 3, 0, 0, 12, /**/ PRINTED, 3, 5, 0, 12, 0, /**/
         SPACE, 5, 6, 0, 0, 12, /**/ PRINTED, 6, 8, 0, 12, 0}},
    {6, 30, LEFT, 1, DROP, "aa\nxbb\ncc",
     3, {0, 0, 0, 0, 0, 6, 0, 12, 0, 3, 0, /**/ 3, 0, 0, 0, 0, 6, 0, 18, 0, 7, 3, /**/
         7, 0, 0, 2, 0, 6, 0, 12, 0, 10, 7},
     5, {PRINTED, 0, 2, 0, 12, 0, /**/ SPACE, 2, 3, 0, 0, 12, /**/ PRINTED, 3, 6, 0, 18, 0, /**/
         SPACE, 6, 7, 0, 0, 18, /**/ PRINTED, 7, 9, 0, 12, 0}},
    {6, 30, LEFT, 1, DROP, "ab cd",
     1, {0, 0, 0, 2, 0, 6, 0, 30, 0, 6, 0},
     3, {PRINTED, 0, 2, 0, 12, 0, /**/ SPACE, 2, 3, 1, 6, 12, /**/ PRINTED, 3, 5, 0, 12, 18}},
    {6, 18, LEFT, 1, DROP, "yzz\nabc   d",
     3, {0, 0, 0, 0, 0, 6, 0, 18, 0, 4, 0, /**/ 4, 0, 0, 3, 0, 6, 0, 18, 0, 11, 4, /**/
         8, 10, 2, 2, 0, 6, 0, 18, 0, 12, 8},
     5, {PRINTED, 0, 3, 0, 18, 0, /**/ SPACE, 3, 4, 0, 0, 18, /**/ PRINTED, 4, 7, 0, 18, 0, /**/
         SPACE, 8, 10, 2, 12, 0, /**/ PRINTED, 10, 11, 0, 6, 12}},
    {6, 18, LEFT, 1, DROP, "abc    d",
     3, {0, 0, 0, 3, 0, 6, 0, 18, 0, 8, 0, /**/ 4, 7, 3, 3, 0, 6, 0, 0, 1, 9, 4, /**/ 8, 0, 0, 2, 0, 6, 0, 0, 0, 9, 8},
     2, {PRINTED, 0, 3, 0, 18, 0, /**/ SPACE, 4, 7, 3, 18, 0}},
    {6, 18, LEFT, 1, DROP, "abc\n  d",
     2, {0, 0, 0, 0, 0, 6, 0, 18, 0, 4, 0, /**/ 4, 0, 0, 2, 0, 6, 0, 18, 0, 8, 4},
     4, {PRINTED, 0, 3, 0, 18, 0, /**/ SPACE, 3, 4, 0, 0, 18, /**/ SPACE, 4, 6, 2, 12, 0, /**/
         PRINTED, 6, 7, 0, 6, 12}},

    /* ---- the four alignments, and leading spaces: the numbers come from the rules, by hand */

    /* what is left of the first line is 3 wide, of the last 39; justified, two spaces share 15 */
    {6, 51, LEFT, 1, DROP, "aa bb cc dd",
     2, {0, 0, 0, 3, 0, 6, 0, 48, 0, 10, 0, /**/ 9, 0, 0, 2, 0, 6, 0, 12, 0, 12, 9},
     6, {PRINTED, 0, 2, 0, 12, 0, /**/ SPACE, 2, 3, 1, 6, 12, /**/ PRINTED, 3, 5, 0, 12, 18, /**/
         SPACE, 5, 6, 1, 6, 30, /**/ PRINTED, 6, 8, 0, 12, 36, /**/ PRINTED, 9, 11, 0, 12, 0}},
    {6, 51, CENTRE, 1, DROP, "aa bb cc dd",
     2, {0, 0, 0, 3, 2, 6, 0, 48, 0, 10, 0, /**/ 9, 0, 0, 2, 20, 6, 0, 12, 0, 12, 9},
     6, {PRINTED, 0, 2, 0, 12, 2, /**/ SPACE, 2, 3, 1, 6, 14, /**/ PRINTED, 3, 5, 0, 12, 20, /**/
         SPACE, 5, 6, 1, 6, 32, /**/ PRINTED, 6, 8, 0, 12, 38, /**/ PRINTED, 9, 11, 0, 12, 20}},
    {6, 51, RIGHT, 1, DROP, "aa bb cc dd",
     2, {0, 0, 0, 3, 3, 6, 0, 48, 0, 10, 0, /**/ 9, 0, 0, 2, 39, 6, 0, 12, 0, 12, 9},
     6, {PRINTED, 0, 2, 0, 12, 3, /**/ SPACE, 2, 3, 1, 6, 15, /**/ PRINTED, 3, 5, 0, 12, 21, /**/
         SPACE, 5, 6, 1, 6, 33, /**/ PRINTED, 6, 8, 0, 12, 39, /**/ PRINTED, 9, 11, 0, 12, 39}},
    {6, 51, JUSTIFIED, 1, DROP, "aa bb cc dd",
     2, {0, 0, 0, 3, 0, 7, 1, 48, 0, 10, 0, /**/ 9, 0, 0, 2, 0, 6, 0, 12, 0, 12, 9},
     6, {PRINTED, 0, 2, 0, 12, 0, /**/ SPACE, 2, 3, 1, 8, 12, /**/ PRINTED, 3, 5, 0, 12, 20, /**/
         SPACE, 5, 6, 1, 7, 32, /**/ PRINTED, 6, 8, 0, 12, 39, /**/ PRINTED, 9, 11, 0, 12, 0}},
    /* a space at the text's end is drawn 0 wide; of two that do not fit one is taken, and the other is a second line */
    {6, 51, JUSTIFIED, 1, DROP, "aa bb cc dd ",
     2, {0, 0, 0, 3, 0, 7, 1, 48, 0, 10, 0, /**/ 9, 0, 0, 2, 0, 6, 0, 12, 0, 13, 9},
     7, {PRINTED, 0, 2, 0, 12, 0, /**/ SPACE, 2, 3, 1, 8, 12, /**/ PRINTED, 3, 5, 0, 12, 20, /**/
         SPACE, 5, 6, 1, 7, 32, /**/ PRINTED, 6, 8, 0, 12, 39, /**/ PRINTED, 9, 11, 0, 12, 0, /**/
         SPACE, 11, 12, 1, 0, 12}},
    {6, 51, JUSTIFIED, 1, DROP, "aa bb cc  ",
     2, {0, 0, 0, 3, 0, 7, 1, 48, 0, 11, 0, /**/ 9, 10, 1, 2, 0, 6, 0, 0, 0, 11, 9},
     6, {PRINTED, 0, 2, 0, 12, 0, /**/ SPACE, 2, 3, 1, 8, 12, /**/ PRINTED, 3, 5, 0, 12, 20, /**/
         SPACE, 5, 6, 1, 7, 32, /**/ PRINTED, 6, 8, 0, 12, 39, /**/ SPACE, 9, 10, 1, 6, 0}},
    /* new lines are not justified, carriage returns are */
    {6, 30, LEFT, 1, DROP, "a b\nc",
     2, {0, 0, 0, 0, 0, 6, 0, 18, 0, 4, 0, /**/ 4, 0, 0, 2, 0, 6, 0, 6, 0, 6, 4},
     5, {PRINTED, 0, 1, 0, 6, 0, /**/ SPACE, 1, 2, 1, 6, 6, /**/ PRINTED, 2, 3, 0, 6, 12, /**/
         SPACE, 3, 4, 0, 0, 18, /**/ PRINTED, 4, 5, 0, 6, 0}},
    {6, 30, RIGHT, 1, DROP, "a b\nc",
     2, {0, 0, 0, 0, 12, 6, 0, 18, 0, 4, 0, /**/ 4, 0, 0, 2, 24, 6, 0, 6, 0, 6, 4},
     5, {PRINTED, 0, 1, 0, 6, 12, /**/ SPACE, 1, 2, 1, 6, 18, /**/ PRINTED, 2, 3, 0, 6, 24, /**/
         SPACE, 3, 4, 0, 0, 30, /**/ PRINTED, 4, 5, 0, 6, 24}},
    {6, 30, JUSTIFIED, 1, DROP, "a b\nc",
     2, {0, 0, 0, 0, 0, 6, 0, 18, 0, 4, 0, /**/ 4, 0, 0, 2, 0, 6, 0, 6, 0, 6, 4},
     5, {PRINTED, 0, 1, 0, 6, 0, /**/ SPACE, 1, 2, 1, 6, 6, /**/ PRINTED, 2, 3, 0, 6, 12, /**/
         SPACE, 3, 4, 0, 0, 18, /**/ PRINTED, 4, 5, 0, 6, 0}},
    {6, 30, JUSTIFIED, 1, DROP, "a b\rc",
     2, {0, 0, 0, 1, 0, 18, 0, 18, 0, 4, 0, /**/ 4, 0, 0, 2, 0, 6, 0, 6, 0, 6, 4},
     5, {PRINTED, 0, 1, 0, 6, 0, /**/ SPACE, 1, 2, 1, 18, 6, /**/ PRINTED, 2, 3, 0, 6, 24, /**/
         SPACE, 3, 4, 0, 0, 30, /**/ PRINTED, 4, 5, 0, 6, 0}},
    /* leading on: where the line is drawn further right, fewer of the two spaces are taken */
    {6, 36, LEFT, 1, DROP, " ab  cd",
     2, {0, 0, 0, 3, 0, 6, 0, 18, 0, 8, 0, /**/ 5, 0, 0, 2, 0, 6, 0, 12, 0, 8, 5},
     4, {SPACE, 0, 1, 1, 6, 0, /**/ PRINTED, 1, 3, 0, 12, 6, /**/ SPACE, 3, 5, 2, 0, 18, /**/
         PRINTED, 5, 7, 0, 12, 0}},
    {6, 36, CENTRE, 1, DROP, " ab  cd",
     2, {0, 0, 0, 3, 9, 6, 0, 18, 0, 8, 0, /**/ 5, 0, 0, 2, 12, 6, 0, 12, 0, 8, 5},
     4, {SPACE, 0, 1, 1, 6, 9, /**/ PRINTED, 1, 3, 0, 12, 15, /**/ SPACE, 3, 4, 1, 0, 27, /**/
         PRINTED, 5, 7, 0, 12, 12}},
    {6, 36, RIGHT, 1, DROP, " ab  cd",
     2, {0, 0, 0, 3, 18, 6, 0, 18, 0, 8, 0, /**/ 4, 5, 1, 2, 18, 6, 0, 18, 0, 8, 4},
     4, {SPACE, 0, 1, 1, 6, 18, /**/ PRINTED, 1, 3, 0, 12, 24, /**/ SPACE, 4, 5, 1, 6, 18, /**/
         PRINTED, 5, 7, 0, 12, 24}},
    {6, 36, JUSTIFIED, 1, DROP, " ab  cd",
     2, {0, 0, 0, 3, 0, 24, 0, 18, 0, 8, 0, /**/ 4, 5, 1, 2, 0, 6, 0, 18, 0, 8, 4},
     4, {SPACE, 0, 1, 1, 24, 0, /**/ PRINTED, 1, 3, 0, 12, 24, /**/ SPACE, 4, 5, 1, 6, 0, /**/
         PRINTED, 5, 7, 0, 12, 6}},
    /* the same at the text's end: the spaces after "ab" do not count in the width; what is cut of them makes lines */
    {6, 36, LEFT, 1, DROP, " ab  ",
     1, {0, 0, 0, 2, 0, 6, 0, 18, 0, 6, 0},
     3, {SPACE, 0, 1, 1, 6, 0, /**/ PRINTED, 1, 3, 0, 12, 6, /**/ SPACE, 3, 5, 2, 0, 18}},
    {6, 36, CENTRE, 1, DROP, " ab  ",
     2, {0, 0, 0, 3, 9, 6, 0, 18, 0, 6, 0, /**/ 5, 0, 0, 2, 18, 6, 0, 0, 0, 6, 5},
     3, {SPACE, 0, 1, 1, 6, 9, /**/ PRINTED, 1, 3, 0, 12, 15, /**/ SPACE, 3, 4, 1, 0, 27}},
    {6, 36, RIGHT, 1, DROP, " ab  ",
     3, {0, 0, 0, 3, 18, 6, 0, 18, 0, 6, 0, /**/ 4, 5, 1, 3, 36, 6, 0, 0, 0, 6, 4, /**/
         5, 0, 0, 2, 36, 6, 0, 0, 0, 6, 5},
     2, {SPACE, 0, 1, 1, 6, 18, /**/ PRINTED, 1, 3, 0, 12, 24}},
    {6, 36, JUSTIFIED, 1, DROP, " ab  ",
     1, {0, 0, 0, 2, 0, 6, 0, 18, 0, 6, 0},
     3, {SPACE, 0, 1, 1, 6, 0, /**/ PRINTED, 1, 3, 0, 12, 6, /**/ SPACE, 3, 5, 2, 0, 18}},
    /* leading off: all fits */
    {6, 36, LEFT, 0, DROP, " ab  cd",
     1, {0, 0, 0, 2, 0, 6, 0, 36, 0, 8, 0},
     4, {SPACE, 0, 1, 1, 0, 0, /**/ PRINTED, 1, 3, 0, 12, 0, /**/ SPACE, 3, 5, 2, 12, 12, /**/
         PRINTED, 5, 7, 0, 12, 24}},
    {6, 36, CENTRE, 0, DROP, " ab  cd",
     1, {0, 0, 0, 2, 0, 6, 0, 36, 0, 8, 0},
     4, {SPACE, 0, 1, 1, 0, 0, /**/ PRINTED, 1, 3, 0, 12, 0, /**/ SPACE, 3, 5, 2, 12, 12, /**/
         PRINTED, 5, 7, 0, 12, 24}},
    {6, 36, RIGHT, 0, DROP, " ab  cd",
     1, {0, 0, 0, 2, 0, 6, 0, 36, 0, 8, 0},
     4, {SPACE, 0, 1, 1, 0, 0, /**/ PRINTED, 1, 3, 0, 12, 0, /**/ SPACE, 3, 5, 2, 12, 12, /**/
         PRINTED, 5, 7, 0, 12, 24}},
    {6, 36, JUSTIFIED, 0, DROP, " ab  cd",
     1, {0, 0, 0, 2, 0, 6, 0, 36, 0, 8, 0},
     4, {SPACE, 0, 1, 1, 0, 0, /**/ PRINTED, 1, 3, 0, 12, 0, /**/ SPACE, 3, 5, 2, 12, 12, /**/
         PRINTED, 5, 7, 0, 12, 24}},
    /* to the right, the spaces that the measure had room for make the drawn line full */
    {5, 23, RIGHT, 0, DROP, "ab  ",
     2, {0, 0, 0, 3, 13, 5, 0, 10, 0, 5, 0, /**/ 3, 4, 1, 2, 23, 5, 0, 0, 0, 5, 3},
     2, {PRINTED, 0, 2, 0, 10, 13, /**/ SPACE, 3, 4, 1, 0, 23}},

    /* ---- words that end with U+00A0 or consist of it, and tabs: by hand too */

    /* the word ends with a print of no text */
    {6, 30, LEFT, 1, DROP, "a" NBSP,
     1, {0, 0, 0, 2, 0, 6, 0, 12, 0, 4, 0},
     3, {PRINTED, 0, 1, 0, 6, 0, /**/ SPACE, 1, 3, 1, 6, 6, /**/ PRINTED, 3, 3, 0, 0, 12}},
    {6, 30, LEFT, 1, DROP, NBSP NBSP,
     1, {0, 0, 0, 2, 0, 6, 0, 12, 0, 5, 0},
     3, {SPACE, 0, 2, 1, 6, 0, /**/ SPACE, 2, 4, 1, 6, 6, /**/ PRINTED, 4, 4, 0, 0, 12}},
    /* a tab that fits: a space before a word that fits, else a move, at the text's end too */
    {6, 60, LEFT, 1, DROP, "a\tb",
     1, {0, 0, 0, 2, 0, 6, 0, 30, 0, 4, 0},
     3, {PRINTED, 0, 1, 0, 6, 0, /**/ SPACE, 1, 2, 0, 18, 6, /**/ PRINTED, 2, 3, 0, 6, 24}},
    {6, 30, LEFT, 1, DROP, "a\tbcdef",
     2, {0, 0, 0, 3, 0, 6, 0, 6, 0, 8, 0, /**/ 2, 0, 0, 2, 0, 6, 0, 30, 0, 8, 2},
     3, {PRINTED, 0, 1, 0, 6, 0, /**/ MOVE, 1, 2, 0, 18, 6, /**/ PRINTED, 2, 7, 0, 30, 0}},
    {6, 30, LEFT, 1, DROP, "a\t",
     1, {0, 0, 0, 2, 0, 6, 0, 6, 0, 3, 0},
     2, {PRINTED, 0, 1, 0, 6, 0, /**/ MOVE, 1, 2, 0, 18, 6}},
    /* skipped at the front of a line */
    {6, 30, LEFT, 0, DROP, "\tx",
     1, {0, 0, 0, 2, 0, 6, 0, 6, 0, 3, 0},
     1, {PRINTED, 1, 2, 0, 6, 0}},

    /* ---- U+2007 and U+202F, which glue as U+00A0 does: those that the definitions are held to */

    /* a number: cut like any word, whole, and waiting whole behind another word */
    {6, 24, LEFT, 1, DROP, "12" NARROW "345",
     2, {0, 0, 0, 3, 0, 6, 0, 24, 0, 9, 0, /**/ 6, 0, 0, 2, 0, 6, 0, 12, 0, 9, 4},
     4, {PRINTED, 0, 2, 0, 12, 0, /**/ SPACE, 2, 5, 1, 6, 12, /**/ PRINTED, 5, 6, 0, 6, 18, /**/
         PRINTED, 6, 8, 0, 12, 0}},
    {6, 36, LEFT, 1, DROP, "12" NARROW "345",
     1, {0, 0, 0, 2, 0, 6, 0, 36, 0, 9, 0},
     3, {PRINTED, 0, 2, 0, 12, 0, /**/ SPACE, 2, 5, 1, 6, 12, /**/ PRINTED, 5, 8, 0, 18, 18}},
    {6, 48, LEFT, 1, DROP, "ab 12" NARROW "345",
     2, {0, 0, 0, 3, 0, 6, 0, 12, 0, 12, 0, /**/ 3, 0, 0, 2, 0, 6, 0, 36, 0, 12, 3},
     5, {PRINTED, 0, 2, 0, 12, 0, /**/ SPACE, 2, 3, 1, 0, 12, /**/ PRINTED, 3, 5, 0, 12, 0, /**/
         SPACE, 5, 8, 1, 6, 12, /**/ PRINTED, 8, 11, 0, 18, 18}},
    /* lines that begin and end with each of the three; leading spaces are off, and none is skipped */
    {6, 30, LEFT, 0, DROP, NBSP "a" NBSP "\n" FIGURE "b" FIGURE "\n" NARROW "c" NARROW,
     3, {0, 0, 0, 0, 0, 6, 0, 18, 0, 6, 0, /**/ 6, 0, 0, 0, 0, 6, 0, 18, 0, 14, 4, /**/
         14, 0, 0, 2, 0, 6, 0, 18, 0, 22, 8},
     14, {SPACE, 0, 2, 1, 6, 0, /**/ PRINTED, 2, 3, 0, 6, 6, /**/ SPACE, 3, 5, 1, 6, 12, /**/
          PRINTED, 5, 5, 0, 0, 18, /**/ SPACE, 5, 6, 0, 0, 18, /**/ SPACE, 6, 9, 1, 6, 0, /**/
          PRINTED, 9, 10, 0, 6, 6, /**/ SPACE, 10, 13, 1, 6, 12, /**/ PRINTED, 13, 13, 0, 0, 18, /**/
          SPACE, 13, 14, 0, 0, 18, /**/ SPACE, 14, 17, 1, 6, 0, /**/ PRINTED, 17, 18, 0, 6, 6, /**/
          SPACE, 18, 21, 1, 6, 12, /**/ PRINTED, 21, 21, 0, 0, 18}},
    /* a word of the three alone, whole and cut into lines of one */
    {6, 30, LEFT, 1, DROP, NBSP FIGURE NARROW,
     1, {0, 0, 0, 2, 0, 6, 0, 18, 0, 9, 0},
     4, {SPACE, 0, 2, 1, 6, 0, /**/ SPACE, 2, 5, 1, 6, 6, /**/ SPACE, 5, 8, 1, 6, 12, /**/ PRINTED, 8, 8, 0, 0, 18}},
    {6, 6, LEFT, 1, DROP, NBSP FIGURE NARROW,
     3, {0, 0, 0, 3, 0, 6, 0, 6, 0, 9, 0, /**/ 2, 0, 0, 3, 0, 6, 0, 6, 0, 9, 1, /**/ 5, 0, 0, 2, 0, 6, 0, 6, 0, 9, 2},
     6, {SPACE, 0, 2, 1, 6, 0, /**/ PRINTED, 2, 2, 0, 0, 6, /**/ SPACE, 2, 5, 1, 6, 0, /**/
         PRINTED, 5, 5, 0, 0, 6, /**/ SPACE, 5, 8, 1, 6, 0, /**/ PRINTED, 8, 8, 0, 0, 6}},
    /* justified: each is as wide as the next space, the first has the extra pixel, and the line ends at the edge */
    {6, 39, JUSTIFIED, 0, DROP, "a" FIGURE "b" NARROW "c dd",
     2, {0, 0, 0, 3, 0, 10, 1, 30, 0, 13, 0, /**/ 10, 0, 0, 2, 0, 6, 0, 12, 0, 13, 6},
     6, {PRINTED, 0, 1, 0, 6, 0, /**/ SPACE, 1, 4, 1, 11, 6, /**/ PRINTED, 4, 5, 0, 6, 17, /**/
         SPACE, 5, 8, 1, 10, 23, /**/ PRINTED, 8, 9, 0, 6, 33, /**/ PRINTED, 10, 12, 0, 12, 0}},
    {6, 51, JUSTIFIED, 0, DROP, "aa" NARROW "bb cc dd",
     2, {0, 0, 0, 3, 0, 7, 1, 48, 0, 12, 0, /**/ 11, 0, 0, 2, 0, 6, 0, 12, 0, 14, 9},
     6, {PRINTED, 0, 2, 0, 12, 0, /**/ SPACE, 2, 5, 1, 8, 12, /**/ PRINTED, 5, 7, 0, 12, 20, /**/
         SPACE, 7, 8, 1, 7, 32, /**/ PRINTED, 8, 10, 0, 12, 39, /**/ PRINTED, 11, 13, 0, 12, 0}},

    /* ---- even spaces: those that the laws are held to */

    /* two extra pixels go to the first two spaces, which stand together; a skipped space takes the extra pixel */
    {6, 54, JUSTIFIED, 0, DROP, "a  b" NBSP "c d ee",
     2, {0, 0, 0, 3, 0, 7, 2, 48, 0, 13, 0, /**/ 10, 0, 0, 2, 0, 6, 0, 12, 0, 13, 9},
     8, {PRINTED, 0, 1, 0, 6, 0, /**/ SPACE, 1, 3, 2, 16, 6, /**/ PRINTED, 3, 4, 0, 6, 22, /**/
         SPACE, 4, 6, 1, 7, 28, /**/ PRINTED, 6, 7, 0, 6, 35, /**/ SPACE, 7, 8, 1, 7, 41, /**/
         PRINTED, 8, 9, 0, 6, 48, /**/ PRINTED, 10, 12, 0, 12, 0}},
    {6, 51, JUSTIFIED, 0, DROP, " aa bb ccc",
     2, {0, 0, 0, 3, 0, 16, 1, 30, 0, 11, 0, /**/ 7, 0, 0, 2, 0, 6, 0, 18, 0, 11, 7},
     5, {SPACE, 0, 1, 1, 0, 0, /**/ PRINTED, 1, 3, 0, 12, 0, /**/ SPACE, 3, 4, 1, 16, 12, /**/
         PRINTED, 4, 6, 0, 12, 28, /**/ PRINTED, 7, 10, 0, 18, 0}},
    /* the smallest texts whose draw prints "-" where the measure prints a word, and ends before the edge: at 7, at 4 */
    {2, 8, JUSTIFIED, 1, DROP, " a" SHY NBSP SHY "\r",
     3, {0, 0, 0, 3, 0, 3, 0, 6, 0, 9, 0, /**/ 4, 0, 0, 1, 0, 8, 0, 2, 0, 9, 3, /**/ 9, 0, 0, 2, 0, 2, 0, 0, 0, 10, 6},
     6, {SPACE, 0, 1, 1, 3, 0, /**/ PRINTED, 1, 2, 0, 2, 3, /**/ PRINTED, 2, 4, 0, 2, 5, /**/
         SPACE, 4, 6, 1, 8, 0, /**/ PRINTED, 6, 6, 0, 0, 8, /**/ SPACE, 8, 9, 0, 0, 8}},
    {1, 5, JUSTIFIED, 1, DROP, " a" SHY "bb" SHY "\r",
     3, {0, 0, 0, 3, 0, 2, 0, 4, 0, 9, 0, /**/ 4, 0, 0, 1, 0, 1, 0, 2, 0, 9, 3, /**/ 9, 0, 0, 2, 0, 1, 0, 0, 0, 10, 7},
     5, {SPACE, 0, 1, 1, 2, 0, /**/ PRINTED, 1, 2, 0, 1, 2, /**/ PRINTED, 2, 4, 0, 1, 3, /**/
         PRINTED, 4, 6, 0, 2, 0, /**/ SPACE, 8, 9, 0, 0, 2}},

    /* ---- words that wait: those that the definitions are held to */

    /* nothing is dropped after an indent as wide as the box, and the clue is whole */
    {6, 30, LEFT, 1, WAIT, "     ab",
     2, {0, 0, 0, 3, 0, 6, 0, 0, 0, 8, 0, /**/ 5, 0, 0, 2, 0, 6, 0, 12, 0, 8, 5},
     2, {SPACE, 0, 5, 5, 30, 0, /**/ PRINTED, 5, 7, 0, 12, 0}},
    {6, 30, LEFT, 1, WAIT, "     not the baker",
     4, {0, 0, 0, 3, 0, 6, 0, 0, 0, 9, 0, /**/ 5, 0, 0, 3, 0, 6, 0, 18, 0, 13, 5, /**/
         9, 0, 0, 3, 0, 6, 0, 18, 0, 19, 9, /**/ 13, 0, 0, 2, 0, 6, 0, 30, 0, 19, 13},
     6, {SPACE, 0, 5, 5, 30, 0, /**/ PRINTED, 5, 8, 0, 18, 0, /**/ SPACE, 8, 9, 1, 0, 18, /**/
         PRINTED, 9, 12, 0, 18, 0, /**/ SPACE, 12, 13, 1, 0, 18, /**/ PRINTED, 13, 18, 0, 30, 0}},
    /* each line that begins with such an indent is laid so, not the first alone */
    {6, 12, LEFT, 1, WAIT, "a\n  b",
     3, {0, 0, 0, 0, 0, 6, 0, 6, 0, 2, 0, /**/ 2, 0, 0, 3, 0, 6, 0, 0, 0, 6, 2, /**/ 4, 0, 0, 2, 0, 6, 0, 6, 0, 6, 4},
     4, {PRINTED, 0, 1, 0, 6, 0, /**/ SPACE, 1, 2, 0, 0, 6, /**/ SPACE, 2, 4, 2, 12, 0, /**/ PRINTED, 4, 5, 0, 6, 0}},
    /* a "-" fills the box, and the word behind it waits */
    {6, 6, LEFT, 1, WAIT, SHY "ab",
     3, {0, 0, 0, 3, 0, 6, 0, 6, 0, 5, 0, /**/ 2, 0, 0, 3, 0, 6, 0, 6, 0, 5, 1, /**/ 3, 0, 0, 2, 0, 6, 0, 6, 0, 5, 2},
     3, {PRINTED, 0, 2, 0, 6, 0, /**/ PRINTED, 2, 3, 0, 6, 0, /**/ PRINTED, 3, 4, 0, 6, 0}},
    /* a box narrower than a glyph drops all the same */
    {6, 5, LEFT, 1, WAIT, "abc",
     2, {0, 0, 0, 3, 0, 6, 0, 0, 3, 4, 0, /**/ 3, 0, 0, 2, 0, 6, 0, 0, 0, 4, 3},
     0, {0}},
    /* a tab that does not fit has moved the cursor too */
    {6, 20, LEFT, 1, WAIT, "\tx",
     2, {0, 0, 0, 3, 0, 6, 0, 0, 0, 3, 0, /**/ 1, 0, 0, 2, 0, 6, 0, 6, 0, 3, 1},
     2, {MOVE, 0, 1, 0, 20, 0, /**/ PRINTED, 1, 2, 0, 6, 0}},
    /* to the right: measured, the tab moves the cursor and "a" waits; drawn from the edge, nothing moves, and "a" is
       dropped */
    {24, 47, RIGHT, 1, WAIT, "\ta",
     2, {0, 0, 0, 3, 47, 24, 0, 0, 1, 3, 0, /**/ 2, 0, 0, 2, 47, 24, 0, 0, 0, 3, 2},
     1, {MOVE, 0, 1, 0, 0, 47}},
    /* centred: measured, "a" fits; drawn from 12, the tab goes on to the next stop, and "a" waits */
    {12, 59, CENTRE, 1, WAIT, " \ta",
     2, {0, 0, 0, 3, 12, 12, 0, 36, 0, 4, 0, /**/ 2, 0, 0, 2, 24, 12, 0, 12, 0, 4, 2},
     3, {SPACE, 0, 1, 1, 12, 12, /**/ SPACE, 1, 2, 0, 24, 24, /**/ PRINTED, 2, 3, 0, 12, 24}},
    /* justified: measured, "a" fits; drawn, a wider space and the tab behind it take the room, and "a" waits */
    {6, 74, JUSTIFIED, 1, WAIT, " \ta\r",
     3, {0, 0, 0, 3, 0, 50, 0, 30, 0, 4, 0, /**/ 2, 0, 0, 1, 0, 6, 0, 6, 0, 4, 2, /**/ 4, 0, 0, 2, 0, 6, 0, 0, 0, 5, 4},
     4, {SPACE, 0, 1, 1, 50, 0, /**/ SPACE, 1, 2, 0, 22, 50, /**/ PRINTED, 2, 3, 0, 6, 0, /**/ SPACE, 3, 4, 0, 0, 6}},
};
/* clang-format on */

static int drops_nothing(const struct example *x)
{
    uint32_t dropped = 0;
    for (size_t k = 0; k < x->count; k++) {
        dropped += x->lines[BISQUEMOP_LINE_NUMBERS * k + BISQUEMOP_LINE_DROPPED];
    }
    return dropped == 0;
}

void each_example(void (*test)(const char *what, struct bisquemop_settings s, const uint8_t *text, size_t len,
                               const struct example *x))
{
    for (size_t i = 0; i < sizeof examples / sizeof examples[0]; i++) {
        const struct example *x = &examples[i];
        struct bisquemop_settings s = laid(x->glyph, x->width, x->alignment, x->leading, x->wrap);
        char what[64];
        snprintf(what, sizeof what, "example %lu", (unsigned long)i);
        test(what, s, (const uint8_t *)x->text, strlen(x->text), x);
        if (s.wrap == DROP && drops_nothing(x)) {
            s.wrap = WAIT;
            snprintf(what, sizeof what, "example %lu, words wait", (unsigned long)i);
            test(what, s, (const uint8_t *)x->text, strlen(x->text), x);
        }
    }
}

/* Settings come first, then the text. */
void each_unlaid(void (*test)(const struct unlaid *x, size_t table_room, size_t events_room), size_t table_room,
                 size_t events_room)
{
    static uint8_t too_long[BISQUEMOP_TEXT_MAX + 1], too_long_and_bad[BISQUEMOP_TEXT_MAX + 1];
    static const uint8_t bad[] = {'a', 0xC3};
    struct bisquemop_settings good = laid(6, 30, JUSTIFIED, 1, WAIT);
    struct bisquemop_settings high = good, vertical = good, both, small, large, trailing, wrap;
    memset(too_long, 'a', sizeof too_long);
    memset(too_long_and_bad, 'a', sizeof too_long_and_bad);
    too_long_and_bad[0] = 0xFF;
    high.top = BISQUEMOP_TOP_MIN - 1;
    high.vertical = BISQUEMOP_VERTICAL_BOTTOM;
    vertical.vertical = BISQUEMOP_VERTICAL_BOTTOM + 1;
    both = vertical;
    both.alignment = JUSTIFIED + 1;
    small = large = trailing = wrap = both;
    small.glyph = BISQUEMOP_GLYPH_MIN - 1;
    large.glyph = BISQUEMOP_GLYPH_MAX + 1;
    trailing.trailing = 1;
    wrap.wrap = WAIT + 1;
    const struct unlaid list[] = {
        {"glyph 0", small, bad, sizeof bad, BISQUEMOP_SETTING_OUT_OF_RANGE, 0},
        {"glyph 65", large, bad, sizeof bad, BISQUEMOP_SETTING_OUT_OF_RANGE, 0},
        {"trailing 1", trailing, bad, sizeof bad, BISQUEMOP_SETTING_OUT_OF_RANGE, 0},
        {"wrap 2", wrap, bad, sizeof bad, BISQUEMOP_SETTING_OUT_OF_RANGE, 0},
        {"both alignments", both, bad, sizeof bad, BISQUEMOP_UNKNOWN_ALIGNMENT, 4},
        {"vertical", vertical, too_long, sizeof too_long, BISQUEMOP_UNKNOWN_ALIGNMENT, 3},
        {"top", high, too_long, 1, BISQUEMOP_SETTING_OUT_OF_RANGE, 0},
        {"too long", good, too_long, sizeof too_long, BISQUEMOP_TEXT_TOO_LONG, sizeof too_long},
        {"too long and not UTF-8", good, too_long_and_bad, sizeof too_long_and_bad, BISQUEMOP_TEXT_TOO_LONG,
         sizeof too_long_and_bad},
        {"not UTF-8", good, bad, sizeof bad, BISQUEMOP_NOT_UTF8, 1},
    };
    for (size_t i = 0; i < sizeof list / sizeof list[0]; i++) {
        test(&list[i], table_room, events_room);
    }
}
