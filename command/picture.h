/* Lines of a laid text as rows in a frame, with what is lost beside them. */
#ifndef PICTURE_H
#define PICTURE_H

#include "laid.h"

/* The upper or the lower side of the frame. */
void draw_side(const struct laid *laid);

/* The lines from `first` up to `end`, a row each. */
void draw_lines(const struct laid *laid, uint64_t first, uint64_t end);

#endif
