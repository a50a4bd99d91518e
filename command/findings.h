/* What a check found, as lines for people or as JSON. */
#ifndef FINDINGS_H
#define FINDINGS_H

#include "laid.h"

/* What was counted. */
struct tally {
    uint64_t files, lose, refused;
};

/* Before the first finding, with the widths, and after the last. */
void begin_findings(int json, const uint32_t *widths, size_t width_count);
void end_findings(const struct tally *tally, size_t width_count);

/* A text that loses something in this layout, and one that was refused. */
void find_lost(const struct laid *laid);
void find_refused(const struct trouble *trouble, const struct text *text);

#endif
