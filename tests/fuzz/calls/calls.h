/* Every call of the header, with what one case lends it. */
#ifndef CALLS_H
#define CALLS_H

#include <stdint.h>

/* How many calls there are. */
unsigned calls(void);
const char *call_name(unsigned call);

/* Chooses what the call is lent and given, by the input, and makes it; twice the same, it answers the same. What it was
   done with, and may change therefore, stands in `lent`. Answers what the call returned. */
void prepare(unsigned call);
uint32_t make(unsigned call);

/* NULL, or what was wrong with what a call has said that is done. */
const char *said_wrong(void);

#endif
