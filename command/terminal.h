/* What differs where a terminal shows what is printed: marks in colour, and the line that says how far it is. */
#ifndef TERMINAL_H
#define TERMINAL_H

#include <stdint.h>

/* Around what is lost, on standard output: red on a terminal, unless NO_COLOR is set; else brackets. */
void begin_mark(void);
void end_mark(void);

/* Says on standard error, if that is a terminal, how many files are done: at most ten times a second. */
void show_progress(uint64_t files_done, uint64_t files, uint64_t lose);

/* Takes that line away, before something else is printed. */
void clear_progress(void);

#endif
