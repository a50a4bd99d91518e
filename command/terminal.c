/* What differs where a terminal shows what is printed. */
#define _POSIX_C_SOURCE 200809L
#include "terminal.h"

#include <inttypes.h>
#include <stdio.h>
#include <stdlib.h>
#include <time.h>
#include <unistd.h>

static int in_colour(void)
{
    const char *no_colour = getenv("NO_COLOR");
    return isatty(STDOUT_FILENO) && (!no_colour || !no_colour[0]);
}

void begin_mark(void)
{
    printf("%s", in_colour() ? "\033[31m" : "[");
}

void end_mark(void)
{
    printf("%s", in_colour() ? "\033[0m" : "]");
}

/* ---- how far it is */

static int64_t last_shown; /* in milliseconds; 0 before the first time */
static int is_shown;

static int64_t milliseconds(void)
{
    struct timespec now;
    clock_gettime(CLOCK_MONOTONIC, &now);
    return (int64_t)now.tv_sec * 1000 + now.tv_nsec / 1000000 + 1;
}

void show_progress(uint64_t files_done, uint64_t files, uint64_t lose)
{
    int64_t now = milliseconds();
    if (isatty(STDERR_FILENO) && (last_shown == 0 || now - last_shown >= 100)) {
        fprintf(stderr, "\r\033[K%" PRIu64 " of %" PRIu64 " files, %" PRIu64 " lose characters", files_done, files,
                lose);
        fflush(stderr);
        last_shown = now;
        is_shown = 1;
    }
}

void clear_progress(void)
{
    if (is_shown) {
        fprintf(stderr, "\r\033[K");
        fflush(stderr);
        is_shown = 0;
    }
}
