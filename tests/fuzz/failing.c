/*
 * Memory that runs out, and folders that cannot be read to their end. It is loaded before the C library, in place of its
 * calls, and goes by the environment:
 *
 *   FAILS_AT=N      the N-th time that memory is asked for there is none
 *   FAILS_FROM=N    nor is there from then on
 *   FOLDER_ENDS=N   the N-th entry of a folder cannot be read
 */
#include <dirent.h>
#include <dlfcn.h>
#include <errno.h>
#include <stdint.h>
#include <stdlib.h>
#include <string.h>

/* ---- memory */

/* What is handed out, one after the other. Nothing is taken back: a program that is tried needs little. */
enum { ALIGNED = 16, ALL_BYTES = 1 << 26 };
static uint8_t all[ALL_BYTES] __attribute__((aligned(ALIGNED)));
static size_t used;
static long asked, read_so_far;

/* A number that the environment has, or one that is never reached. */
static long number_of(const char *name)
{
    const char *number = getenv(name);
    return number ? strtol(number, NULL, 10) : -1;
}

static int fails(void)
{
    long from = number_of("FAILS_FROM");
    asked++;
    return asked == number_of("FAILS_AT") || (from > 0 && asked >= from);
}

/* Before what is handed out stands how long it is. */
void *malloc(size_t size)
{
    size_t room = (size + ALIGNED - 1) / ALIGNED * ALIGNED + ALIGNED;
    uint8_t *at = all + used;
    if (fails() || size > ALL_BYTES || room > ALL_BYTES - used) {
        errno = ENOMEM;
        return NULL;
    }
    used += room;
    memcpy(at, &size, sizeof size);
    return at + ALIGNED;
}

void *calloc(size_t count, size_t size)
{
    /* it has never been used, so it is 0 */
    return size > 0 && count > ALL_BYTES / size ? NULL : malloc(count * size + 1);
}

void *realloc(void *old, size_t size)
{
    void *at = malloc(size);
    size_t before;
    if (at && old) {
        memcpy(&before, (uint8_t *)old - ALIGNED, sizeof before);
        memcpy(at, old, before < size ? before : size);
    }
    return at;
}

void free(void *at)
{
    (void)at;
}

/* ---- folders */

static struct dirent *(*real_readdir)(DIR *);

/* The C library's own, found before the program begins: what that takes is not counted. */
static void __attribute__((constructor)) find_real(void)
{
    void *found = dlsym(dlopen("libc.so.6", RTLD_LAZY), "readdir");
    memcpy(&real_readdir, &found, sizeof found);
    asked = 0;
}

struct dirent *readdir(DIR *folder)
{
    read_so_far++;
    if (read_so_far == number_of("FOLDER_ENDS")) {
        errno = EIO;
        return NULL;
    }
    return real_readdir(folder);
}
