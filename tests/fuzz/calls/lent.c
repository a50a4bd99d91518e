/* Buffers beside pages that cannot be touched. */
#define _POSIX_C_SOURCE 200809L
#include "lent.h"

#include "chosen.h"

#include <fcntl.h>
#include <stdio.h>
#include <stdlib.h>
#include <string.h>
#include <sys/mman.h>
#include <unistd.h>

struct lent lent[PLACES];

/* The pages of each place that can be touched, and what was kept of it. */
static uint8_t *begin[PLACES], *end[PLACES], *held[PLACES];

static uint8_t *must_map(size_t bytes)
{
    int zeroes = open("/dev/zero", O_RDWR);
    void *at = mmap(NULL, bytes, PROT_READ | PROT_WRITE, MAP_PRIVATE, zeroes, 0);
    if (zeroes < 0 || at == MAP_FAILED) {
        perror("calls: mmap");
        exit(2);
    }
    close(zeroes);
    return at;
}

void make_places(void)
{
    size_t page = (size_t)sysconf(_SC_PAGESIZE), inside = (LENT_MAX + page - 1) / page * page;
    for (int place = 0; place < PLACES; place++) {
        uint8_t *at = must_map(inside + 2 * page);
        held[place] = must_map(inside);
        begin[place] = at + page;
        end[place] = begin[place] + inside;
        if (mprotect(at, page, PROT_NONE) != 0 || mprotect(end[place], page, PROT_NONE) != 0) {
            perror("calls: mprotect");
            exit(2);
        }
    }
}

void lend_nothing(void)
{
    memset(lent, 0, sizeof lent);
}

void lend(enum place place, size_t bytes)
{
    struct lent *it = &lent[place];
    if (bytes > LENT_MAX) {
        bytes = LENT_MAX;
    }
    it->bytes = bytes;
    it->may_change = 0;
    it->at = one_in(4) ? begin[place] : end[place] - bytes;
    if (bytes == 0 && one_in(2)) {
        it->at = NULL;
    }
    if (bytes > 0) {
        fill(it->at, bytes);
    }
}

void keep_held(void)
{
    for (int place = 0; place < PLACES; place++) {
        if (lent[place].bytes > 0) {
            memcpy(held[place], lent[place].at, lent[place].bytes);
        }
    }
}

void put_back(void)
{
    for (int place = 0; place < PLACES; place++) {
        if (lent[place].bytes > 0) {
            memcpy(lent[place].at, held[place], lent[place].bytes);
        }
    }
}

int all_is_kept(void)
{
    for (int place = 0; place < PLACES; place++) {
        const struct lent *it = &lent[place];
        size_t from = it->may_change;
        if (from < it->bytes && memcmp(it->at + from, held[place] + from, it->bytes - from) != 0) {
            return 0;
        }
    }
    return 1;
}
