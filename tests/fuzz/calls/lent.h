/*
 * What a call is lent: buffers that end where a page begins that cannot be touched, or begin where one ends, so that who
 * reads or writes a byte too many is stopped; and what they held, to see what a call has changed.
 */
#ifndef LENT_H
#define LENT_H

#include <stddef.h>
#include <stdint.h>

/* A place for each thing that a call is lent. */
enum place { TEXT, OTHER, TABLE, SECOND, NUMBERS, VALUE, COUNT, SMALL, ANOTHER, PLACES };

struct lent {
    uint8_t *at; /* may be NULL where there are no bytes */
    size_t bytes;
    size_t may_change; /* of its first bytes */
};
extern struct lent lent[PLACES];

/* The most bytes that any of them has. */
#define LENT_MAX ((size_t)3200000)

/* Finds the pages. To be called once. */
void make_places(void);

/* Lends nothing. */
void lend_nothing(void);

/* Lends so many bytes, of no meaning. */
void lend(enum place place, size_t bytes);

/* Keeps what all of them hold, and puts it back. */
void keep_held(void);
void put_back(void);

/* Whether no byte has changed that may not. */
int all_is_kept(void);

/* What a call takes of a place: a pointer and how many elements there are. */
#define BYTES_OF(place) lent[place].at, lent[place].bytes
#define NUMBERS_AT(place) ((uint32_t *)(void *)lent[place].at)
#define NUMBERS_OF(place) NUMBERS_AT(place), lent[place].bytes / 4
#define YS_OF(place) ((int32_t *)(void *)lent[place].at), lent[place].bytes / 4
#define WIDE_AT(place) ((uint64_t *)(void *)lent[place].at)

#endif
