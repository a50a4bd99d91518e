/*
 * What the programs of dist/ ask of the system besides the C library: their words, memory, and errno. The Rattle kit has functions of these
 * names for the programs that rt makes; here are those for the modules of dist/, on Linux. A slice is a pointer and how many bytes it
 * has.
 */
#include <errno.h>
#include <stdint.h>
#include <stdlib.h>
#include <string.h>

/* What an allocation answers: 1 and the block, or 0 and an address that nothing is read from. */
struct tried {
    uint64_t ok;
    void *block;
};

int32_t rattle_errno(void);
void rattle_set_errno(int32_t number);
uint64_t rattle_arg_count(void);
int64_t rattle_arg(uint64_t which, uint8_t *to, uint64_t room);
struct tried rattle_alloc(uint64_t size, uint64_t alignment);
struct tried rattle_realloc(void *block, uint64_t kept, uint64_t size, uint64_t alignment);
void rattle_dealloc(void *block);

/* The program's words. The C library hands them to what it runs before main, which has no parameter here. */
static char **words;
static uint64_t word_count;

__attribute__((constructor)) static void keep_words(int count, char **given)
{
    words = given;
    word_count = (uint64_t)count;
}

uint64_t rattle_arg_count(void)
{
    return word_count;
}

/* The length of a word, which is copied; -1 where there is no such word, and -2 where it is too long: then its front is copied. */
int64_t rattle_arg(uint64_t which, uint8_t *to, uint64_t room)
{
    if (which >= word_count) {
        return -1;
    }
    uint64_t length = strlen(words[which]);
    memcpy(to, words[which], length < room ? length : room);
    return length <= room ? (int64_t)length : -2;
}

int32_t rattle_errno(void)
{
    return errno;
}

void rattle_set_errno(int32_t number)
{
    errno = number;
}

static struct tried tried_with(void *block)
{
    static char none;
    struct tried tried = {block != NULL, block != NULL ? block : &none};
    return tried;
}

/* A block of no bytes is one of as many as its alignment, which is 16 at most: the C library aligns each block so. */
struct tried rattle_alloc(uint64_t size, uint64_t alignment)
{
    return tried_with(malloc(size > 0 ? size : alignment));
}

struct tried rattle_realloc(void *block, uint64_t kept, uint64_t size, uint64_t alignment)
{
    (void)kept;
    return tried_with(realloc(block, size > 0 ? size : alignment));
}

void rattle_dealloc(void *block)
{
    free(block);
}
