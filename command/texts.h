/* Reading a text from a file, and why one cannot be used. */
#ifndef TEXTS_H
#define TEXTS_H

#include <bisquemop.h>
#include <stddef.h>

/* Why something cannot be used: it cannot be read, or a call refused it. */
struct trouble {
    int error;       /* errno, or 0 */
    uint32_t number; /* one of enum bisquemop_refusal */
    uint64_t value;  /* what goes with it */
};

struct text {
    const char *path;
    uint8_t bytes[BISQUEMOP_TEXT_MAX + 1]; /* with a line feed that is no part of it */
    uint64_t len;                          /* of the file; more than the bytes that are kept if it is too long */
};

/* A length that is not known, but that there is no room for it: that of a device or a pipe, which may have no end. */
#define MORE_THAN_ROOM UINT64_MAX

/* Reads a file, or standard input for -, as far as there is room. *len is how many bytes it has. Answers 0 or errno. */
int read_bytes(const char *path, uint8_t *bytes, size_t room, uint64_t *len);

/* Reads the text of a file and checks it; a path of - is a file of that name. Answers whether it can be used. */
int read_text_file(const char *path, int chomp, struct text *text, struct trouble *trouble);

/* Reads a text, of standard input for -, or says why not and ends the program. A path of NULL is a file that was not
   given. */
struct words;
void must_read_text(const struct words *words, const char *path, int chomp, struct text *text);

#endif
