/* The files in some folders. */
#ifndef FOLDERS_H
#define FOLDERS_H

#include <stddef.h>

/* A file, or a folder that could not be read to its end: then `error` says why. */
struct path {
    char *name;
    int error;
};

struct paths {
    struct path *all;
    size_t count, room;
};

/* Adds a file, or all regular files in a folder and in those below it, but hidden ones; and what cannot be read of the
   folders. Answers 0, or errno if there is no such file or folder. */
int add_files(struct paths *paths, const char *path);

/* Puts them in the order of their bytes. */
void sort_paths(struct paths *paths);

void free_paths(struct paths *paths);

#endif
