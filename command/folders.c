/* The files in some folders. */
#define _POSIX_C_SOURCE 200809L
#include "folders.h"

#include "command.h"

#include <dirent.h>
#include <errno.h>
#include <stdio.h>
#include <stdlib.h>
#include <string.h>
#include <sys/stat.h>

/* ---- lists of paths */

static void *must_have(void *memory)
{
    if (!memory) {
        fprintf(stderr, "bisquemop: there is no memory left\n");
        exit(NOT_DONE);
    }
    return memory;
}

/* Adds a path whose name was allocated, and is the list's from now on. */
static void add_path(struct paths *paths, char *name, int error)
{
    if (paths->count == paths->room) {
        paths->room = 2 * paths->room + 16;
        paths->all = must_have(realloc(paths->all, paths->room * sizeof *paths->all));
    }
    paths->all[paths->count].name = name;
    paths->all[paths->count].error = error;
    paths->count++;
}

void free_paths(struct paths *paths)
{
    for (size_t k = 0; k < paths->count; k++) {
        free(paths->all[k].name);
    }
    free(paths->all);
}

static int by_bytes(const void *a, const void *b)
{
    const struct path *one = a, *other = b;
    return strcmp(one->name, other->name);
}

void sort_paths(struct paths *paths)
{
    if (paths->count > 0) {
        qsort(paths->all, paths->count, sizeof *paths->all, by_bytes);
    }
}

/* ---- folders */

static char *path_in(const char *folder, const char *name)
{
    size_t count = strlen(folder);
    int ends_in_slash = count > 0 && folder[count - 1] == '/';
    size_t room = count + strlen(name) + 2;
    char *path = must_have(malloc(room));
    snprintf(path, room, "%s%s%s", folder, ends_in_slash ? "" : "/", name);
    return path;
}

/* Puts what is in a folder where it belongs: to the files or to the folders. A link to a folder is left out, since it
   may lead back. What cannot be looked at is a file, whose reading says why. */
static void sort_out(char *path, struct paths *files, struct paths *folders)
{
    struct stat itself, meant;
    int is_there = lstat(path, &itself) == 0;
    if (is_there && S_ISDIR(itself.st_mode)) {
        add_path(folders, path, 0);
    } else if (is_there && stat(path, &meant) == 0 && !S_ISREG(meant.st_mode)) {
        free(path);
    } else {
        add_path(files, path, 0);
    }
}

/* Goes through an open folder. Answers 0, or errno if it came to no end. */
static int read_folder(DIR *folder, const char *path, struct paths *files, struct paths *folders)
{
    struct dirent *entry;
    errno = 0;
    while ((entry = readdir(folder))) {
        if (entry->d_name[0] != '.') {
            sort_out(path_in(path, entry->d_name), files, folders);
        }
        errno = 0;
    }
    return errno;
}

/* What is in a folder, and the folder itself where it cannot be read. */
static void open_folder(const char *path, struct paths *files, struct paths *folders)
{
    DIR *folder = opendir(path);
    int error = folder ? read_folder(folder, path, files, folders) : errno;
    if (error) {
        add_path(files, must_have(strdup(path)), error);
    }
    if (folder) {
        closedir(folder);
    }
}

int add_files(struct paths *paths, const char *path)
{
    struct paths folders = {NULL, 0, 0};
    struct stat meant;
    if (stat(path, &meant) != 0) {
        return errno;
    }
    add_path(S_ISDIR(meant.st_mode) ? &folders : paths, must_have(strdup(path)), 0);
    for (size_t k = 0; k < folders.count; k++) {
        open_folder(folders.all[k].name, paths, &folders);
    }
    free_paths(&folders);
    return 0;
}
