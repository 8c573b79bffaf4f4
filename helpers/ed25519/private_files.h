/* A folder and files that are the caller's, and that nobody else can read or write. What is wrong with a folder ends the
   program with KEY_FAULT. */
#ifndef PRIVATE_FILES_H
#define PRIVATE_FILES_H

#include <dirent.h>
#include <stdbool.h>
#include <stddef.h>
#include <sys/stat.h>
#include <sys/types.h>

/* What is wrong with what was found, which has to be of the kind and the caller's alone; or NULL. */
const char *fault_of(const struct stat *found, mode_t kind);

/* Opens a folder that is the caller's alone, and no link. */
int open_folder(const char *path);

/* Opens the folder, made where it isn't there, once its name is kept and all in it is the caller's alone. */
int open_or_make_folder(const char *path);

/* The entries of the folder from the first on, to be read one by one. */
DIR *entries_of(int folder, const char *path);

/* Writes a new file and syncs it. Answers NULL, or what failed, and then there is no such file. */
const char *write_new_file(int folder, const char *name, const void *bytes, size_t length);

/* Reads so many bytes of a file that is the caller's alone, or fewer only where it ends; how many goes to the count, and
   whether there is such a file is told. Answers NULL, or what is wrong with what is there. */
const char *read_file(int folder, const char *name, void *bytes, size_t room, ssize_t *count, bool *is_there);

#endif
