/* A file of lines in the key folder, which is locked while it is open. Its whole lines are read, and a line is put behind
   them so that it outlasts a crash. Functions that answer a text answer NULL, or what failed. */
#ifndef RECORD_LINES_H
#define RECORD_LINES_H

#include <stdbool.h>
#include <stddef.h>
#include <sys/types.h>

enum { MOST_LINE = 168 };

/* A file that is open and locked, and where its whole lines end. */
struct lines {
    int file;
    off_t end;
};

/* Takes a line, without its line feed and with a NUL in its place, and where it begins. Answers whether it was one. */
typedef bool line_taker(const char *line, size_t length, off_t at, void *into);

/* A fault of a record as it is told; the text stands until the next one. */
const char *told(const char *text);

/* What is told of a file that isn't as it was left. */
const char *damaged(void);

/* Opens a file of the folder, made where it isn't there, which has to be plain and the caller's alone. -1 goes to the
   file where there is none to be closed. */
const char *open_private(int folder, const char *name, int *file);

/* Opens such a file and locks it, once it still has that name when it is locked. */
const char *open_locked(int folder, const char *name, int *file);

/* Hands each whole line to the taker, from the noted end on, and notes where they end now. A last one that isn't whole, or isn't taken, is left out: a stop
   left it, and no signature went out with it. */
const char *read_lines(struct lines *lines, line_taker *take, void *into);

/* Reads the whole line that begins there, as a taker gets it. */
const char *read_line_at(const struct lines *lines, off_t at, char line[MOST_LINE + 1], size_t *length);

/* Puts a line behind the whole ones. At a fault it isn't there. */
const char *append(const struct lines *lines, const char *text);

/* Syncs the file, and its name in the folder where that isn't -1. Of a line that was put behind the whole ones and couldn't be synced nothing is left that
   could pass for one that was. */
const char *sync_lines(const struct lines *lines, int folder);

#endif
