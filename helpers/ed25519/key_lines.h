/* What is printed of the keys of a folder: lines for plans, and lines that only say. */
#ifndef KEY_LINES_H
#define KEY_LINES_H

/* Makes a key with the code, and prints its line `key`, as a plan takes it. */
void print_new(const char *folder, char code);

/* Makes a key that an event is to promise, and prints the line `next` with its digest by this code, and nothing by
   which a plan could present it. */
void print_next(const char *folder, char code);

/* Prints of each key that is kept what the folder knows of it, its lines for plans, and its digests. Lines that only
   say begin with a number sign, which no plan takes. */
void print_kept(const char *folder);

#endif
