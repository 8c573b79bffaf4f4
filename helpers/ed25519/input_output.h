/* Whole reads and writes, and the program's end with a fault. */
#ifndef INPUT_OUTPUT_H
#define INPUT_OUTPUT_H

#include <stdbool.h>
#include <stddef.h>
#include <sys/types.h>

/* What the program ends with where it isn't 0. A number means what it means for keri. */
enum status {
    WORDS = 2,       /* the words aren't of the form */
    MALFORMED = 3,   /* a question isn't of the form, or is cut short */
    READ_FAULT = 5,  /* standard input couldn't be read */
    WRITE_FAULT = 6, /* standard output couldn't be written */
    KEY_FAULT = 7    /* there is no such key, its folder or file is refused, or a new one couldn't be kept */
};

/* Ends the program with the status, after one line on standard error: its name, the subject without control characters,
   and the fault. No secret may be held. */
_Noreturn void fail(enum status status, const char *subject, const char *fault);

/* Reads so many bytes, or fewer only where the input ends. Answers how many, or -1 where reading failed. */
ssize_t read_whole(int file, void *bytes, size_t length);

/* The same from a place of a file on, whose own place stays. */
ssize_t read_whole_at(int file, void *bytes, size_t length, off_t at);

/* Writes all bytes. At false, errno says why, and some of them may have been written. */
bool write_whole(int file, const void *bytes, size_t length);

/* The same at a place of a file. */
bool write_whole_at(int file, const void *bytes, size_t length, off_t at);

/* Writes an answer, which then is in the pipe. A fault ends the program with WRITE_FAULT. */
void write_output(const void *answer, size_t length);

/* Why a file of a folder couldn't be opened where no link is followed, by errno. */
const char *why_not_opened(int folder, const char *name);

#endif
