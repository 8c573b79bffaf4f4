#include "record_lines.h"

#include <errno.h>
#include <fcntl.h>
#include <stdio.h>
#include <string.h>
#include <sys/file.h>
#include <sys/stat.h>
#include <unistd.h>

#include "input_output.h"

/* What is read of a file at once. */
static char piece[65536];

const char *told(const char *text)
{
    static char fault_text[512];

    (void)snprintf(fault_text, sizeof fault_text, "its record can't be kept: %s", text);
    return fault_text;
}

const char *damaged(void)
{
    return told("the file in the key folder is damaged");
}

const char *open_private(int folder, const char *name, int *file)
{
    struct stat found;

    *file = openat(folder, name, O_RDWR | O_CREAT | O_NOFOLLOW | O_NONBLOCK | O_CLOEXEC, 0600);
    if (*file < 0)
        return told(why_not_opened(folder, name));
    if (fstat(*file, &found) != 0)
        return told(strerror(errno));
    if (!S_ISREG(found.st_mode) || found.st_uid != geteuid() || (found.st_mode & 077) != 0)
        return told("the file isn't a plain one, or isn't yours alone");
    return NULL;
}

/* Opens the file and locks it. */
static const char *open_and_lock(int folder, const char *name, int *file)
{
    const char *fault = open_private(folder, name, file);

    while (fault == NULL && flock(*file, LOCK_EX) != 0)
        if (errno != EINTR)
            fault = told(strerror(errno));
    return fault;
}

const char *open_locked(int folder, const char *name, int *file)
{
    struct stat found, named;

    for (;;) {
        const char *fault = open_and_lock(folder, name, file);
        if (fault != NULL)
            return fault;
        if (fstat(*file, &found) != 0)
            return told(strerror(errno));
        bool has_name = fstatat(folder, name, &named, AT_SYMLINK_NOFOLLOW) == 0;
        if (!has_name && errno != ENOENT)
            return told(strerror(errno));
        if (has_name && named.st_dev == found.st_dev && named.st_ino == found.st_ino)
            return NULL;
        (void)close(*file); /* another file took its name while the lock was waited for, or none has it */
        *file = -1;
    }
}

/* Hands the whole lines of the piece to the taker, up to one that isn't taken. Answers how many bytes were. */
static size_t take_piece(size_t count, off_t at, line_taker *take, void *into)
{
    size_t done = 0;
    char *feed;

    while ((feed = memchr(piece + done, '\n', count - done)) != NULL) {
        size_t length = (size_t)(feed - piece) - done;
        *feed = '\0';
        if (!take(piece + done, length, at + (off_t)done, into))
            break;
        done += length + 1;
    }
    return done;
}

/* Sees to it that from there on there is at most one line. */
static const char *look_at_rest(int file, off_t at)
{
    bool has_ended = false;
    ssize_t count;

    while ((count = read_whole_at(file, piece, sizeof piece, at)) > 0) {
        const char *feed = memchr(piece, '\n', (size_t)count);
        if (has_ended || (feed != NULL && feed + 1 < piece + count))
            return damaged();
        has_ended = feed != NULL;
        at += (off_t)count;
    }
    return count < 0 ? told(strerror(errno)) : NULL;
}

const char *read_lines(struct lines *lines, line_taker *take, void *into)
{
    ssize_t count;
    size_t done = 1;

    while (done > 0 && (count = read_whole_at(lines->file, piece, sizeof piece, lines->end)) > 0) {
        done = take_piece((size_t)count, lines->end, take, into);
        lines->end += (off_t)done;
    }
    return count < 0 ? told(strerror(errno)) : count == 0 ? NULL : look_at_rest(lines->file, lines->end);
}

const char *read_line_at(const struct lines *lines, off_t at, char line[MOST_LINE + 1], size_t *length)
{
    ssize_t count = read_whole_at(lines->file, line, MOST_LINE + 1, at);
    char *feed = count > 0 ? memchr(line, '\n', (size_t)count) : NULL;

    if (count < 0)
        return told(strerror(errno));
    if (feed == NULL)
        return damaged();
    *feed = '\0';
    *length = (size_t)(feed - line);
    return NULL;
}

/* Takes a line back that couldn't be kept; answers what failed. */
static const char *take_back(const struct lines *lines)
{
    const char *fault = told(strerror(errno));

    return ftruncate(lines->file, lines->end) == 0 ? fault : told("a line was written that can't be taken back");
}

const char *append(const struct lines *lines, const char *text)
{
    if (ftruncate(lines->file, lines->end) == 0 && lseek(lines->file, lines->end, SEEK_SET) == lines->end
        && write_whole(lines->file, text, strlen(text)))
        return NULL;
    return take_back(lines);
}

const char *sync_lines(const struct lines *lines, int folder)
{
    if (fsync(lines->file) == 0 && (folder < 0 || fsync(folder) == 0))
        return NULL;
    return take_back(lines);
}
