#include "older_record.h"

#include <errno.h>
#include <fcntl.h>
#include <stdio.h>
#include <string.h>
#include <sys/stat.h>
#include <unistd.h>

enum { OLDER_NAME = 2 * NAME_CHARACTERS + 16, LINES_AT_ONCE = 256 };

/* What takes lines over, in pieces. */
struct move {
    const struct record *record; /* before anything is put there */
    struct lines lines;          /* and the same with what was put */
    const char *prefix, *fault;
    char text[LINES_AT_ONCE * SIGNED_LINE + 1];
    size_t length;
};

/* Puts what waits behind the record. */
static const char *put_piece(struct move *move)
{
    const char *fault = move->length == 0 ? NULL : append(&move->lines, move->text);

    move->lines.end += (off_t)move->length;
    move->length = 0;
    return fault;
}

/* Takes a line over whose event isn't in the record. */
static bool take_older(const char *line, size_t length, off_t at, void *into)
{
    struct move *move = into;
    struct signed_event event;
    struct finding finding;

    (void)at;
    if (!read_older(line, length, &event))
        return false;
    memcpy(event.front.prefix, move->prefix, sizeof event.front.prefix);
    move->fault = find_event(move->record, &event, &finding);
    if (move->fault != NULL || finding.is_known)
        return move->fault == NULL;
    if (move->length == LINES_AT_ONCE * SIGNED_LINE)
        move->fault = put_piece(move);
    write_signed(&event, move->text + move->length);
    move->length += SIGNED_LINE;
    return move->fault == NULL;
}

/* Puts the lines of the older record behind the record, which is synced and in its index then. */
static const char *move_lines(struct record *record, struct lines *older, const char *prefix)
{
    static struct move move;
    const char *fault = begin_change(record);

    move = (struct move){.record = record, .lines = record->lines, .prefix = prefix};
    if (fault == NULL)
        fault = read_lines(older, take_older, &move);
    if (move.fault != NULL)
        fault = move.fault;
    if (fault == NULL)
        fault = put_piece(&move);
    if (fault != NULL && move.lines.end != record->lines.end && ftruncate(record->lines.file, record->lines.end) != 0)
        fault = told("lines were written that can't be taken back");
    return fault != NULL ? fault : end_change(record);
}

const char *take_over(struct record *record, const char *key, const char *prefix)
{
    char name[OLDER_NAME];
    struct stat found;
    struct lines older = {-1, 0};

    (void)snprintf(name, sizeof name, ".signed-%s-%s", key + 1, prefix);
    if (fstatat(record->folder, name, &found, AT_SYMLINK_NOFOLLOW) != 0)
        return errno == ENOENT ? NULL : told(strerror(errno));
    const char *fault = open_locked(record->folder, name, &older.file);
    if (fault == NULL)
        fault = move_lines(record, &older, prefix);
    if (fault == NULL && (unlinkat(record->folder, name, 0) != 0 || fsync(record->folder) != 0))
        fault = told(strerror(errno));
    if (older.file >= 0)
        (void)close(older.file);
    return fault;
}
