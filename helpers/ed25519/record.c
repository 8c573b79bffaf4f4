#include "record.h"

#include <errno.h>
#include <fcntl.h>
#include <inttypes.h>
#include <sodium.h>
#include <stdio.h>
#include <string.h>
#include <sys/stat.h>
#include <unistd.h>

#include "older_record.h"
#include "record_index.h"
#include "record_lines.h"
#include "signed_event.h"

#define SIGNED ".signed-"

enum { LEAVE_NAME = NAME_CHARACTERS + 16 };

_Static_assert((int)SIGNED_LINE <= (int)MOST_LINE, "a line has room");

/* Takes a line of what may be signed all the same. */
static bool take_leave(const char *line, size_t length, off_t at, void *into)
{
    char name[NAME_CHARACTERS + 1];
    const char **sought = into;

    (void)at;
    if (length != NAME_CHARACTERS || strlen(line) != length || !read_name(line, "EI", name))
        return false;
    if (*sought != NULL && strcmp(name, *sought) == 0)
        *sought = NULL;
    return true;
}

/* Finds whether a digest may be signed all the same. Answers NULL, or what failed. */
static const char *look_for_leave(int folder, const char *key, const char *said, bool *is_allowed)
{
    char name[LEAVE_NAME];
    struct lines lines = {-1, 0};
    const char *sought = said;

    (void)snprintf(name, sizeof name, ".allowed-%s", key + 1);
    *is_allowed = false;
    struct stat found;
    if (fstatat(folder, name, &found, AT_SYMLINK_NOFOLLOW) != 0 && errno == ENOENT)
        return NULL;
    const char *fault = open_locked(folder, name, &lines.file);
    if (fault == NULL)
        fault = read_lines(&lines, take_leave, &sought);
    *is_allowed = fault == NULL && sought == NULL;
    if (lines.file >= 0)
        (void)close(lines.file);
    return fault;
}

/* Why the event mayn't be signed, or NULL, and how it is recorded then. */
static const char *judge(int folder, const char *key, const struct event_front *asked, const struct finding *finding,
                         enum way *way)
{
    static char fault_text[512];
    bool has_establishment = finding->establishment.front.kind[0] != '\0';
    bool has_interaction = finding->interaction.front.kind[0] != '\0';
    const struct event_front *other = has_establishment ? &finding->establishment.front : &finding->interaction.front;
    bool is_allowed;

    *way = FIRST;
    if (!has_establishment && !has_interaction)
        return NULL;
    *way = RECOVERS;
    if (rotates(asked->kind) && !has_establishment && !finding->has_later)
        return NULL;
    *way = ALLOWED;
    const char *fault = look_for_leave(folder, key, asked->said, &is_allowed);
    if (fault != NULL || (is_allowed && !finding->is_other_body))
        return fault;
    (void)snprintf(fault_text, sizeof fault_text, "it has signed the %s %s for number %" PRIx64 " of %s, and not the %s %s: refused",
                   other->kind, other->said, asked->number, asked->prefix, asked->kind, asked->said);
    return fault_text;
}

/* Puts the event into the record. */
static const char *put_event(struct record *record, const struct signed_event *event)
{
    char line[SIGNED_LINE + 1];
    const char *fault = begin_change(record);

    write_signed(event, line);
    if (fault == NULL)
        fault = append(&record->lines, line);
    return fault != NULL ? fault : end_change(record);
}

/* Records the event in the key's file. Where it is new there, how it came goes to it. */
static const char *record_in(int folder, const char *key, struct signed_event *asked, int *lock)
{
    struct record record;
    struct finding finding;
    const char *fault = open_record(folder, key, &record);

    *lock = record.lines.file;
    if (fault == NULL)
        fault = take_over(&record, key, asked->front.prefix);
    if (fault == NULL)
        fault = find_event(&record, asked, &finding);
    if (fault == NULL && !finding.is_known)
        fault = judge(folder, key, &asked->front, &finding, &asked->way);
    if (fault == NULL)
        fault = finding.is_known ? sync_record(&record) : put_event(&record, asked);
    close_index(&record);
    return fault;
}

const char *record_event(int folder, const char *key, const unsigned char *body, size_t length, int *lock)
{
    struct signed_event asked;
    unsigned char digest[crypto_hash_sha256_BYTES];

    *lock = -1;
    if (!read_event_front(body, length, &asked.front))
        return NULL;
    if (crypto_hash_sha256(digest, body, length) != 0)
        return "libsodium makes no digest";
    write_key('I', digest, asked.digest);
    return record_in(folder, key, &asked, lock);
}

const char *record_leave(int folder, const char *key, const char said[NAME_CHARACTERS + 1])
{
    char name[LEAVE_NAME], line[NAME_CHARACTERS + 2];
    struct lines lines = {-1, 0};
    const char *sought = said;

    (void)snprintf(name, sizeof name, ".allowed-%s", key + 1);
    (void)snprintf(line, sizeof line, "%s\n", said);
    const char *fault = open_locked(folder, name, &lines.file);
    if (fault == NULL)
        fault = read_lines(&lines, take_leave, &sought);
    if (fault == NULL && sought != NULL)
        fault = append(&lines, line);
    if (fault == NULL)
        fault = sync_lines(&lines, folder);
    if (lines.file >= 0)
        (void)close(lines.file);
    return fault;
}

bool is_record(int folder, const char *name, char key[KEY_CHARACTERS])
{
    const char *rest = name + sizeof SIGNED - 1;
    char prefix[NAME_CHARACTERS + 1], spelled[KEY_CHARACTERS + 1] = "D";
    unsigned char bytes[KEY_BYTES];
    struct stat found;

    if (strncmp(name, SIGNED, sizeof SIGNED - 1) != 0 || strlen(rest) < KEY_CHARACTERS - 1)
        return false;
    memcpy(spelled + 1, rest, KEY_CHARACTERS - 1);
    rest += KEY_CHARACTERS - 1;
    bool is_older = rest[0] == '-' && strlen(rest) == 1 + NAME_CHARACTERS && read_name(rest + 1, "BDEI", prefix);
    memcpy(key, spelled + 1, KEY_CHARACTERS);
    return (rest[0] == '\0' || is_older) && read_key(spelled, bytes)
        && fstatat(folder, name, &found, AT_SYMLINK_NOFOLLOW) == 0 && found.st_size > 0;
}
