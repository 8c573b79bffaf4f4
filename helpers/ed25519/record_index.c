#include "record_index.h"

#include <errno.h>
#include <stdio.h>
#include <string.h>
#include <sys/stat.h>
#include <unistd.h>

enum { RECORD_NAME = NAME_CHARACTERS + 16 };

/* What the index maps. Places are those of lines, in bytes. */
enum sort {
    PLACE = 'p',    /* an identifier and a number, to the last line of such an event */
    OLDER = 'o',    /* the place of a line, to that of the line before it with the same identifier and number */
    LATEST = 'l',   /* an identifier, to the highest number of an establishment event of it */
    RECOVERY = 'r', /* an identifier, to the last line of a recovery of it */
    BEFORE = 'b'    /* the place of a recovery, to that of the recovery of this identifier before it */
};

static const char *unfit(void)
{
    return told("its index in the key folder is damaged (delete .index-KEY)");
}

/* Puts the place of a line for this identifier, and notes of which one it takes the place. */
static bool put_last(struct record_map *map, const struct event_front *front, uint64_t at, enum sort last, enum sort before)
{
    uint64_t number = last == PLACE ? front->number : 0, older;
    uint64_t key = map_key(map, (char)last, front->prefix, number);
    bool is_there;

    return find_number(map, key, &is_there, &older)
        && (!is_there || put_number(map, map_key(map, (char)before, "", at), older)) && put_number(map, key, at);
}

/* Takes the event of a line into the index. */
static bool put_event(struct record_map *map, const struct signed_event *event, uint64_t at)
{
    uint64_t key = map_key(map, LATEST, event->front.prefix, 0), latest;
    bool is_there;

    if (!put_last(map, &event->front, at, PLACE, OLDER)
        || (event->way == RECOVERS && !put_last(map, &event->front, at, RECOVERY, BEFORE)))
        return false;
    if (!establishes(event->front.kind))
        return true;
    return find_number(map, key, &is_there, &latest)
        && ((is_there && latest >= event->front.number) || put_number(map, key, event->front.number));
}

/* What takes lines into an index, and what went wrong. */
struct taking {
    struct record_map *map;
    int error;
};

static bool take_event(const char *line, size_t length, off_t at, void *into)
{
    struct taking *taking = into;
    struct signed_event event;

    if (!read_signed(line, length, &event))
        return false;
    if (!put_event(taking->map, &event, (uint64_t)at))
        taking->error = errno != 0 ? errno : ENOMEM;
    return taking->error == 0;
}

/* Takes the lines into the index that stand behind those that it knows. */
static const char *take_lines(struct record *record)
{
    struct taking taking = {&record->map, 0};
    const char *fault = read_lines(&record->lines, take_event, &taking);

    return taking.error != 0 ? told(strerror(taking.error)) : fault;
}

/* Notes how the record is left, once the index tells of it. */
static const char *keep_index(struct record *record, bool is_named)
{
    struct stat left;

    record->map.head.end = (uint64_t)record->lines.end;
    record->map.head.is_named = is_named;
    if (fstat(record->lines.file, &left) != 0 || !keep_map(&record->map, &left))
        return told(strerror(errno));
    return NULL;
}

const char *open_record(int folder, const char *key, struct record *record)
{
    char name[RECORD_NAME];
    struct stat found;

    *record = (struct record){.folder = folder, .lines = {-1, 0}, .map = {.file = -1, .items = NULL}};
    (void)snprintf(name, sizeof name, ".signed-%s", key + 1);
    const char *fault = open_locked(folder, name, &record->lines.file);
    (void)snprintf(name, sizeof name, ".index-%s", key + 1);
    if (fault == NULL)
        fault = open_private(folder, name, &record->map.file);
    if (fault != NULL)
        return fault;
    if (fstat(record->lines.file, &found) != 0)
        return told(strerror(errno));
    if (read_map(&record->map, &found)) {
        record->lines.end = (off_t)record->map.head.end;
        return NULL;
    }
    fault = take_lines(record);
    return fault != NULL || record->lines.end == 0 ? fault : keep_index(record, false);
}

/* Reads the line of an event of this identifier, which the index names. */
static const char *read_event_at(const struct record *record, uint64_t at, const char *prefix, struct signed_event *event)
{
    char line[MOST_LINE + 1];
    size_t length;
    const char *fault = at < (uint64_t)record->lines.end ? read_line_at(&record->lines, (off_t)at, line, &length) : unfit();

    if (fault != NULL)
        return fault;
    return read_signed(line, length, event) && strcmp(event->front.prefix, prefix) == 0 ? NULL : unfit();
}

/* Finds the place that the index has for this, which is before that one. Where there is none, it is that one. */
static const char *find_place(const struct record *record, uint64_t key, uint64_t limit, uint64_t *at)
{
    bool is_there;

    if (!find_number(&record->map, key, &is_there, at))
        return told(strerror(errno));
    if (!is_there)
        *at = limit;
    else if (*at >= limit)
        return unfit();
    return NULL;
}

/* Takes an event of the asked number into a finding, the last one first. */
static void take_found(const struct signed_event *event, const struct signed_event *asked, struct finding *finding)
{
    struct signed_event *kept = establishes(event->front.kind) ? &finding->establishment : &finding->interaction;

    if (strcmp(event->digest, asked->digest) == 0)
        finding->is_known = true;
    else if (strcmp(event->front.said, asked->front.said) == 0)
        finding->is_other_body = true;
    if (kept->front.kind[0] == '\0')
        *kept = *event;
}

/* Forgets the interaction where a recovery behind its line took its place. Recoveries of its own number or later ones
   took none, and are passed by: where the events of a log come in their order, there are none. */
static const char *leave_out_recovered(const struct record *record, const char *prefix, uint64_t at, struct finding *finding)
{
    uint64_t limit = (uint64_t)record->lines.end, recovery, key = map_key(&record->map, RECOVERY, prefix, 0);
    struct signed_event event;
    const char *fault;

    while ((fault = find_place(record, key, limit, &recovery)) == NULL && recovery != limit && recovery > at) {
        fault = read_event_at(record, recovery, prefix, &event);
        if (fault != NULL)
            return fault;
        if (event.front.number < finding->interaction.front.number) {
            finding->interaction = (struct signed_event){.way = FIRST};
            return NULL;
        }
        limit = recovery;
        key = map_key(&record->map, BEFORE, "", recovery);
    }
    return fault;
}

const char *find_event(const struct record *record, const struct signed_event *asked, struct finding *finding)
{
    const struct event_front *front = &asked->front;
    uint64_t limit = (uint64_t)record->lines.end, at, interaction = 0, latest;
    uint64_t key = map_key(&record->map, PLACE, front->prefix, front->number);
    struct signed_event event;
    const char *fault;
    bool is_there;

    *finding = (struct finding){.is_known = false};
    while ((fault = find_place(record, key, limit, &at)) == NULL && at != limit) {
        fault = read_event_at(record, at, front->prefix, &event);
        if (fault != NULL || event.front.number != front->number)
            return fault != NULL ? fault : unfit();
        if (!establishes(event.front.kind) && finding->interaction.front.kind[0] == '\0')
            interaction = at;
        take_found(&event, asked, finding);
        limit = at;
        key = map_key(&record->map, OLDER, "", at);
    }
    if (fault == NULL && !find_number(&record->map, map_key(&record->map, LATEST, front->prefix, 0), &is_there, &latest))
        fault = told(strerror(errno));
    if (fault != NULL)
        return fault;
    finding->has_later = is_there && latest > front->number;
    if (finding->is_known || finding->establishment.front.kind[0] != '\0' || finding->interaction.front.kind[0] == '\0')
        return NULL; /* where an interaction doesn't matter, it isn't asked whether it counts */
    return leave_out_recovered(record, front->prefix, interaction, finding);
}

const char *begin_change(struct record *record)
{
    return void_map(&record->map) ? NULL : told(strerror(errno));
}

const char *sync_record(struct record *record)
{
    return sync_lines(&record->lines, record->map.head.is_named ? -1 : record->folder);
}

const char *end_change(struct record *record)
{
    struct lines before = record->lines;
    const char *fault = sync_record(record);

    if (fault != NULL)
        return fault;
    fault = take_lines(record);
    if (fault == NULL)
        fault = keep_index(record, true);
    if (fault != NULL && ftruncate(before.file, before.end) != 0)
        fault = told("a line was written that can't be taken back");
    return fault;
}

void close_index(struct record *record)
{
    close_map(&record->map);
}
