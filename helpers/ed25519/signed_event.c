#include "signed_event.h"

#include <inttypes.h>
#include <stdio.h>
#include <stdlib.h>
#include <string.h>

/* Of a number, with leading zeros. */
enum { DIGITS = 16 };

/* In the order of `enum way`. */
static const char *const ways[] = {"first", "recovers", "allowed"};

/* Whether a line tells of events of this kind. */
static bool is_kind(const char *kind)
{
    static const char *const kinds[] = {"icp", "rot", "ixn", "dip", "drt"};
    bool is_one = false;

    for (size_t place = 0; place < sizeof kinds / sizeof *kinds; place++)
        is_one |= strcmp(kind, kinds[place]) == 0;
    return is_one;
}

/* Reads the kind, the digests and the way, and nothing but spaces behind. */
static bool read_rest(const char *rest, size_t length, struct signed_event *event)
{
    if (length < 4 + 2 * (NAME_CHARACTERS + 1) + 1)
        return false;
    memcpy(event->front.kind, rest, 3);
    event->front.kind[3] = '\0';
    if (!is_kind(event->front.kind) || rest[3] != ' ' || !read_name(rest + 4, "EI", event->front.said)
        || rest[4 + NAME_CHARACTERS] != ' ')
        return false;
    rest += 4 + NAME_CHARACTERS + 1;
    if (!read_name(rest, "I", event->digest) || rest[NAME_CHARACTERS] != ' ')
        return false;
    rest += NAME_CHARACTERS + 1;
    for (enum way way = FIRST; way <= ALLOWED; way++) {
        size_t letters = strlen(ways[way]);
        if (strncmp(rest, ways[way], letters) == 0 && rest[letters + strspn(rest + letters, " ")] == '\0') {
            event->way = way;
            return true;
        }
    }
    return false;
}

bool read_older(const char *line, size_t length, struct signed_event *event)
{
    size_t digits = read_number(line, length, &event->front.number);

    return digits > 0 && strlen(line) == length && line[digits] == ' ' && line[length - 1] != ' '
        && read_rest(line + digits + 1, length - digits - 1, event);
}

bool read_signed(const char *line, size_t length, struct signed_event *event)
{
    const char *rest = line + NAME_CHARACTERS + 1;

    if (length != SIGNED_LINE - 1 || strlen(line) != length || !read_name(line, "BDEI", event->front.prefix)
        || line[NAME_CHARACTERS] != ' ' || strspn(rest, "0123456789abcdef") != DIGITS || rest[DIGITS] != ' ')
        return false;
    event->front.number = strtoull(rest, NULL, 16);
    return read_rest(rest + DIGITS + 1, length - NAME_CHARACTERS - 1 - DIGITS - 1, event);
}

void write_signed(const struct signed_event *event, char line[SIGNED_LINE + 1])
{
    (void)snprintf(line, SIGNED_LINE + 1, "%s %016" PRIx64 " %s %s %s %-8s\n", event->front.prefix, event->front.number,
                   event->front.kind, event->front.said, event->digest, ways[event->way]);
}
