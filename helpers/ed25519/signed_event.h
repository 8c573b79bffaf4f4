/* An event that a key has signed, as a line of a record tells it. */
#ifndef SIGNED_EVENT_H
#define SIGNED_EVENT_H

#include <stdbool.h>
#include <stddef.h>

#include "event_front.h"

/* How many bytes each line has, with its line feed. */
enum { SIGNED_LINE = 165 };

/* How an event came to be recorded: as the first of its place, in the place of an interaction, or because that was
   allowed. */
enum way { FIRST, RECOVERS, ALLOWED };

/* The front of the event, the SHA2-256 of its body, and how it came. */
struct signed_event {
    struct event_front front;
    char digest[NAME_CHARACTERS + 1];
    enum way way;
};

/* Reads a line without its line feed, and with a NUL behind. */
bool read_signed(const char *line, size_t length, struct signed_event *event);

/* Reads a line of the older form, which has no identifier: its file's name has. The event's stays as it is. */
bool read_older(const char *line, size_t length, struct signed_event *event);

/* Writes the line with its line feed, and a NUL behind. */
void write_signed(const struct signed_event *event, char line[SIGNED_LINE + 1]);

#endif
