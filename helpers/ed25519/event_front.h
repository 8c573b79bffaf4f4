/* The front of an event's body, which says of which place of which log it is. */
#ifndef EVENT_FRONT_H
#define EVENT_FRONT_H

#include <stdbool.h>
#include <stddef.h>
#include <stdint.h>

enum { NAME_CHARACTERS = 44 };

/* What the front of a body says: its kind, its digest, its identifier and its number. Texts have a NUL behind. */
struct event_front {
    char kind[4];
    char said[NAME_CHARACTERS + 1];
    char prefix[NAME_CHARACTERS + 1];
    uint64_t number;
};

/* Reads the front of a KERI 1.00 event in JSON: the version string with the body's size, then `t`, `d`, `i` and `s`,
   and nothing between them. False where the body isn't of that form, is no event (a receipt), or doesn't end with a
   brace; then it's just bytes. Whether the rest is an event, and the digest is its own, isn't looked at. */
bool read_event_front(const unsigned char *body, size_t length, struct event_front *front);

/* Whether the kind is one of an establishment event: an inception or a rotation. */
bool establishes(const char *kind);

/* Whether the kind is one of a rotation. */
bool rotates(const char *kind);

/* Reads a digest or prefix of 44 characters whose code is one of those, as a text with a NUL behind. */
bool read_name(const char *text, const char *codes, char name[NAME_CHARACTERS + 1]);

/* Reads a number in lower-case hexadecimal without leading zeros, of at most 16 digits. Answers how many, or 0. */
size_t read_number(const char *text, size_t length, uint64_t *number);

#endif
