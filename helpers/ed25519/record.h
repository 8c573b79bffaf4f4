/* What each key has signed: a file in the key folder for each key, with a line for each event. A key is the same under
   its codes B and D. */
#ifndef RECORD_H
#define RECORD_H

#include <stdbool.h>
#include <stddef.h>

#include "event_front.h"
#include "primitives.h"

/* Records that the key is to sign the event, so that it outlasts a crash, and holds the lock until the descriptor that
   it leaves in `lock` is closed: a signature that goes out then has its record. Answers NULL, or why it mayn't be
   signed: another event of this place of the log was, or the record couldn't be kept. What is no event
   (read_event_front) isn't recorded, and leaves -1. */
const char *record_event(int folder, const char *key, const unsigned char *body, size_t length, int *lock);

/* Records that the key may sign the event with this digest though it has signed another one for its place. Answers
   NULL, or what failed. */
const char *record_leave(int folder, const char *key, const char said[NAME_CHARACTERS + 1]);

/* Whether this is the name of a record in the folder with something in it. The key's 43 characters without its code,
   and a NUL behind, go to the key. */
bool is_record(int folder, const char *name, char key[KEY_CHARACTERS]);

#endif
