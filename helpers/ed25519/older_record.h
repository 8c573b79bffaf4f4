/* Records of the older form: a file for each key and identifier. They are taken over into the record of the key. */
#ifndef OLDER_RECORD_H
#define OLDER_RECORD_H

#include "record_index.h"

/* Takes over what the key has signed for the identifier, where there is still a record of the older form, and deletes
   that once all of it is synced in the other. What was taken over before a stop isn't once more. Answers NULL, or what
   failed, and then the older record is there. */
const char *take_over(struct record *record, const char *key, const char *prefix);

#endif
