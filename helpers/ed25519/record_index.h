/* Where the lines of a record stand, by their events: so a signature reads as much of a long record as of a short one.
   Functions that answer a text answer NULL, or what failed. */
#ifndef RECORD_INDEX_H
#define RECORD_INDEX_H

#include "record_lines.h"
#include "record_map.h"
#include "signed_event.h"

/* A record whose file is locked, and its index. */
struct record {
    int folder;
    struct lines lines;
    struct record_map map;
};

/* What a record says of an event that is to be signed. Of two lines that count, the last one is kept. Where its body is
   known, or there is an establishment event, it isn't looked whether the interaction counts. */
struct finding {
    bool is_known;      /* just this body was signed */
    bool is_other_body; /* another body with the same digest in it was */
    bool has_later;     /* an establishment event of a later number was */
    struct signed_event interaction, establishment; /* of its number; without a kind where there is none */
};

/* Opens and locks the record of the key, whose spelling this is, and its index. Where that doesn't fit, the record is
   read whole, and the index made anew. In any case the record is to be closed. */
const char *open_record(int folder, const char *key, struct record *record);

/* What the record says of the event. The lines of its place alone are read. */
const char *find_event(const struct record *record, const struct signed_event *asked, struct finding *finding);

/* To be called before lines are put behind the record. */
const char *begin_change(struct record *record);

/* Syncs what was put behind the whole lines, and takes it into the index. At a fault it isn't there any more. */
const char *end_change(struct record *record);

/* Syncs the record as it is. */
const char *sync_record(struct record *record);

/* Closes the index, and leaves the record's own file open and locked. */
void close_index(struct record *record);

#endif
