/* A file beside a record that maps keys to numbers, by open addressing: so a key is found by a few short reads, however
   long the record is. It only repeats what the record says, and is made anew where it doesn't fit it.

   Why that is enough: the head names the record's file, its size and the times of its last changes, as they were left.
   It is void before the record or the map changes. It is written last, once the record and the slots are synced. So
   whatever was stopped, and whatever of it reached the disk, a head that fits the record stands before slots that
   tell of all of it; and any other change of the record shows in its size or its times. */
#ifndef RECORD_MAP_H
#define RECORD_MAP_H

#include <stdbool.h>
#include <stdint.h>
#include <sys/stat.h>

enum { LEFT_NUMBERS = 7 };

/* A key and its number. A key of 0 says that there is none. */
struct map_slot {
    uint64_t key, number;
};

/* How the record's file was left, and what its map is. */
struct map_head {
    char form[16];
    unsigned char secret[16]; /* of the keys, so that nobody can choose events whose keys collide */
    uint64_t left[LEFT_NUMBERS];
    uint64_t end;      /* of the record's whole lines */
    uint64_t is_named; /* whether the name of the record's file is synced */
    uint64_t slots, used;
};

/* A map whose file is open. Its slots are in memory while it is made, or grows. */
struct record_map {
    int file;
    struct map_head head;
    struct map_slot *items;
};

/* Reads the head. False where there is none for a file that was left so; then the map is empty. */
bool read_map(struct record_map *map, const struct stat *found);

/* Leaves the map empty, with another secret. */
void empty_map(struct record_map *map);

/* What a key is for this text of at most 64 characters and this number, among those of one sort. */
uint64_t map_key(const struct record_map *map, char sort, const char *text, uint64_t number);

/* Finds a key's number, and whether it has one. At false, errno says why it can't be read. */
bool find_number(const struct record_map *map, uint64_t key, bool *is_there, uint64_t *number);

/* Puts a key's number, instead of the one that it had. At false, errno says what failed. */
bool put_number(struct record_map *map, uint64_t key, uint64_t number);

/* Sees to it that no head fits any more. At false, errno says what failed. */
bool void_map(struct record_map *map);

/* Syncs the slots, and then writes the head, for a record that is left so. At false, errno says what failed. */
bool keep_map(struct record_map *map, const struct stat *left);

/* Closes its file, and forgets it. */
void close_map(struct record_map *map);

#endif
