#include "record_map.h"

#include <errno.h>
#include <sodium.h>
#include <stdlib.h>
#include <string.h>
#include <unistd.h>

#include "input_output.h"

/* How many slots there are at first: a power of two. */
#ifndef LEAST_SLOTS
#define LEAST_SLOTS 64
#endif

enum { HEAD_ROOM = 256, MOST_TEXT = 64 };

/* A machine that has its numbers the other way round reads another one. */
static const char form[16] = "keri-ed25519 1\n";

_Static_assert(sizeof(struct map_head) <= HEAD_ROOM && sizeof(struct map_slot) == 16, "the parts have their room");
_Static_assert(crypto_shorthash_KEYBYTES == 16 && crypto_shorthash_BYTES == sizeof(uint64_t), "a key is 64 bits");

static off_t place_of(uint64_t slot)
{
    return (off_t)(HEAD_ROOM + slot * sizeof(struct map_slot));
}

static void note_left(const struct stat *found, uint64_t left[LEFT_NUMBERS])
{
    left[0] = (uint64_t)found->st_dev;
    left[1] = (uint64_t)found->st_ino;
    left[2] = (uint64_t)found->st_size;
    left[3] = (uint64_t)found->st_mtim.tv_sec;
    left[4] = (uint64_t)found->st_mtim.tv_nsec;
    left[5] = (uint64_t)found->st_ctim.tv_sec;
    left[6] = (uint64_t)found->st_ctim.tv_nsec;
}

bool read_map(struct record_map *map, const struct stat *found)
{
    uint64_t left[LEFT_NUMBERS];
    struct stat own;

    note_left(found, left);
    map->items = NULL;
    if (read_whole_at(map->file, &map->head, sizeof map->head, 0) == (ssize_t)sizeof map->head
        && memcmp(map->head.form, form, sizeof form) == 0 && memcmp(map->head.left, left, sizeof left) == 0
        && fstat(map->file, &own) == 0 && map->head.slots < UINT32_MAX && own.st_size == place_of(map->head.slots)
        && map->head.used <= map->head.slots / 2)
        return true;
    empty_map(map);
    return false;
}

void empty_map(struct record_map *map)
{
    free(map->items);
    map->items = NULL;
    memset(&map->head, 0, sizeof map->head);
    memcpy(map->head.form, form, sizeof form);
    randombytes_buf(map->head.secret, sizeof map->head.secret);
}

uint64_t map_key(const struct record_map *map, char sort, const char *text, uint64_t number)
{
    unsigned char asked[1 + MOST_TEXT + sizeof number] = {(unsigned char)sort};
    uint64_t key;

    memcpy(asked + 1, text, strnlen(text, MOST_TEXT));
    memcpy(asked + 1 + MOST_TEXT, &number, sizeof number);
    (void)crypto_shorthash((unsigned char *)&key, asked, sizeof asked, map->head.secret);
    return key == 0 ? 1 : key;
}

/* Reads so many slots from that one on. */
static bool read_slots(const struct record_map *map, uint64_t slot, struct map_slot *items, size_t count)
{
    size_t length = count * sizeof *items;
    ssize_t found = read_whole_at(map->file, items, length, place_of(slot));

    if (found >= 0 && (size_t)found < length)
        errno = EIO;
    return found >= 0 && (size_t)found == length;
}

/* Finds the slot of the key, or the empty one in which it would stand. There is one: at most half are used. */
static bool find_slot(const struct record_map *map, uint64_t key, uint64_t *slot, struct map_slot *item)
{
    uint64_t mask = map->head.slots - 1;

    *slot = key & mask;
    for (uint64_t tried = 0; tried < map->head.slots; tried++) {
        if (map->items != NULL)
            *item = map->items[*slot];
        else if (!read_slots(map, *slot, item, 1))
            return false;
        if (item->key == key || item->key == 0)
            return true;
        *slot = (*slot + 1) & mask;
    }
    errno = EIO;
    return false;
}

bool find_number(const struct record_map *map, uint64_t key, bool *is_there, uint64_t *number)
{
    struct map_slot item = {0, 0};
    uint64_t slot;

    if (map->head.slots > 0 && !find_slot(map, key, &slot, &item))
        return false;
    *is_there = item.key != 0;
    *number = item.number;
    return true;
}

/* Takes the slots of the file into memory. */
static bool load(struct record_map *map)
{
    struct map_slot *items = calloc(map->head.slots, sizeof *items);

    if (items != NULL && !read_slots(map, 0, items, map->head.slots)) {
        free(items);
        items = NULL;
    }
    map->items = items;
    return items != NULL;
}

/* Makes the slots twice as many, in memory. */
static bool grow(struct record_map *map)
{
    uint64_t count = map->head.slots, slot;
    struct map_slot item;

    if (map->items == NULL && count > 0 && !load(map))
        return false;
    struct map_slot *old = map->items, *items = calloc(count == 0 ? LEAST_SLOTS : 2 * count, sizeof *items);
    if (items == NULL)
        return false;
    map->items = items;
    map->head.slots = count == 0 ? LEAST_SLOTS : 2 * count;
    for (uint64_t place = 0; place < count; place++)
        if (old[place].key != 0 && find_slot(map, old[place].key, &slot, &item))
            items[slot] = old[place];
    free(old);
    return true;
}

bool put_number(struct record_map *map, uint64_t key, uint64_t number)
{
    struct map_slot item;
    uint64_t slot;

    if (2 * (map->head.used + 1) > map->head.slots && !grow(map))
        return false;
    if (!find_slot(map, key, &slot, &item))
        return false;
    map->head.used += item.key == 0;
    item = (struct map_slot){key, number};
    if (map->items == NULL)
        return write_whole_at(map->file, &item, sizeof item, place_of(slot));
    map->items[slot] = item;
    return true;
}

bool void_map(struct record_map *map)
{
    static const char nothing[sizeof form] = "";
    struct stat own;

    if (fstat(map->file, &own) != 0)
        return false;
    return own.st_size == 0 || write_whole_at(map->file, nothing, sizeof nothing, 0);
}

bool keep_map(struct record_map *map, const struct stat *left)
{
    if (map->items != NULL) {
        if (!void_map(map) || ftruncate(map->file, place_of(0)) != 0
            || !write_whole_at(map->file, map->items, map->head.slots * sizeof *map->items, place_of(0)))
            return false;
        free(map->items);
        map->items = NULL;
    }
    note_left(left, map->head.left);
    return fdatasync(map->file) == 0 && write_whole_at(map->file, &map->head, sizeof map->head, 0);
}

void close_map(struct record_map *map)
{
    free(map->items);
    map->items = NULL;
    if (map->file >= 0)
        (void)close(map->file);
    map->file = -1;
}
