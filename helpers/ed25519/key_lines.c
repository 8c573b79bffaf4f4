#include "key_lines.h"

#include <errno.h>
#include <stdio.h>
#include <stdlib.h>
#include <string.h>
#include <unistd.h>

#include "input_output.h"
#include "key_digest.h"
#include "key_folder.h"

enum { LINE_ROOM = 160, MOST_LINES = 4 };

/* Prints the line of a new key, which is kept whether or not that can be done. */
static void print_line(const char *folder, const char *key, const char *name, const char *value)
{
    char line[LINE_ROOM], fault[512];
    int length = snprintf(line, sizeof line, "%s %s\n", name, value);

    if (write_whole(STDOUT_FILENO, line, (size_t)length))
        return;
    (void)snprintf(fault, sizeof fault, "the key %s is kept, but standard output: %s", key, strerror(errno));
    fail(WRITE_FAULT, folder, fault);
}

void print_new(const char *folder, char code)
{
    char key[KEY_CHARACTERS + 1];

    make_key(folder, code, key);
    print_line(folder, key, "key", key);
}

void print_next(const char *folder, char code)
{
    char key[KEY_CHARACTERS + 1], digest[KEY_CHARACTERS + 1];

    make_next_key(folder, code, key, digest);
    print_line(folder, key, "next", digest);
}

/* Whether the key still waits to be presented, as far as the folder knows. */
static bool is_promised(const struct kept_key *key)
{
    return key->promise[0] != '\0' && !key->has_signed;
}

/* What the folder knows of a key. */
static const char *known_of(const struct kept_key *key)
{
    if (is_promised(key))
        return "made by next, has signed no event: the first line promises it, the second is for the rotation to it";
    if (key->promise[0] != '\0')
        return "made by next, has signed an event";
    return key->has_signed ? "not made by next, has signed an event" : "not made by next, has signed no event";
}

/* Writes the lines of a key; answers how many characters. */
static size_t write_lines(const struct kept_key *key, char text[MOST_LINES * LINE_ROOM])
{
    char by_blake3[KEY_CHARACTERS + 1], by_sha256[KEY_CHARACTERS + 1];
    size_t room = MOST_LINES * LINE_ROOM;
    int length;

    if (!digest_of_key(BY_BLAKE3, key->name, by_blake3) || !digest_of_key(BY_SHA256, key->name, by_sha256))
        fail(KEY_FAULT, key->name, "libsodium makes no digest of it");
    if (is_promised(key))
        length = snprintf(text, room, "# %s\nnext %s\nkey %s\n# its digests: %s %s\n", known_of(key), key->promise,
                          key->name, by_blake3, by_sha256);
    else
        length = snprintf(text, room, "# %s\nkey %s\n# its digests: %s %s\n", known_of(key), key->name, by_blake3,
                          by_sha256);
    return (size_t)length;
}

void print_kept(const char *folder)
{
    size_t count, length = 0;
    struct kept_key *keys = kept_keys(folder, &count);
    char *text = calloc(count, MOST_LINES * LINE_ROOM);

    if (text == NULL)
        fail(KEY_FAULT, "memory", strerror(errno));
    for (size_t place = 0; place < count; place++)
        length += write_lines(keys + place, text + length);
    if (!write_whole(STDOUT_FILENO, text, length))
        fail(WRITE_FAULT, "standard output", strerror(errno));
    free(text);
    free(keys);
}
