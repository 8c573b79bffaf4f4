#include "key_folder.h"

#include <dirent.h>
#include <errno.h>
#include <fcntl.h>
#include <sodium.h>
#include <stdlib.h>
#include <string.h>
#include <sys/stat.h>
#include <unistd.h>

#include "input_output.h"
#include "key_digest.h"
#include "private_files.h"
#include "record.h"

#define BASE_64 sodium_base64_VARIANT_URLSAFE_NO_PADDING

#define PROMISE ".next-"

enum { SEED_LINE = 45, PROMISE_NAME = sizeof PROMISE + KEY_CHARACTERS };

/* What must not be told. It is in memory of sodium_malloc alone: locked where that is allowed, left out of core dumps,
   and wiped when it is freed. */
struct secret {
    unsigned char seed[1 + crypto_sign_SEEDBYTES]; /* behind the zero byte whose place the code A takes */
    unsigned char pair[crypto_sign_SECRETKEYBYTES];
    char line[SEED_LINE + 1];
};

/* Room for a secret, all of it zero. */
static struct secret *new_secret(void)
{
    struct secret *secret = sodium_malloc(sizeof *secret);

    if (secret == NULL)
        fail(KEY_FAULT, "memory", strerror(errno));
    sodium_memzero(secret, sizeof *secret);
    return secret;
}

/* Keeps the secret's line under the key's name: it is written under another, and renamed once it is whole. What that
   takes the place of can only be the same seed. Answers NULL, or what failed. */
static const char *keep(int folder, const char *key, const struct secret *secret)
{
    char unfinished[sizeof ".new-" + KEY_CHARACTERS] = ".new-";
    const char *fault;

    memcpy(unfinished + strlen(unfinished), key, KEY_CHARACTERS);
    fault = write_new_file(folder, unfinished, secret->line, SEED_LINE);
    if (fault != NULL)
        return fault;
    if (renameat(folder, unfinished, folder, key) != 0) {
        fault = strerror(errno);
        (void)unlinkat(folder, unfinished, 0);
        return fault;
    }
    return fsync(folder) == 0 ? NULL : "the key is kept, but may be lost in a crash";
}

/* Makes the pair of the seed, and the key's spelling with a NUL behind. Answers NULL, or what failed. */
static const char *make_pair(char code, struct secret *secret, char key[KEY_CHARACTERS + 1])
{
    unsigned char public_key[KEY_BYTES];

    if (crypto_sign_seed_keypair(public_key, secret->pair, secret->seed + 1) != 0)
        return "libsodium makes no pair";
    write_key(code, public_key, key);
    return NULL;
}

/* A new secret. */
static struct secret *random_secret(void)
{
    struct secret *secret = new_secret();

    randombytes_buf(secret->seed + 1, crypto_sign_SEEDBYTES);
    (void)sodium_bin2base64(secret->line, sizeof secret->line, secret->seed, sizeof secret->seed, BASE_64);
    secret->line[SEED_LINE - 1] = '\n';
    return secret;
}

void make_key(const char *path, char code, char key[KEY_CHARACTERS + 1])
{
    int folder = open_or_make_folder(path);
    struct secret *secret = random_secret();
    const char *fault = make_pair(code, secret, key);

    if (fault == NULL)
        fault = keep(folder, key, secret);
    sodium_free(secret);
    if (fault != NULL)
        fail(KEY_FAULT, path, fault);
    (void)close(folder);
}

/* The name of the file with the digest that was told of a key made to be promised. */
static void name_promise(const char *key, char name[PROMISE_NAME])
{
    memcpy(name, PROMISE, sizeof PROMISE - 1);
    memcpy(name + sizeof PROMISE - 1, key, KEY_CHARACTERS + 1);
}

/* Keeps the digest of the key, and then the secret. Of a key that isn't kept no digest is left. Answers NULL, or what
   failed. */
static const char *keep_next(int folder, const char *key, const char *digest, const struct secret *secret)
{
    struct stat found;
    char name[PROMISE_NAME], line[KEY_CHARACTERS + 1];
    const char *fault;

    name_promise(key, name);
    memcpy(line, digest, KEY_CHARACTERS);
    line[KEY_CHARACTERS] = '\n';
    fault = write_new_file(folder, name, line, sizeof line);
    if (fault != NULL)
        return fault;
    fault = keep(folder, key, secret);
    if (fault != NULL && fstatat(folder, key, &found, AT_SYMLINK_NOFOLLOW) != 0)
        (void)unlinkat(folder, name, 0);
    return fault;
}

void make_next_key(const char *path, char code, char key[KEY_CHARACTERS + 1], char digest[KEY_CHARACTERS + 1])
{
    int folder = open_or_make_folder(path);
    struct secret *secret = random_secret();
    const char *fault = make_pair('D', secret, key);

    if (fault == NULL && !digest_of_key(code, key, digest))
        fault = "libsodium makes no digest";
    if (fault == NULL)
        fault = keep_next(folder, key, digest, secret);
    sodium_free(secret);
    if (fault != NULL)
        fail(KEY_FAULT, path, fault);
    (void)close(folder);
}

/* Reads the line of the key's file. Answers NULL, or what is wrong. */
static const char *read_line(int folder, const char *key, struct secret *secret)
{
    bool is_there;
    ssize_t count = 0;
    const char *fault = read_file(folder, key, secret->line, sizeof secret->line, &count, &is_there);

    if (fault == NULL && !is_there)
        fault = "there is no such key";
    if (fault == NULL && (count != SEED_LINE || secret->line[SEED_LINE - 1] != '\n'))
        fault = "its file doesn't hold a seed";
    return fault;
}

/* Makes the pair of the line, which has to be that of the key. Answers NULL, or what is wrong. */
static const char *read_pair(const char *key, struct secret *secret)
{
    char text[KEY_CHARACTERS + 1];

    if (!read_base_64(secret->line, SEED_LINE - 1, secret->seed, sizeof secret->seed) || secret->seed[0] != 0)
        return "its file doesn't hold a seed";
    const char *fault = make_pair(key[0], secret, text);
    if (fault == NULL && memcmp(text, key, KEY_CHARACTERS) != 0)
        fault = "its file holds the seed of another key";
    return fault;
}

void sign_with(const char *path, const char *key, const unsigned char *body, size_t length,
               unsigned char signature[SIGNATURE_BYTES])
{
    int folder = open_folder(path), lock = -1;
    struct secret *secret = new_secret();
    const char *fault = read_line(folder, key, secret);

    if (fault == NULL)
        fault = read_pair(key, secret);
    if (fault == NULL)
        fault = record_event(folder, key, body, length, &lock);
    if (fault == NULL && crypto_sign_detached(signature, NULL, body, length, secret->pair) != 0)
        fault = "libsodium can't sign";
    sodium_free(secret);
    if (fault != NULL)
        fail(KEY_FAULT, key, fault);
    if (lock >= 0)
        (void)close(lock);
    (void)close(folder);
}

/* Whether a file of this name is a key's. */
static bool is_key(const char *name)
{
    unsigned char key[KEY_BYTES];

    return strlen(name) == KEY_CHARACTERS && read_key(name, key);
}

static int by_spelling(const void *one, const void *other)
{
    return memcmp(((const struct kept_key *)one)->name, ((const struct kept_key *)other)->name, KEY_CHARACTERS);
}

/* The folder's keys with their names alone, in the order of their spellings; how many goes to the count. */
static struct kept_key *named_keys(int folder, const char *path, size_t *count)
{
    DIR *entries = entries_of(folder, path);
    const struct dirent *entry;
    struct kept_key *keys = NULL;

    *count = 0;
    for (errno = 0; (entry = readdir(entries)) != NULL; errno = 0) {
        if (!is_key(entry->d_name))
            continue;
        struct kept_key *more = realloc(keys, (*count + 1) * sizeof *keys);
        if (more == NULL)
            fail(KEY_FAULT, "memory", strerror(errno));
        keys = more;
        keys[*count] = (struct kept_key){.has_signed = false};
        memcpy(keys[(*count)++].name, entry->d_name, KEY_CHARACTERS + 1);
    }
    if (errno != 0)
        fail(KEY_FAULT, path, strerror(errno));
    (void)closedir(entries);
    if (*count == 0)
        fail(KEY_FAULT, path, "there is no key in it");
    qsort(keys, *count, sizeof *keys, by_spelling);
    return keys;
}

/* Notes of the keys which have signed an event, by the names of the records. */
static void note_signed(int folder, const char *path, struct kept_key *keys, size_t count)
{
    DIR *entries = entries_of(folder, path);
    const struct dirent *entry;
    struct kept_key sought = {.has_signed = false};

    for (errno = 0; (entry = readdir(entries)) != NULL; errno = 0) {
        if (!is_record(folder, entry->d_name, sought.name + 1))
            continue;
        for (const char *code = "BD"; *code != '\0'; code++) {
            sought.name[0] = *code;
            struct kept_key *key = bsearch(&sought, keys, count, sizeof *keys, by_spelling);
            if (key != NULL)
                key->has_signed = true;
        }
    }
    if (errno != 0)
        fail(KEY_FAULT, path, strerror(errno));
    (void)closedir(entries);
}

/* Reads the digest that was told of a key made to be promised, and leaves it empty for others. Answers NULL, or what is
   wrong. */
static const char *read_promise(int folder, struct kept_key *key)
{
    char name[PROMISE_NAME], line[KEY_CHARACTERS + 2] = "", digest[KEY_CHARACTERS + 1];
    bool is_there;
    ssize_t count = 0;

    name_promise(key->name, name);
    const char *fault = read_file(folder, name, line, sizeof line, &count, &is_there);
    if (fault != NULL || !is_there)
        return fault;
    if (count != KEY_CHARACTERS + 1 || line[KEY_CHARACTERS] != '\n' || (line[0] != BY_BLAKE3 && line[0] != BY_SHA256)
        || !digest_of_key(line[0], key->name, digest) || memcmp(digest, line, KEY_CHARACTERS) != 0)
        return "its file .next-KEY doesn't hold its digest: refused (without that file it counts as not made by next)";
    memcpy(key->promise, digest, sizeof digest);
    return NULL;
}

struct kept_key *kept_keys(const char *path, size_t *count)
{
    int folder = open_folder(path);
    struct kept_key *keys = named_keys(folder, path, count);

    for (size_t place = 0; place < *count; place++) {
        struct secret *secret = new_secret();
        const char *fault = read_line(folder, keys[place].name, secret);
        if (fault == NULL)
            fault = read_pair(keys[place].name, secret);
        sodium_free(secret);
        if (fault == NULL)
            fault = read_promise(folder, keys + place);
        if (fault != NULL)
            fail(KEY_FAULT, keys[place].name, fault);
    }
    note_signed(folder, path, keys, *count);
    (void)close(folder);
    return keys;
}

void allow_event(const char *path, const char *key, const char *said)
{
    struct stat found;
    int folder = open_folder(path);
    const char *fault;

    if (fstatat(folder, key, &found, AT_SYMLINK_NOFOLLOW) != 0)
        fault = errno == ENOENT ? "there is no such key" : strerror(errno);
    else
        fault = fault_of(&found, S_IFREG);
    if (fault == NULL)
        fault = record_leave(folder, key, said);
    if (fault != NULL)
        fail(KEY_FAULT, key, fault);
    (void)close(folder);
}
