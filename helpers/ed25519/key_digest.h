/* The digest of a key, by which an event before promises it. */
#ifndef KEY_DIGEST_H
#define KEY_DIGEST_H

#include "primitives.h"

enum { BY_BLAKE3 = 'E', BY_SHA256 = 'I' };

/* The digest of the key's 44 characters, spelled with its code, one of these two, and a NUL behind. False where
   libsodium makes none. */
bool digest_of_key(char code, const char *key, char digest[KEY_CHARACTERS + 1]);

#endif
