/* A folder of keys: a file for each, named by the key's 44 characters, which holds the seed's 44 characters (CESR's
   code A) and a line feed, and beside them the records of what was signed (record.h). Folder and files are the
   caller's, and nobody else can read or write them. What goes wrong ends the program with KEY_FAULT. */
#ifndef KEY_FOLDER_H
#define KEY_FOLDER_H

#include <stddef.h>

#include "primitives.h"

/* Makes a key pair and keeps its seed in the folder, which is made where it isn't there; its file outlasts a crash
   then. The key is spelled with the code, B or D, and a NUL behind. */
void make_key(const char *folder, char code, char key[KEY_CHARACTERS + 1]);

/* The same with the code D for a key that an event is to promise. Its digest by this code (key_digest.h) is told, and
   kept before the key is, so that the folder knows what the key was made for. */
void make_next_key(const char *folder, char code, char key[KEY_CHARACTERS + 1], char digest[KEY_CHARACTERS + 1]);

/* A key that a folder keeps, and what the folder knows of it. Texts have a NUL behind. */
struct kept_key {
    char name[KEY_CHARACTERS + 1];
    char promise[KEY_CHARACTERS + 1]; /* the digest that was told when it was made to be promised, or empty */
    bool has_signed;                  /* there is a record of an event of it, or of the same key under the other code */
};

/* The keys that the folder keeps, one or more, in the order of their spellings; how many goes to the count. Each of
   their files is looked at and read as for signing, and nothing is written. The caller frees them. */
struct kept_key *kept_keys(const char *folder, size_t *count);

/* Signs the body with the secret of the key, whose spelling is the file's name. An event is recorded before, and
   refused where the key has signed another one for its place. */
void sign_with(const char *folder, const char *key, const unsigned char *body, size_t length,
               unsigned char signature[SIGNATURE_BYTES]);

/* Lets the key sign the event with this digest, though it has signed another one for its place. */
void allow_event(const char *folder, const char *key, const char *said);

#endif
