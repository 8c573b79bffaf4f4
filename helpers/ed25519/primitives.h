/* CESR's primitives: a code, and the raw bytes in base 64, where the code takes the place of the characters that as
   many zero bytes before the raw ones would give. */
#ifndef PRIMITIVES_H
#define PRIMITIVES_H

#include <stdbool.h>
#include <stddef.h>

enum {
    KEY_CHARACTERS = 44,
    KEY_BYTES = 32,
    SIGNATURE_CHARACTERS = 88,
    SIGNATURE_BYTES = 64
};

/* Reads characters of base 64, four for each three bytes, as so many bytes. Copies neither. False where one isn't of
   the 64, or they aren't so many. */
bool read_base_64(const char *text, size_t characters, unsigned char *bytes, size_t length);

/* Reads a key with the code B or D. False for other codes, for characters that aren't base 64, and where a bit before
   the raw bytes isn't zero. */
bool read_key(const char *text, unsigned char key[KEY_BYTES]);

/* Reads a signature with the code 0B, by the same rules. */
bool read_signature(const char *text, unsigned char signature[SIGNATURE_BYTES]);

/* Writes 32 raw bytes, a key or a digest, under a code of one character, and a NUL behind. */
void write_key(char code, const unsigned char raw[KEY_BYTES], char text[KEY_CHARACTERS + 1]);

/* Writes a signature under the code 0B, and a NUL behind. */
void write_signature(const unsigned char signature[SIGNATURE_BYTES], char text[SIGNATURE_CHARACTERS + 1]);

#endif
