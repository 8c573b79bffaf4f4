/* BLAKE3 of bytes that are one block. */
#ifndef BLAKE3_BLOCK_H
#define BLAKE3_BLOCK_H

#include <stddef.h>

enum { BLAKE3_BYTES = 32, BLAKE3_BLOCK = 64 };

/* The digest of at most BLAKE3_BLOCK bytes. */
void blake3_of_block(const unsigned char *bytes, size_t length, unsigned char digest[BLAKE3_BYTES]);

#endif
