/* BLAKE3 by its specification, section 2: one chunk of one block, which is the root. */
#include "blake3_block.h"

#include <stdint.h>
#include <string.h>

enum { ROUNDS = 7, CHUNK_START = 1, CHUNK_END = 2, ROOT = 8 };

static const uint32_t initial[8] = {0x6a09e667, 0xbb67ae85, 0x3c6ef372, 0xa54ff53a,
                                    0x510e527f, 0x9b05688c, 0x1f83d9ab, 0x5be0cd19};
static const unsigned char permuted[16] = {2, 6, 3, 10, 7, 0, 4, 13, 1, 11, 12, 5, 9, 14, 15, 8};
/* The columns, and then the diagonals. */
static const unsigned char places[8][4] = {{0, 4, 8, 12}, {1, 5, 9, 13},  {2, 6, 10, 14}, {3, 7, 11, 15},
                                           {0, 5, 10, 15}, {1, 6, 11, 12}, {2, 7, 8, 13},  {3, 4, 9, 14}};

static uint32_t rotated(uint32_t word, unsigned count)
{
    return word >> count | word << (32 - count);
}

static void mix(uint32_t state[16], const unsigned char at[4], uint32_t first, uint32_t second)
{
    uint32_t *a = &state[at[0]], *b = &state[at[1]], *c = &state[at[2]], *d = &state[at[3]];

    *a += *b + first;
    *d = rotated(*d ^ *a, 16);
    *c += *d;
    *b = rotated(*b ^ *c, 12);
    *a += *b + second;
    *d = rotated(*d ^ *a, 8);
    *c += *d;
    *b = rotated(*b ^ *c, 7);
}

static void permute(uint32_t words[16])
{
    uint32_t before[16];

    memcpy(before, words, sizeof before);
    for (size_t place = 0; place < 16; place++)
        words[place] = before[permuted[place]];
}

void blake3_of_block(const unsigned char *bytes, size_t length, unsigned char digest[BLAKE3_BYTES])
{
    unsigned char block[BLAKE3_BLOCK] = {0};
    uint32_t words[16], state[16];

    memcpy(block, bytes, length);
    for (size_t place = 0; place < 16; place++)
        words[place] = (uint32_t)block[4 * place] | (uint32_t)block[4 * place + 1] << 8
            | (uint32_t)block[4 * place + 2] << 16 | (uint32_t)block[4 * place + 3] << 24;
    memcpy(state, initial, sizeof initial);
    memcpy(state + 8, initial, 4 * sizeof *initial);
    state[12] = state[13] = 0;
    state[14] = (uint32_t)length;
    state[15] = CHUNK_START | CHUNK_END | ROOT;
    for (int round = 0; round < ROUNDS; round++) {
        for (size_t place = 0; place < 8; place++)
            mix(state, places[place], words[2 * place], words[2 * place + 1]);
        permute(words);
    }
    for (size_t place = 0; place < BLAKE3_BYTES; place++) {
        uint32_t word = state[place / 4] ^ state[place / 4 + 8];
        digest[place] = (unsigned char)(word >> 8 * (place % 4));
    }
}
