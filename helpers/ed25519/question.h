/* A question of the protocol, as it was read. */
#ifndef QUESTION_H
#define QUESTION_H

#include <stddef.h>

#include "primitives.h"

enum { MOST_BYTES = 65535 };

/* One for a signature has no signature, and no verdict. */
struct question {
    char letter;
    char key[KEY_CHARACTERS + 1];
    unsigned char key_bytes[KEY_BYTES];
    unsigned char signature[SIGNATURE_BYTES];
    size_t length;
    char verdict; /* `Y` or `N`, or 0 where there is none yet */
    unsigned char body[MOST_BYTES];
};

#endif
