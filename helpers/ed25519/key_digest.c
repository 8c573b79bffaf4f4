#include "key_digest.h"

#include <sodium.h>

#include "blake3_block.h"

bool digest_of_key(char code, const char *key, char digest[KEY_CHARACTERS + 1])
{
    unsigned char raw[KEY_BYTES];

    if (code == BY_BLAKE3)
        blake3_of_block((const unsigned char *)key, KEY_CHARACTERS, raw);
    else if (crypto_hash_sha256(raw, (const unsigned char *)key, KEY_CHARACTERS) != 0)
        return false;
    write_key(code, raw, digest);
    return true;
}
