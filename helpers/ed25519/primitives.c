#include "primitives.h"

#include <sodium.h>
#include <string.h>

#define BASE_64 sodium_base64_VARIANT_URLSAFE_NO_PADDING

_Static_assert(KEY_BYTES == crypto_sign_PUBLICKEYBYTES && KEY_BYTES == crypto_hash_sha256_BYTES
                   && SIGNATURE_BYTES == crypto_sign_BYTES, "the sizes are libsodium's");

bool read_base_64(const char *text, size_t characters, unsigned char *bytes, size_t length)
{
    size_t count = 0;

    for (size_t place = 0; place < characters; place++)
        if ((unsigned char)text[place] > 127) /* which libsodium 1.0.18 takes for `_` */
            return false;
    return sodium_base642bin(bytes, length, text, characters, NULL, &count, NULL, BASE_64) == 0 && count == length;
}

/* The characters after a code of `lead` characters, as `length` raw bytes. */
static bool read_raw(const char *text, size_t lead, unsigned char *raw, size_t length)
{
    char digits[SIGNATURE_CHARACTERS];
    unsigned char bytes[2 + SIGNATURE_BYTES];
    size_t characters = (lead + length) / 3 * 4;

    memcpy(digits, text, characters);
    memset(digits, 'A', lead);
    if (!read_base_64(digits, characters, bytes, lead + length) || !sodium_is_zero(bytes, lead))
        return false;
    memcpy(raw, bytes + lead, length);
    return true;
}

/* The raw bytes under the code, with a NUL behind. */
static void write_raw(const char *code, const unsigned char *raw, size_t length, char *text)
{
    unsigned char bytes[2 + SIGNATURE_BYTES] = {0};
    size_t lead = strlen(code);
    size_t characters = (lead + length) / 3 * 4;

    memcpy(bytes + lead, raw, length);
    (void)sodium_bin2base64(text, characters + 1, bytes, lead + length, BASE_64);
    memcpy(text, code, lead);
}

bool read_key(const char *text, unsigned char key[KEY_BYTES])
{
    return (text[0] == 'B' || text[0] == 'D') && read_raw(text, 1, key, KEY_BYTES);
}

bool read_signature(const char *text, unsigned char signature[SIGNATURE_BYTES])
{
    return memcmp(text, "0B", 2) == 0 && read_raw(text, 2, signature, SIGNATURE_BYTES);
}

void write_key(char code, const unsigned char raw[KEY_BYTES], char text[KEY_CHARACTERS + 1])
{
    const char codes[] = {code, '\0'};

    write_raw(codes, raw, KEY_BYTES, text);
}

void write_signature(const unsigned char signature[SIGNATURE_BYTES], char text[SIGNATURE_CHARACTERS + 1])
{
    write_raw("0B", signature, SIGNATURE_BYTES, text);
}
