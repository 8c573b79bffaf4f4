#include "event_front.h"

#include <string.h>

static const char base_64[] = "ABCDEFGHIJKLMNOPQRSTUVWXYZabcdefghijklmnopqrstuvwxyz0123456789-_";
static const char hexadecimal[] = "0123456789abcdef";

enum { MOST_DIGITS = 16, SIZE_DIGITS = 6 };

/* What is left of a body. */
struct rest {
    const char *text;
    size_t length;
};

/* Takes just this text from the front. */
static bool take(struct rest *rest, const char *text)
{
    size_t length = strlen(text);

    if (rest->length < length || memcmp(rest->text, text, length) != 0)
        return false;
    rest->text += length;
    rest->length -= length;
    return true;
}

bool read_name(const char *text, const char *codes, char name[NAME_CHARACTERS + 1])
{
    if (text[0] == '\0' || strchr(codes, text[0]) == NULL)
        return false;
    for (size_t place = 0; place < NAME_CHARACTERS; place++)
        if (text[place] == '\0' || strchr(base_64, text[place]) == NULL)
            return false;
    memcpy(name, text, NAME_CHARACTERS);
    name[NAME_CHARACTERS] = '\0';
    return true;
}

static bool take_name(struct rest *rest, const char *codes, char name[NAME_CHARACTERS + 1])
{
    if (rest->length < NAME_CHARACTERS || !read_name(rest->text, codes, name))
        return false;
    rest->text += NAME_CHARACTERS;
    rest->length -= NAME_CHARACTERS;
    return true;
}

size_t read_number(const char *text, size_t length, uint64_t *number)
{
    size_t digits = 0;

    *number = 0;
    while (digits < length && digits <= MOST_DIGITS) {
        const char *digit = memchr(hexadecimal, text[digits], 16);
        if (digit == NULL)
            break;
        if (digits < MOST_DIGITS)
            *number = 16 * *number + (uint64_t)(digit - hexadecimal);
        digits++;
    }
    if (digits > MOST_DIGITS || (digits > 1 && text[0] == '0'))
        return 0;
    return digits;
}

static bool take_number(struct rest *rest, uint64_t *number)
{
    size_t digits = read_number(rest->text, rest->length, number);

    rest->text += digits;
    rest->length -= digits;
    return digits > 0;
}

/* Takes the size, which has to be that of the body. */
static bool take_size(struct rest *rest, size_t length)
{
    size_t size = 0;

    if (rest->length < SIZE_DIGITS)
        return false;
    for (size_t place = 0; place < SIZE_DIGITS; place++) {
        const char *digit = memchr(hexadecimal, rest->text[place], 16);
        if (digit == NULL)
            return false;
        size = 16 * size + (size_t)(digit - hexadecimal);
    }
    rest->text += SIZE_DIGITS;
    rest->length -= SIZE_DIGITS;
    return size == length;
}

/* Takes the kind, which has to be one of an event. */
static bool take_kind(struct rest *rest, char kind[4])
{
    static const char *const kinds[] = {"icp", "rot", "ixn", "dip", "drt"};

    for (size_t place = 0; place < sizeof kinds / sizeof *kinds; place++)
        if (take(rest, kinds[place])) {
            memcpy(kind, kinds[place], 4);
            return true;
        }
    return false;
}

bool read_event_front(const unsigned char *body, size_t length, struct event_front *front)
{
    struct rest rest = {(const char *)body, length};

    return take(&rest, "{\"v\":\"KERI10JSON") && take_size(&rest, length) && take(&rest, "_\",\"t\":\"")
        && take_kind(&rest, front->kind) && take(&rest, "\",\"d\":\"") && take_name(&rest, "EI", front->said)
        && take(&rest, "\",\"i\":\"") && take_name(&rest, "BDEI", front->prefix) && take(&rest, "\",\"s\":\"")
        && take_number(&rest, &front->number) && take(&rest, "\",") && body[length - 1] == '}';
}

bool rotates(const char *kind)
{
    return strcmp(kind, "rot") == 0 || strcmp(kind, "drt") == 0;
}

bool establishes(const char *kind)
{
    return strcmp(kind, "ixn") != 0;
}
