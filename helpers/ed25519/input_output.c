#include "input_output.h"

#include <errno.h>
#include <fcntl.h>
#include <limits.h>
#include <stdio.h>
#include <stdlib.h>
#include <string.h>
#include <sys/stat.h>
#include <unistd.h>

/* How many bytes the character has that begins there in UTF-8; 0 where none does, or it is a control character. */
static size_t character_at(const unsigned char *text)
{
    unsigned char first = text[0];
    size_t length = first < 0x80 ? 1 : first < 0xc2 ? 0 : first < 0xe0 ? 2 : first < 0xf0 ? 3 : first < 0xf5 ? 4 : 0;

    if (first < ' ' || first == 0x7f)
        return 0;
    for (size_t place = 1; place < length; place++)
        if ((text[place] & 0xc0) != 0x80)
            return 0;
    bool is_control = first == 0xc2 && text[1] < 0xa0;
    bool is_too_long = (first == 0xe0 && text[1] < 0xa0) || (first == 0xf0 && text[1] < 0x90);
    return is_control || is_too_long || (first == 0xf4 && text[1] > 0x8f) ? 0 : length;
}

/* The text as it is told, lest something of it acts on a terminal: `?` for each byte of no character, or of a control
   character; of a long one the beginning. */
static const char *shown(const char *text)
{
    static char told[PATH_MAX];
    size_t length = 0;

    while (*text != '\0') {
        size_t found = character_at((const unsigned char *)text), count = found > 0 ? found : 1;
        if (length + count >= sizeof told)
            break;
        memcpy(told + length, found > 0 ? text : "?", count);
        length += count;
        text += count;
    }
    told[length] = '\0';
    return told;
}

void fail(enum status status, const char *subject, const char *fault)
{
    (void)fprintf(stderr, "keri-ed25519: %s: %s\n", shown(subject), fault);
    exit((int)status);
}

ssize_t read_whole(int file, void *bytes, size_t length)
{
    size_t done = 0;

    while (done < length) {
        ssize_t count = read(file, (char *)bytes + done, length - done);
        if (count > 0)
            done += (size_t)count;
        else if (count == 0)
            break;
        else if (errno != EINTR)
            return -1;
    }
    return (ssize_t)done;
}

ssize_t read_whole_at(int file, void *bytes, size_t length, off_t at)
{
    size_t done = 0;

    while (done < length) {
        ssize_t count = pread(file, (char *)bytes + done, length - done, at + (off_t)done);
        if (count > 0)
            done += (size_t)count;
        else if (count == 0)
            break;
        else if (errno != EINTR)
            return -1;
    }
    return (ssize_t)done;
}

bool write_whole(int file, const void *bytes, size_t length)
{
    size_t done = 0;

    while (done < length) {
        ssize_t count = write(file, (const char *)bytes + done, length - done);
        if (count >= 0)
            done += (size_t)count;
        else if (errno != EINTR)
            return false;
    }
    return true;
}

bool write_whole_at(int file, const void *bytes, size_t length, off_t at)
{
    size_t done = 0;

    while (done < length) {
        ssize_t count = pwrite(file, (const char *)bytes + done, length - done, at + (off_t)done);
        if (count >= 0)
            done += (size_t)count;
        else if (errno != EINTR)
            return false;
    }
    return true;
}

void write_output(const void *answer, size_t length)
{
    if (!write_whole(STDOUT_FILENO, answer, length))
        fail(WRITE_FAULT, "standard output", strerror(errno));
}

const char *why_not_opened(int folder, const char *name)
{
    int error = errno;
    struct stat found;

    if (fstatat(folder, name, &found, AT_SYMLINK_NOFOLLOW) == 0 && S_ISLNK(found.st_mode))
        return "it is a link: refused";
    return strerror(error);
}
