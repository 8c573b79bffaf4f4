/* What tests/shelf_stops and tests/migration_stops put before the C library (LD_PRELOAD), to see each step that a program
   takes on a file, and to stop it there or have it fail. A step is a call of pwrite, ftruncate, fdatasync or fsync, and a
   write to standard output.
   The environment says what is wanted:
   TRACE=FILE         each step is added to the file as a line: `W PLACE BYTES`, `C SIZE`, `S`, `F` for a folder's sync, and
                      `A BYTES` for output, the bytes in hexadecimal
   DIE_AT=n, FAIL_AT=n   the program is killed before the step of that number, from 1, or the step fails; of a pwrite half
                      the bytes are written then
   CHOPPED            every other pread or pwrite is interrupted, and the others move one byte
   INTERRUPTED        every pread and pwrite is interrupted
   NO_LOCKS           a file can't be locked, as on a file system without locks */
#define _GNU_SOURCE
#include <dlfcn.h>
#include <errno.h>
#include <fcntl.h>
#include <signal.h>
#include <stdio.h>
#include <stdlib.h>
#include <string.h>
#include <sys/file.h>
#include <sys/stat.h>
#include <unistd.h>

typedef ssize_t reading(int, void *, size_t, off_t);
typedef ssize_t placing(int, const void *, size_t, off_t);
typedef ssize_t writing(int, const void *, size_t);
typedef int cutting(int, off_t);
typedef int syncing(int);
typedef int locking(int, int);

static int number(const char *name)
{
    return getenv(name) ? atoi(getenv(name)) : 0;
}

static void note(const char *step, const unsigned char *bytes, size_t length)
{
    FILE *trace = getenv("TRACE") ? fopen(getenv("TRACE"), "a") : NULL;

    if (!trace)
        return;
    fputs(step, trace);
    for (size_t place = 0; place < length; place++)
        fprintf(trace, "%02x", bytes[place]);
    fputc('\n', trace);
    fclose(trace);
}

/* Whether the step fails. */
static int fails(const char *step, const void *bytes, size_t length)
{
    static int steps;

    steps++;
    if (steps == number("DIE_AT"))
        kill(getpid(), SIGKILL);
    note(step, bytes, length);
    if (steps != number("FAIL_AT"))
        return 0;
    errno = EIO;
    return 1;
}

/* How many bytes are moved; none where the call is interrupted. */
static size_t chopped(int *calls, size_t length)
{
    errno = EINTR;
    if (getenv("INTERRUPTED"))
        return 0;
    if (!getenv("CHOPPED") || length == 0)
        return length;
    return (*calls)++ % 2;
}

ssize_t pread(int file, void *bytes, size_t length, off_t place)
{
    static int calls;
    size_t moved = chopped(&calls, length);

    return moved || !length ? ((reading *)dlsym(RTLD_NEXT, "pread"))(file, bytes, moved, place) : -1;
}

ssize_t pwrite(int file, const void *bytes, size_t length, off_t place)
{
    static int calls;
    placing *real = (placing *)dlsym(RTLD_NEXT, "pwrite");
    size_t moved = chopped(&calls, length);
    char step[32];

    if (!moved && length)
        return -1;
    snprintf(step, sizeof step, "W %lld ", (long long)place);
    if (fails(step, bytes, moved)) {
        real(file, bytes, moved / 2, place);
        errno = EIO;
        return -1;
    }
    return real(file, bytes, moved, place);
}

int ftruncate(int file, off_t size)
{
    char step[32];

    snprintf(step, sizeof step, "C %lld", (long long)size);
    return fails(step, NULL, 0) ? -1 : ((cutting *)dlsym(RTLD_NEXT, "ftruncate"))(file, size);
}

static int sync_by(const char *name, int file)
{
    struct stat found;
    const char *step = fstat(file, &found) == 0 && S_ISDIR(found.st_mode) ? "F" : "S";

    return fails(step, NULL, 0) ? -1 : ((syncing *)dlsym(RTLD_NEXT, name))(file);
}

int fdatasync(int file)
{
    return sync_by("fdatasync", file);
}

int flock(int file, int wanted)
{
    if (!getenv("NO_LOCKS"))
        return ((locking *)dlsym(RTLD_NEXT, "flock"))(file, wanted);
    errno = ENOLCK;
    return -1;
}

int fsync(int file)
{
    return sync_by("fsync", file);
}

ssize_t write(int file, const void *bytes, size_t length)
{
    if (file == STDOUT_FILENO && fails("A ", bytes, length))
        return -1;
    return ((writing *)dlsym(RTLD_NEXT, "write"))(file, bytes, length);
}

ssize_t pread64(int file, void *bytes, size_t length, off_t place)
{
    return pread(file, bytes, length, place);
}

ssize_t pwrite64(int file, const void *bytes, size_t length, off_t place)
{
    return pwrite(file, bytes, length, place);
}

int ftruncate64(int file, off_t size)
{
    return ftruncate(file, size);
}
