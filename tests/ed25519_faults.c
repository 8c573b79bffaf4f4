/* What tests/ed25519 puts before the C library (LD_PRELOAD), to have keri-ed25519 meet what seldom happens. A step is a
   call of write, fsync or renameat. The environment says what is wanted:
   FIXED_RANDOMNESS   every random byte is 7
   TRACE              the name of each step is written to standard error, and what becomes of locked memory
   DIE_AT=n, FAIL_AT=n   the program is killed at the step of that number, from 1, or the step fails as on a full disk
   CHOPPED            every other read or write is interrupted, and the others move one byte
   COUNT_READS        how many bytes were read of files, other than standard input, is written at the end
   NO_LOCKING         memory can't be locked */
#define _GNU_SOURCE
#include <dlfcn.h>
#include <errno.h>
#include <signal.h>
#include <stdio.h>
#include <stdlib.h>
#include <string.h>
#include <sys/mman.h>
#include <unistd.h>

typedef ssize_t moving(int, void *, size_t);
typedef ssize_t moving_at(int, void *, size_t, off_t);
typedef ssize_t moving_to(int, const void *, size_t, off_t);
typedef int syncing(int);
typedef int cutting(int, off_t);
typedef int unlinking(int, const char *, int);
typedef int renaming(int, const char *, int, const char *);
typedef int locking(const void *, size_t);

static int number(const char *name)
{
    return getenv(name) ? atoi(getenv(name)) : 0;
}

static void trace(const char *name)
{
    if (getenv("TRACE"))
        dprintf(STDERR_FILENO, "%s\n", name);
}

/* Whether the step fails. */
static int fails(const char *name)
{
    static int steps;

    steps++;
    trace(name);
    if (steps == number("DIE_AT"))
        kill(getpid(), SIGKILL);
    if (steps != number("FAIL_AT"))
        return 0;
    errno = ENOSPC;
    return 1;
}

/* How many bytes are moved; none where the call is interrupted. */
static size_t chopped(int *calls, size_t length)
{
    if (!getenv("CHOPPED") || length == 0)
        return length;
    errno = EINTR;
    return (*calls)++ % 2;
}

static long bytes_read;

/* Notes how many bytes were read of the file. */
static ssize_t counted(int file, ssize_t count)
{
    if (file != STDIN_FILENO && count > 0)
        bytes_read += count;
    return count;
}

__attribute__((destructor)) static void tell_reads(void)
{
    if (getenv("COUNT_READS"))
        dprintf(STDERR_FILENO, "%ld\n", bytes_read);
}

ssize_t read(int file, void *bytes, size_t length)
{
    static int calls;
    size_t moved = chopped(&calls, length);

    return moved || !length ? counted(file, ((moving *)dlsym(RTLD_NEXT, "read"))(file, bytes, moved)) : -1;
}

ssize_t pread(int file, void *bytes, size_t length, off_t at)
{
    static int calls;
    size_t moved = chopped(&calls, length);

    return moved || !length ? counted(file, ((moving_at *)dlsym(RTLD_NEXT, "pread"))(file, bytes, moved, at)) : -1;
}

ssize_t write(int file, const void *bytes, size_t length)
{
    static int calls;
    size_t moved = chopped(&calls, length);

    if (fails("write") || (!moved && length))
        return -1;
    return ((moving *)dlsym(RTLD_NEXT, "write"))(file, (void *)bytes, moved);
}

ssize_t pwrite(int file, const void *bytes, size_t length, off_t at)
{
    static int calls;
    size_t moved = chopped(&calls, length);

    if (fails("pwrite") || (!moved && length))
        return -1;
    return ((moving_to *)dlsym(RTLD_NEXT, "pwrite"))(file, bytes, moved, at);
}

int fdatasync(int file)
{
    return fails("fdatasync") ? -1 : ((syncing *)dlsym(RTLD_NEXT, "fdatasync"))(file);
}

int ftruncate(int file, off_t length)
{
    return fails("ftruncate") ? -1 : ((cutting *)dlsym(RTLD_NEXT, "ftruncate"))(file, length);
}

int unlinkat(int folder, const char *name, int flags)
{
    return fails("unlinkat") ? -1 : ((unlinking *)dlsym(RTLD_NEXT, "unlinkat"))(folder, name, flags);
}

int fsync(int file)
{
    return fails("fsync") ? -1 : ((syncing *)dlsym(RTLD_NEXT, "fsync"))(file);
}

int renameat(int from, const char *name, int to, const char *other)
{
    return fails("renameat") ? -1 : ((renaming *)dlsym(RTLD_NEXT, "renameat"))(from, name, to, other);
}

int mlock(const void *bytes, size_t length)
{
    trace("mlock");
    errno = EPERM;
    return getenv("NO_LOCKING") ? -1 : ((locking *)dlsym(RTLD_NEXT, "mlock"))(bytes, length);
}

/* Called where memory of sodium_malloc is freed. */
int munlock(const void *bytes, size_t length)
{
    const unsigned char *byte = bytes;
    size_t place = 0;

    while (place < length && byte[place] == 0)
        place++;
    trace(place == length ? "wiped" : "unwiped");
    return ((locking *)dlsym(RTLD_NEXT, "munlock"))(bytes, length);
}

void randombytes_buf(void *bytes, size_t length)
{
    if (getenv("FIXED_RANDOMNESS"))
        memset(bytes, 7, length);
    else
        ((void (*)(void *, size_t))dlsym(RTLD_NEXT, "randombytes_buf"))(bytes, length);
}
