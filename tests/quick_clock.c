/* What tests/links puts before the C library (LD_PRELOAD), to have the time limits of links come sooner. The clock that never
   goes back runs as many times as fast as the variable QUICKER says, and the times for which a read or a write of a socket
   waits are shorter by as much. A socket whose writes may wait for some time holds as many bytes that aren't taken yet as
   ROOM says, where that is set. */
#define _GNU_SOURCE
#include <stdint.h>
#include <stdlib.h>
#include <sys/socket.h>
#include <sys/syscall.h>
#include <sys/time.h>
#include <time.h>
#include <unistd.h>

static int64_t quicker(void)
{
    return getenv("QUICKER") ? atoi(getenv("QUICKER")) : 1;
}

int clock_gettime(clockid_t clock, struct timespec *time)
{
    int failed = syscall(SYS_clock_gettime, clock, time);
    int64_t nanos;

    if (failed || clock != CLOCK_MONOTONIC)
        return failed;
    nanos = (time->tv_sec * 1000000000LL + time->tv_nsec) * quicker();
    time->tv_sec = nanos / 1000000000;
    time->tv_nsec = nanos % 1000000000;
    return 0;
}

static int set(int socket, int level, int name, const void *value, socklen_t length)
{
    return syscall(SYS_setsockopt, socket, level, name, value, length);
}

int setsockopt(int socket, int level, int name, const void *value, socklen_t length)
{
    int room = getenv("ROOM") ? atoi(getenv("ROOM")) : 0;
    struct timeval time;
    int64_t micros;

    if (level != SOL_SOCKET || (name != SO_RCVTIMEO && name != SO_SNDTIMEO) || length != sizeof time)
        return set(socket, level, name, value, length);
    if (name == SO_SNDTIMEO && room > 0)
        set(socket, SOL_SOCKET, SO_SNDBUF, &room, sizeof room);
    time = *(const struct timeval *)value;
    micros = time.tv_sec * 1000000LL + time.tv_usec;
    /* A time of 0 stands for no limit, and none becomes that. */
    if (micros > 0)
        micros = micros < quicker() ? 1 : micros / quicker();
    time.tv_sec = micros / 1000000;
    time.tv_usec = micros % 1000000;
    return set(socket, level, name, &time, length);
}
