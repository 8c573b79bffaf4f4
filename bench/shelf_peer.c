/* What bench/shelf compares shelf_tool with. `append FILE` makes a shelf of the lines of standard input by the same
   writes and syncs, and says `stored N` after each; `read FILE` reads the whole file into one buffer and says how many
   bytes it has. Both open the file as shelf_tool does: locked, it and its folder synced, and the kernel's copies of its
   pages dropped; with `read-cached` they aren't. */
#define _GNU_SOURCE
#include <fcntl.h>
#include <stdio.h>
#include <stdlib.h>
#include <string.h>
#include <sys/file.h>
#include <sys/stat.h>
#include <unistd.h>

static void or_end(int holds, const char *what)
{
    if (!holds) {
        perror(what);
        exit(1);
    }
}

static int opened(const char *path)
{
    int file = open(path, O_RDWR | O_CREAT | O_CLOEXEC, 0666);

    or_end(file >= 0 && flock(file, LOCK_EX | LOCK_NB) == 0, "open");
    return file;
}

static void settle(int file, const char *path)
{
    char *name = realpath(path, NULL);
    int folder;

    or_end(name != NULL, "realpath");
    strrchr(name, '/')[1] = '\0';
    folder = open(name, O_RDONLY | O_CLOEXEC);
    or_end(fsync(file) == 0 && posix_fadvise(file, 0, 0, POSIX_FADV_DONTNEED) == 0, "settle");
    or_end(folder >= 0 && fsync(folder) == 0, "folder");
    close(folder);
    free(name);
}

static void put(int file, const unsigned char *bytes, size_t length, off_t place)
{
    or_end(pwrite(file, bytes, length, place) == (ssize_t)length, "pwrite");
    or_end(fdatasync(file) == 0, "fdatasync");
}

static void append(int file)
{
    char *line = NULL;
    unsigned char *record = malloc(524288 + 5);
    size_t room = 0;
    ssize_t length;
    off_t end = 8;

    or_end(record != NULL, "malloc");
    put(file, (const unsigned char *)"KSHELF02", 9, 0);
    for (int count = 1; (length = getline(&line, &room, stdin)) > 0; count++) {
        length -= line[length - 1] == '\n';
        or_end(length > 0 && length <= 524288, "line");
        for (int place = 0; place < 4; place++)
            record[place] = length >> (24 - 8 * place);
        memcpy(record + 4, line, length);
        record[4 + length] = 0;
        put(file, record, length + 5, end + 1);
        put(file, (const unsigned char *)"\1", 1, end);
        end += length + 5;
        or_end(printf("stored %d\n", count) > 0 && fflush(stdout) == 0, "stdout");
    }
    free(record);
    free(line);
}

static void read_all(int file)
{
    struct stat found;
    unsigned char *bytes;
    off_t done = 0;
    ssize_t count = 1;

    or_end(fstat(file, &found) == 0, "fstat");
    bytes = malloc(found.st_size + 1);
    or_end(bytes != NULL, "malloc");
    while (done < found.st_size && (count = read(file, bytes + done, found.st_size - done)) > 0)
        done += count;
    or_end(count >= 0, "read");
    printf("%lld\n", (long long)done);
    free(bytes);
}

int main(int count, char **words)
{
    int file;

    if (count != 3)
        return 2;
    file = opened(words[2]);
    if (strcmp(words[1], "read-cached") != 0)
        settle(file, words[2]);
    if (strcmp(words[1], "append") == 0)
        append(file);
    else
        read_all(file);
    return 0;
}
