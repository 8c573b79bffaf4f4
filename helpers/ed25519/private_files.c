#include "private_files.h"

#include <errno.h>
#include <fcntl.h>
#include <limits.h>
#include <string.h>
#include <unistd.h>

#include "input_output.h"

const char *fault_of(const struct stat *found, mode_t kind)
{
    if (S_ISLNK(found->st_mode))
        return "it is a link: refused";
    if ((found->st_mode & S_IFMT) != kind)
        return "it isn't a plain file: refused";
    if (found->st_uid != geteuid())
        return "it isn't yours: refused";
    if ((found->st_mode & 077) != 0)
        return kind == S_IFDIR ? "others can read or write it: refused (where nobody has: chmod 700 DIR)"
                               : "others can read or write it: refused (where nobody has: chmod 600 FILE)";
    return NULL;
}

/* The path without slashes at its end, behind which a link would be followed. */
static const char *without_slashes(const char *path)
{
    static char text[PATH_MAX];
    size_t length = strlen(path);

    while (length > 1 && path[length - 1] == '/')
        length--;
    if (length >= sizeof text)
        fail(KEY_FAULT, "the folder", strerror(ENAMETOOLONG));
    memcpy(text, path, length);
    text[length] = '\0';
    return text;
}

int open_folder(const char *path)
{
    struct stat found;
    const char *name = without_slashes(path);
    int folder = open(name, O_RDONLY | O_DIRECTORY | O_NOFOLLOW | O_CLOEXEC);
    const char *fault;

    if (folder < 0)
        fail(KEY_FAULT, path, why_not_opened(AT_FDCWD, name));
    fault = fstat(folder, &found) == 0 ? fault_of(&found, S_IFDIR) : strerror(errno);
    if (fault != NULL)
        fail(KEY_FAULT, path, fault);
    return folder;
}

/* Syncs the folder's own name in the folder above. */
static void sync_name(int folder)
{
    int above = openat(folder, "..", O_RDONLY | O_DIRECTORY | O_CLOEXEC);

    if (above < 0 || fsync(above) != 0)
        fail(KEY_FAULT, "the folder above", strerror(errno));
    (void)close(above);
}

/* What is wrong with what the folder has under the name, or NULL. What has gone was another run's unfinished file. */
static const char *fault_of_entry(int folder, const char *name)
{
    struct stat found;

    if (strcmp(name, ".") == 0 || strcmp(name, "..") == 0)
        return NULL;
    if (fstatat(folder, name, &found, AT_SYMLINK_NOFOLLOW) != 0)
        return errno == ENOENT ? NULL : strerror(errno);
    return fault_of(&found, S_IFREG);
}

DIR *entries_of(int folder, const char *path)
{
    int copy = dup(folder);
    DIR *entries = copy < 0 ? NULL : fdopendir(copy);

    if (entries == NULL)
        fail(KEY_FAULT, path, strerror(errno));
    rewinddir(entries); /* the copy stands where the folder was read to before */
    return entries;
}

/* Looks at all that is in the folder: plain files that are the caller's alone. */
static void look_through(int folder)
{
    DIR *entries = entries_of(folder, "the folder");
    const struct dirent *entry;

    for (errno = 0; (entry = readdir(entries)) != NULL; errno = 0) {
        const char *fault = fault_of_entry(folder, entry->d_name);
        if (fault != NULL)
            fail(KEY_FAULT, entry->d_name, fault);
    }
    if (errno != 0)
        fail(KEY_FAULT, "the folder", strerror(errno));
    (void)closedir(entries);
}

int open_or_make_folder(const char *path)
{
    if (mkdir(path, 0700) != 0 && errno != EEXIST)
        fail(KEY_FAULT, path, strerror(errno));
    int folder = open_folder(path);
    sync_name(folder);
    look_through(folder);
    return folder;
}

const char *write_new_file(int folder, const char *name, const void *bytes, size_t length)
{
    int file = openat(folder, name, O_WRONLY | O_CREAT | O_EXCL | O_NOFOLLOW | O_CLOEXEC, 0600);
    const char *fault = NULL;

    if (file < 0)
        return strerror(errno);
    if (!write_whole(file, bytes, length) || fsync(file) != 0)
        fault = strerror(errno);
    if (close(file) != 0 && fault == NULL)
        fault = strerror(errno);
    if (fault != NULL)
        (void)unlinkat(folder, name, 0);
    return fault;
}

const char *read_file(int folder, const char *name, void *bytes, size_t room, ssize_t *count, bool *is_there)
{
    struct stat found;
    int file = openat(folder, name, O_RDONLY | O_NOFOLLOW | O_NONBLOCK | O_CLOEXEC);

    *is_there = file >= 0 || errno != ENOENT;
    if (file < 0)
        return *is_there ? why_not_opened(folder, name) : NULL;
    const char *fault = fstat(file, &found) == 0 ? fault_of(&found, S_IFREG) : strerror(errno);
    if (fault == NULL && (*count = read_whole(file, bytes, room)) < 0)
        fault = strerror(errno);
    (void)close(file);
    return fault;
}
