#include "cachefile.h"

#include <errno.h>
#include <fcntl.h>
#include <libgen.h>
#include <limits.h>
#include <stdio.h>
#include <string.h>
#include <sys/file.h>
#include <unistd.h>

/* The name of a file beside the cache's: the same and an ending. */
static int name_beside(const char *path, const char *ending, char name[PATH_MAX])
{
    int len = snprintf(name, PATH_MAX, "%s%s", path, ending);
    if (len >= 0 && len < PATH_MAX)
        return 1;
    errno = ENAMETOOLONG;
    return 0;
}

/* Closes a file and keeps what errno says. */
static void close_quietly(int file)
{
    int reason = errno;
    close(file);
    errno = reason;
}

int cache_read(const char *path, struct cache *cache)
{
    size_t room = sizeof cache->octets, n = 0;
    ssize_t more = -1;
    int file = open(path, O_RDONLY | O_CLOEXEC);
    cache->len = 0;
    if (file < 0)
        return 0;
    while (n < room && (more = read(file, cache->octets + n, room - n)) > 0)
        n += (size_t)more;
    close_quietly(file);
    if (more < 0)
        return 0;
    cache->len = n;
    return 1;
}

/* The lock is on a file of its own, which stays for good: the cache's is replaced at every filing. */
int cache_lock(const char *path)
{
    char name[PATH_MAX];
    int lock = name_beside(path, ".lock", name) ? open(name, O_RDWR | O_CREAT | O_CLOEXEC, 0600) : -1;
    if (lock >= 0 && flock(lock, LOCK_EX) != 0) {
        close_quietly(lock);
        return -1;
    }
    return lock;
}

static int write_all(int file, const uint8_t *octets, size_t len)
{
    while (len > 0) {
        ssize_t done = write(file, octets, len);
        if (done < 0)
            return 0;
        octets += done;
        len -= (size_t)done;
    }
    return 1;
}

/* Writes a new file, up to the disk. What a desk that was killed has left under its name goes first. */
static int write_new(const char *name, const struct cache *cache)
{
    if (unlink(name) != 0 && errno != ENOENT)
        return 0;
    int file = open(name, O_WRONLY | O_CREAT | O_EXCL | O_CLOEXEC, 0600);
    if (file < 0)
        return 0;
    int whole = write_all(file, cache->octets, cache->len) && fsync(file) == 0;
    close_quietly(file);
    return whole;
}

/* A new name is on the disk when its folder is. */
static int sync_folder(const char *path)
{
    char name[PATH_MAX];
    int folder = name_beside(path, "", name) ? open(dirname(name), O_RDONLY | O_DIRECTORY | O_CLOEXEC) : -1;
    if (folder < 0)
        return 0;
    int done = fsync(folder) == 0;
    close_quietly(folder);
    return done;
}

int cache_replace(const char *path, const struct cache *cache)
{
    char name[PATH_MAX];
    return name_beside(path, ".new", name) && write_new(name, cache) && rename(name, path) == 0 &&
           sync_folder(path);
}
