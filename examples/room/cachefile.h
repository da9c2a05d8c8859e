/*
 * The room's cache as a file that many processes share. Whoever reads needs no lock: the file is never
 * written to, only replaced by a whole one. Whoever files takes the lock, reads, changes its copy in
 * memory, and replaces the file.
 */
#ifndef ROOM_CACHEFILE_H
#define ROOM_CACHEFILE_H

#include <stddef.h>
#include <stdint.h>

#include "desk.h"

/* Room for one octet more than a cache has: a longer file is then refused as such, and not cut. */
struct cache {
    uint8_t octets[DESK_CACHE_LEN + 1];
    size_t len;
};

/* Reads the file. Returns 0 where that fails, with errno set; the copy is then empty, and no cache. */
int cache_read(const char *path, struct cache *cache);

/*
 * Waits for the writer's lock and takes it. Returns what to close to give it back, or -1 with errno set.
 * The lock of a process that ends, in whatever way, is free.
 */
int cache_lock(const char *path);

/*
 * Puts `cache` into the file's place; the caller has the lock. Returns 0 where that fails, with errno set.
 * At any moment, also after a power cut, the file is the old cache or the new one, whole.
 */
int cache_replace(const char *path, const struct cache *cache);

#endif
