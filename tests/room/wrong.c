/*
 * Wrong desks, to see that the scenes of examples/room notice them. Linked with --wrap for the functions
 * below: each does what the true one does, and the fault besides that the number in WRONG names, counted
 * from 1. With the word `list` there, the program only prints the faults: the scene for each, and what it is.
 */
#define _GNU_SOURCE
#include <fcntl.h>
#include <stdarg.h>
#include <stdio.h>
#include <stdlib.h>
#include <string.h>
#include <sys/types.h>
#include <unistd.h>

#include "desk.h"
#include "http.h"

#define FAULTS(F) \
    F(ASKS_TOO, "once", "the responder is asked also where the cache has the answer") \
    F(SERIAL_ALONE, "apart", "a card is recognised by its serial alone") \
    F(NEVER_OLD, "old", "a slip never grows old") \
    F(KEEPS_OLD, "old", "a new slip does not take the old one's place") \
    F(TAKES_PLACE, "full", "a new card takes a place that is not free") \
    F(CUTS, "damaged", "a cache that is too long is cut") \
    F(OVERWRITES, "damaged", "a damaged cache is overwritten with a new one") \
    F(NO_LOCK, "hangs", "there is no lock") \
    F(OLD_COPY, "hangs", "the cache is not read again under the lock") \
    F(IN_PLACE, "killed", "the cache's own file is written to") \
    F(LEFT, "killed", "what a killed desk left stays there") \
    F(UNSEEN, "unwritten", "a failed write is not seen")

#define NAME(fault, scene, what) fault,
#define LINE(fault, scene, what) scene " " what,
enum fault { NONE, FAULTS(NAME) FAULT_COUNT };
static const char *const lines[] = {FAULTS(LINE)};
static int wrong;
static char **words; /* of the desk */

__attribute__((constructor)) static void choose(int argc, char **argv)
{
    const char *word = getenv("WRONG");
    (void)argc;
    words = argv;
    wrong = word == NULL ? NONE : atoi(word);
    if (word == NULL || strcmp(word, "list") != 0)
        return;
    for (size_t i = 0; i < sizeof lines / sizeof *lines; i++)
        puts(lines[i]);
    exit(0);
}

/* The file's path where `path` is that of the new cache beside it, and else NULL. */
static const char *cache_beside(const char *path)
{
    size_t len = strlen(words[1]);
    return strncmp(path, words[1], len) == 0 && strcmp(path + len, ".new") == 0 ? words[1] : NULL;
}

int __wrap_flock(int file, int operation);
int __real_flock(int file, int operation);
int __wrap_flock(int file, int operation)
{
    return wrong == NO_LOCK ? 0 : __real_flock(file, operation);
}

int __wrap_open(const char *path, int flags, ...);
int __real_open(const char *path, int flags, ...);
int __wrap_open(const char *path, int flags, ...)
{
    va_list rest;
    va_start(rest, flags);
    mode_t mode = flags & O_CREAT ? va_arg(rest, mode_t) : 0;
    va_end(rest);
    const char *cache = cache_beside(path);
    /* The new name is then the old file's too, and to rename it does nothing. */
    if (wrong == IN_PLACE && cache != NULL && link(cache, path) == 0)
        return __real_open(cache, O_WRONLY | O_TRUNC);
    return __real_open(path, flags, mode);
}

int __wrap_unlink(const char *path);
int __real_unlink(const char *path);
int __wrap_unlink(const char *path)
{
    return wrong == LEFT ? 0 : __real_unlink(path);
}

ssize_t __wrap_write(int file, const void *octets, size_t len);
ssize_t __real_write(int file, const void *octets, size_t len);
ssize_t __wrap_write(int file, const void *octets, size_t len)
{
    ssize_t done = __real_write(file, octets, len);
    return wrong == UNSEEN && done < 0 ? (ssize_t)len : done;
}

static void post_again(const uint8_t *card, size_t clen)
{
    static uint8_t response[DESK_RESPONSE_MAX];
    uint8_t request[DESK_REQUEST_MAX];
    const char *why;
    size_t len = desk_request(card, clen, request, sizeof request);
    http_post(atoi(words[4]), request, len, response, sizeof response, &why);
}

static void overwrite(void)
{
    static const uint8_t zeros[DESK_CACHE_LEN];
    int file = __real_open(words[1], O_WRONLY | O_TRUNC);
    if (file >= 0) {
        if (__real_write(file, zeros, sizeof zeros) < 0)
            abort();
        close(file);
    }
}

/* The first place whose slip has this serial. */
static size_t by_serial(const uint8_t *cache, const uint8_t *card, size_t *from, size_t *len)
{
    for (size_t at = 0; at < DESK_CACHE_LEN; at += DESK_CACHE_LEN / 64)
        if (memcmp(cache + at + 1 + 40, card + 40, 21) == 0) {
            *from = at;
            *len = cache[at] == DESK_REVOKED ? 87 : 78;
            return 0;
        }
    return DESK_NOT_HELD;
}

static uint8_t asked[DESK_CACHE_LEN + 1];

typedef size_t ask_function(const uint8_t *, size_t, const uint8_t *, size_t, uint64_t, uint64_t,
                            size_t *, size_t *);
ask_function __wrap_desk_cache_ask, __real_desk_cache_ask;
size_t __wrap_desk_cache_ask(const uint8_t *cache, size_t cachelen, const uint8_t *card, size_t clen,
                             uint64_t now, uint64_t tolerance, size_t *from, size_t *len)
{
    memcpy(asked, cache, cachelen);
    if (wrong == CUTS && cachelen > DESK_CACHE_LEN)
        cachelen = DESK_CACHE_LEN;
    size_t number = __real_desk_cache_ask(cache, cachelen, card, clen, now, tolerance, from, len);
    while (wrong == NEVER_OLD && number == 16)
        number = __real_desk_cache_ask(cache, cachelen, card, clen, now -= 60, tolerance, from, len);
    if (wrong == ASKS_TOO && number == 0)
        post_again(card, clen);
    if (wrong == SERIAL_ALONE && number == DESK_NOT_HELD)
        number = by_serial(cache, card, from, len);
    if (wrong == OVERWRITES && number == 19)
        overwrite();
    return number;
}

typedef size_t file_function(uint8_t *, size_t, const uint8_t *, size_t, uint64_t, uint64_t, size_t *);
file_function __wrap_desk_cache_file, __real_desk_cache_file;
size_t __wrap_desk_cache_file(uint8_t *cache, size_t cachelen, const uint8_t *slip, size_t sliplen,
                              uint64_t now, uint64_t tolerance, size_t *places)
{
    uint8_t before[DESK_CACHE_LEN + 1];
    size_t from, len;
    if (wrong == OLD_COPY)
        memcpy(cache, asked, cachelen);
    memcpy(before, cache, cachelen);
    size_t number = __real_desk_cache_file(cache, cachelen, slip, sliplen, now, tolerance, places);
    if (wrong == TAKES_PLACE && number == 20) {
        memset(cache, 0, DESK_CACHE_LEN / 64);
        number = __real_desk_cache_file(cache, cachelen, slip, sliplen, now, tolerance, places);
    }
    if (wrong == KEEPS_OLD && __real_desk_cache_ask(before, cachelen, slip + 1, DESK_CARD_LEN, now,
                                                    tolerance, &from, &len) != DESK_NOT_HELD)
        memcpy(cache, before, cachelen);
    return number;
}
