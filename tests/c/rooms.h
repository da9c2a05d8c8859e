/*
 * Rooms: octets between pages without access, so that a step out of what is lent ends the program.
 *
 *   new_room       a room to be read only, or to be written
 *   put            the same octets at both edges of a room
 *   lent           what is lent at an edge
 *   lend_buffer    a buffer at an edge, with one octet everywhere in it and beside it
 *   kept           whether that octet is still there, past the octets that were written
 *
 * What is lent at AT_START begins where pages without access end; at AT_END it ends where such pages
 * begin. A room that is to be read only is written through a second mapping of the same memory.
 */
#ifndef TESTS_C_ROOMS_H
#define TESTS_C_ROOMS_H

#define _GNU_SOURCE
#include <stdint.h>
#include <stdio.h>
#include <stdlib.h>
#include <string.h>
#include <sys/mman.h>
#include <unistd.h>

enum edge { AT_START, AT_END, EDGES };

#define ROOM ((size_t)1 << 19)  /* holds the longest case twice */
#define GUARD ((size_t)1 << 20) /* pages without access, on either side */
#define BESIDE 256              /* octets beside a buffer that are looked at */

struct room {
    uint8_t *inside; /* the room's octets, to write them here */
    uint8_t *shown;  /* the same octets, as the functions see them */
};

static inline struct room new_room(int protection)
{
    struct room room;
    int memory = memfd_create("room", 0);
    uint8_t *around =
        mmap(NULL, GUARD + ROOM + GUARD, PROT_NONE, MAP_PRIVATE | MAP_ANONYMOUS, -1, 0);
    if (memory < 0 || ftruncate(memory, ROOM) != 0 || around == MAP_FAILED) {
        perror("edges: no room");
        exit(2);
    }
    room.inside = mmap(NULL, ROOM, PROT_READ | PROT_WRITE, MAP_SHARED, memory, 0);
    room.shown = mmap(around + GUARD, ROOM, protection, MAP_SHARED | MAP_FIXED, memory, 0);
    if (room.inside == MAP_FAILED || room.shown == MAP_FAILED) {
        perror("edges: no room");
        exit(2);
    }
    close(memory);
    return room;
}

static inline size_t place(enum edge edge, size_t len)
{
    return edge == AT_START ? 0 : ROOM - len;
}

static inline void put(const struct room *room, const uint8_t *octets, size_t len)
{
    memcpy(room->inside + place(AT_START, len), octets, len);
    memcpy(room->inside + place(AT_END, len), octets, len);
}

static inline const uint8_t *lent(const struct room *room, enum edge edge, size_t len)
{
    return room->shown + place(edge, len);
}

/* Another octet at each edge: what is written over one of them by itself is seen at the other. */
static inline uint8_t fill(enum edge edge)
{
    return edge == AT_START ? 0xEE : 0x11;
}

static inline uint8_t *lend_buffer(const struct room *room, enum edge edge, size_t len)
{
    memset(room->inside + place(edge, len + BESIDE), fill(edge), len + BESIDE);
    return room->shown + place(edge, len);
}

/* The fill is where it was, but for the first `n` octets of the buffer. */
static inline int kept(const struct room *room, enum edge edge, size_t len, size_t n)
{
    const uint8_t *from = room->inside + place(edge, len + BESIDE);
    size_t first = edge == AT_START ? 0 : BESIDE;
    for (size_t i = 0; i < len + BESIDE; i++)
        if (from[i] != fill(edge) && !(i >= first && i < first + n))
            return 0;
    return 1;
}

#endif
