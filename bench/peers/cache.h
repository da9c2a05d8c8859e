/* Slips for the caches that are measured. */
#ifndef CACHE_H
#define CACHE_H
#include "desk.h"
#include <stdint.h>
#include <string.h>

/* The time of every question about a cache, and how long a slip counts around it. */
enum { CACHE_NOW = 1500000000, CACHE_SPAN = 1000 };

/* A number in eight octets, high first. */
static inline void put8(uint8_t *at, uint64_t n)
{
    for (int i = 7; i >= 0; i--, n >>= 8) at[i] = (uint8_t)n;
}

/* The slip of a card of this kind that counts at CACHE_NOW: its length. */
static inline size_t slip_for(uint8_t *slip, uint8_t kind, const uint8_t *card)
{
    slip[0] = kind;
    memcpy(slip + 1, card, DESK_CARD_LEN);
    put8(slip + 62, CACHE_NOW - CACHE_SPAN);
    put8(slip + 70, CACHE_NOW + CACHE_SPAN);
    if (kind != DESK_REVOKED) return 78;
    put8(slip + 78, CACHE_NOW - 2 * CACHE_SPAN);
    slip[86] = DESK_NO_REASON;
    return 87;
}
#endif
