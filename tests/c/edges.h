/*
 * What edges.c, caches.c and misfits.c share: a promise that is looked at, numbers that are lent to be set, and
 * octets from hex. caches.c calls the functions on the cache, misfits.c desk_misfit.
 */
#ifndef TESTS_C_EDGES_H
#define TESTS_C_EDGES_H

#include "rooms.h"

extern const char *called; /* the function that is called */

void hold(int kept, const char *promise);

/* A number lent at an edge, to be set. */
size_t *lend_number(const struct room *room, enum edge edge);

/* Writes the octets, and returns how many there are. */
size_t from_hex(const char *hex, uint8_t *octets);

void new_cache_rooms(void);
void answer_run(const uint8_t *body, size_t len);
void document_caches(void);

void new_misfit_rooms(void);
void answer_place(const uint8_t *body, size_t len);
void document_misfits(void);

#endif
