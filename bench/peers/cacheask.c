/* This library: the room's cache, which stands in the response's place, asked for the question's card. */
#include "bench.h"
#include "desk.h"

static const uint8_t *question;

void peer_ready(const uint8_t *q) { question = q; }

unsigned peer_answer(const uint8_t *cache, size_t len)
{
    size_t from, size;
    return (unsigned)desk_cache_ask(cache, len, question + AT_CARD, DESK_CARD_LEN, number(question + AT_NOW, 8),
                                    number(question + AT_TOLERANCE, 2), &from, &size);
}
