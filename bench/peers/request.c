/* This library: the request for the question's card, written. No response is read. */
#include "bench.h"
#include "desk.h"

static const uint8_t *card;
static uint8_t out[DESK_REQUEST_MAX];

void peer_ready(const uint8_t *question) { card = question + AT_CARD; }

unsigned peer_answer(const uint8_t *response, size_t len)
{
    (void)response, (void)len;
    return (unsigned)desk_request(card, DESK_CARD_LEN, out, sizeof out);
}
