/* A copy of the octets of the request for the question's card. The request is written before the
 * counting starts; what is counted is a loop over its octets, or with -DMEMCPY the C library's copy. */
#include "bench.h"
#include "desk.h"
#include <string.h>

static uint8_t request[DESK_REQUEST_MAX];
static size_t size;
uint8_t out[DESK_REQUEST_MAX]; /* seen from outside, so that no compiler leaves the copy out */

void peer_ready(const uint8_t *question)
{
    size = desk_request(question + AT_CARD, DESK_CARD_LEN, request, sizeof request);
}

unsigned peer_answer(const uint8_t *response, size_t len)
{
    (void)response, (void)len;
#ifdef MEMCPY
    memcpy(out, request, size);
#else
    for (size_t i = 0; i < size; i++) out[i] = request[i];
#endif
    return (unsigned)size;
}
