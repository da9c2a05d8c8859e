/* This library: the signed part shown. The response is judged whole for that; no card is asked about. */
#include "bench.h"
#include "desk.h"

void peer_ready(const uint8_t *question) { (void)question; }

unsigned peer_answer(const uint8_t *response, size_t len)
{
    size_t from, size;
    return (unsigned)desk_signed(response, len, &from, &size);
}
