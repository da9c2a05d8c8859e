/* One pass: every octet looked at once, one at a time. What all others are compared with. */
#include "bench.h"

void peer_ready(const uint8_t *question) { (void)question; }

unsigned peer_answer(const uint8_t *response, size_t len)
{
    unsigned sum = 0;
    for (size_t i = 0; i < len; i++) sum += response[i];
    return sum;
}
