/* This library: a good slip for the question's card filed in the room's cache, which stands in the response's
 * place. Each time the cache is as it was: the place that the filing wrote is put back.
 */
#include "bench.h"
#include "cache.h"

static const uint8_t *question;
static uint8_t cache[DESK_CACHE_LEN], slip[DESK_SLIP_MAX];
static size_t size, at;

static unsigned file(void)
{
    size_t places;
    return (unsigned)desk_cache_file(cache, sizeof cache, slip, size, number(question + AT_NOW, 8),
                                     number(question + AT_TOLERANCE, 2), &places);
}

void peer_ready(const uint8_t *q)
{
    question = q;
    size = slip_for(slip, DESK_GOOD, q + AT_CARD);
    slip[69]++;
}

unsigned peer_answer(const uint8_t *before, size_t len)
{
    static int ready;
    if (!ready) {
        if (len != sizeof cache) return 19;
        memcpy(cache, before, len);
        file();
        while (at < sizeof cache - 1 && cache[at] == before[at]) at++;
        at -= at % (DESK_CACHE_LEN / DESK_PLACES);
        ready = 1;
    }
    memcpy(cache + at, before + at, DESK_CACHE_LEN / DESK_PLACES);
    return file();
}
