/* caches FOLDER: writes caches with 0, 32 and 64 places filled, NAME.cache, and for each a question about
 * the card in the last filled place, NAME.held, and one about a card that no place has, NAME.new. Of
 * eight slips one is revoked and one unknown. The cards have serials of 16 octets and four issuers; in the
 * cache `alike`, which is full, each serial is one octet long and all four issuers have used it.
 */
#include "bench.h"
#include "cache.h"
#include <stdio.h>
#include <stdlib.h>

static uint64_t state = 88172645463325252u;

/* Octets that look random, the same in every run. */
static uint8_t next(void)
{
    state ^= state << 13;
    state ^= state >> 7;
    state ^= state << 17;
    return (uint8_t)(state >> 32);
}

static void card_of(uint8_t *card, int i, int alike)
{
    for (int j = 0; j < 40; j++) card[j] = (uint8_t)(i % 4 * 40 + j);
    card[40] = alike ? 1 : 16;
    memset(card + 41, 0, 20);
    for (int j = 0; j < card[40]; j++) card[41 + j] = next();
    card[41] = alike ? (uint8_t)(i / 4 + 1) : (uint8_t)((card[41] & 0x3f) | 0x40);
}

static void save(const char *folder, const char *name, const char *what, const uint8_t *octets, size_t n)
{
    char path[4096];
    snprintf(path, sizeof path, "%s/%s.%s", folder, name, what);
    FILE *f = fopen(path, "wb");
    if (!f || fwrite(octets, 1, n, f) != n || fclose(f)) {
        perror(path);
        exit(2);
    }
}

static void ask(const char *folder, const char *name, const char *what, const uint8_t *card)
{
    static uint8_t question[QUESTION];
    question[0] = DESK_QUESTION;
    memcpy(question + AT_CARD, card, DESK_CARD_LEN);
    put8(question + AT_NOW, CACHE_NOW);
    save(folder, name, what, question, sizeof question);
}

/* Fills a cache, and writes it where it is as full as it should be. */
static int fill(const char *folder, int alike)
{
    static uint8_t cache[DESK_CACHE_LEN];
    static const char *const names[] = {"empty", "half", "full"};
    uint8_t card[DESK_CARD_LEN], held[DESK_CARD_LEN], slip[DESK_SLIP_MAX];
    memset(cache, 0, sizeof cache);
    card_of(held, 0, alike);
    for (int i = 0;; i++) {
        card_of(card, i, alike);
        if (alike ? i == DESK_PLACES : i % 32 == 0) {
            const char *name = alike ? "alike" : names[i / 32];
            save(folder, name, "cache", cache, sizeof cache);
            ask(folder, name, "held", held);
            ask(folder, name, "new", card);
        }
        if (i == DESK_PLACES) return 1;
        uint8_t kind = i % 8 == 1 ? DESK_REVOKED : i % 8 == 2 ? DESK_UNKNOWN : DESK_GOOD;
        size_t places, len = slip_for(slip, kind, card);
        if (desk_cache_file(cache, sizeof cache, slip, len, CACHE_NOW, 0, &places) || places != (size_t)i + 1) return 0;
        memcpy(held, card, sizeof held);
    }
}

int main(int argc, char **argv)
{
    if (argc != 2) return 2;
    return fill(argv[1], 0) && fill(argv[1], 1) ? 0 : 2;
}
