/*
 * room: one desk of a room, for one card. The desks of the room share one cache file: each asks the
 * cache first, and the responder only where the cache has no answer, and then files what was checked.
 *
 *     room CACHE CA CARD PORT [SECONDS]
 *
 * CACHE is the file, 5,568 zeros when it is new; CA and CARD are certificates in PEM; PORT is the
 * responder's, on loopback; SECONDS since 1970 are the time to ask for, where it is not the clock's.
 * Ends with 0 exactly if the folio opens, with 1 if it stays closed, and with 2 where its words are wrong.
 */
#include <errno.h>
#include <stdio.h>
#include <stdlib.h>
#include <string.h>
#include <unistd.h>

#include "asking.h"
#include "cachefile.h"
#include "words.h"

struct desk {
    const char *path; /* of the cache */
    X509 *ca, *certificate;
    int port;
    const char *seconds; /* NULL for the clock's */
};

static uint64_t now_at(const struct desk *desk)
{
    return desk->seconds == NULL ? (uint64_t)time(NULL) : strtoull(desk->seconds, NULL, 10);
}

static void say_cache(size_t number)
{
    switch (number) {
    case 0: printf("  cache     holds this card: the answer is from the room's cache\n"); break;
    case DESK_NOT_HELD: printf("  cache     does not hold this card\n"); break;
    case 15: printf("  cache     holds a slip for this card that is not yet in force (15)\n"); break;
    case 16: printf("  cache     holds a slip for this card that is too old (16)\n"); break;
    case 19: printf("  cache     is no cache (19): it stays as it is, and nothing is filed\n"); break;
    default: printf("  cache     finds the card or the time out of range (%zu)\n", number); break;
    }
}

/* Asks the cache, and copies the slip where it has one that counts. Returns what desk_cache_ask does. */
static size_t ask_cache(const struct desk *desk, const uint8_t card[DESK_CARD_LEN], struct slip *slip)
{
    struct cache cache;
    size_t from;
    if (!cache_read(desk->path, &cache))
        printf("  cache     can not be read: %s\n", strerror(errno));
    size_t number = desk_cache_ask(cache.octets, cache.len, card, DESK_CARD_LEN, now_at(desk),
                                   TOLERANCE, &from, &slip->len);
    say_cache(number);
    memcpy(slip->octets, cache.octets + from, slip->len);
    return number;
}

static void say_not_filed(const char *why)
{
    printf("  filed     not, and the answer stands: %s\n", why);
}

/* Files a slip; the desk has the lock. Other desks may have filed since it asked: it reads again. */
static void file_locked(const struct desk *desk, const struct slip *slip)
{
    struct cache cache;
    size_t places;
    if (!cache_read(desk->path, &cache)) {
        say_not_filed(strerror(errno));
        return;
    }
    size_t number = desk_cache_file(cache.octets, cache.len, slip->octets, slip->len, now_at(desk),
                                    TOLERANCE, &places);
    if (number == 20)
        say_not_filed("no place is empty or too old (20)");
    else if (number != 0)
        say_not_filed("the file is no cache any more, or the time out of range");
    else if (!cache_replace(desk->path, &cache))
        say_not_filed(strerror(errno));
    else
        printf("  filed     in the room's cache; places taken now: %zu of 64\n", places);
}

static void file_slip(const struct desk *desk, const struct slip *slip)
{
    int lock = cache_lock(desk->path);
    if (lock < 0) {
        say_not_filed(strerror(errno));
        return;
    }
    file_locked(desk, slip);
    close(lock);
}

/* The cache first; then the responder, and its answer is filed where it is one and there is a cache. */
static void serve(const struct desk *desk, const uint8_t card[DESK_CARD_LEN], struct slip *slip)
{
    struct response response;
    size_t number = ask_cache(desk, card, slip);
    if (number == 0) {
        say_slip(slip->octets, slip->len);
        return;
    }
    if (!ask(desk->certificate, desk->ca, desk->port, &response)) {
        printf("  answer    none: there is no response to check\n  folio     stays closed\n");
        return;
    }
    judge(&response, desk->certificate, desk->ca, NULL, (time_t)now_at(desk), slip);
    if (slip->octets[0] != DESK_REFUSAL && number != 19)
        file_slip(desk, slip);
}

static int is_number(const char *word)
{
    return word[0] != '\0' && word[strspn(word, "0123456789")] == '\0';
}

static int is_port(const char *word)
{
    return is_number(word) && strtoul(word, NULL, 10) <= 65535;
}

static X509 *certificate_or_end(const char *path)
{
    X509 *certificate = certificate_at(path);
    if (certificate == NULL) {
        fprintf(stderr, "room: no certificate in %s\n", path);
        exit(2);
    }
    return certificate;
}

int main(int argc, char **argv)
{
    uint8_t card[DESK_CARD_LEN];
    struct slip slip = {0};
    if ((argc != 5 && argc != 6) || !is_port(argv[4]) || (argc == 6 && !is_number(argv[5]))) {
        fprintf(stderr, "usage: room CACHE CA CARD PORT [SECONDS]\n");
        return 2;
    }
    struct desk desk = {.path = argv[1],
                        .ca = certificate_or_end(argv[2]),
                        .certificate = certificate_or_end(argv[3]),
                        .port = atoi(argv[4]),
                        .seconds = argc == 6 ? argv[5] : NULL};
    /* Each line is out before the next step, also where the process is killed in that. */
    setvbuf(stdout, NULL, _IOLBF, BUFSIZ);
    if (card_of(desk.certificate, desk.ca, card))
        serve(&desk, card, &slip);
    else
        printf("  answer    none: this certificate is no card of that CA\n  folio     stays closed\n");
    X509_free(desk.ca);
    X509_free(desk.certificate);
    return slip.octets[0] == DESK_GOOD ? 0 : 1;
}
