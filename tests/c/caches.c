/*
 * The functions on the cache, called as edges.c calls the others: at every edge, with what desk.h promises
 * of each call looked at, and what is answered written or held to document 02, C-11.
 */
#include "edges.h"

#include "desk.h"

#define PLACE 87 /* octets of a place */
#define LAST_TIME 253402300799u
#define LAST_TOLERANCE 3600u

static struct room filed_room, cache_room, paper_room, first_room, second_room;

void new_cache_rooms(void)
{
    filed_room = new_room(PROT_READ | PROT_WRITE);
    cache_room = new_room(PROT_READ);
    paper_room = new_room(PROT_READ);
    first_room = new_room(PROT_READ | PROT_WRITE);
    second_room = new_room(PROT_READ | PROT_WRITE);
}

struct clock {
    uint64_t now, tolerance;
};

/* ---- what a cache is, by its octets */

static int is_zero(const uint8_t *octets, size_t len)
{
    while (len > 0)
        if (octets[--len] != 0)
            return 0;
    return 1;
}

static size_t filled(const uint8_t *cache)
{
    size_t n = 0;
    for (size_t i = 0; i < DESK_PLACES; i++)
        n += !is_zero(cache + PLACE * i, PLACE);
    return n;
}

static size_t places_that_differ(const uint8_t *one, const uint8_t *other)
{
    size_t n = 0;
    for (size_t i = 0; i < DESK_PLACES; i++)
        n += memcmp(one + PLACE * i, other + PLACE * i, PLACE) != 0;
    return n;
}

/* ---- the calls */

/* Files the slip in this cache, at every edge. */
static size_t file(uint8_t *cache, size_t cachelen, const uint8_t *slip, size_t sliplen, struct clock clock,
                   size_t *places)
{
    static uint8_t after[ROOM / 2];
    size_t number = 0;
    called = "desk_cache_file";
    put(&paper_room, slip, sliplen);
    for (int i = 0; i < EDGES * EDGES * EDGES; i++) {
        enum edge edge = i & 1, slip_edge = i >> 1 & 1, places_edge = i >> 2 & 1;
        uint8_t *at = lend_buffer(&filed_room, edge, cachelen);
        size_t *count = lend_number(&first_room, places_edge);
        memcpy(at, cache, cachelen);
        size_t found = desk_cache_file(at, cachelen, lent(&paper_room, slip_edge, sliplen), sliplen,
                                       clock.now, clock.tolerance, count);
        hold(kept(&filed_room, edge, cachelen, cachelen) &&
                 kept(&first_room, places_edge, sizeof *count, sizeof *count),
             "nothing beside the cache and *places changes");
        hold(i == 0 || (found == number && *count == *places && memcmp(at, after, cachelen) == 0),
             "the same answer and the same cache wherever the octets are");
        number = found;
        *places = *count;
        memcpy(after, at, cachelen);
    }
    hold(number == 0 || number == 1 || number == 17 || number == 19 || number == 20, "0, 1, 17, 19 or 20");
    if (number != 0)
        hold(*places == 0 && memcmp(after, cache, cachelen) == 0,
             "a refusal counts no place, and every octet is as it was");
    else
        hold(cachelen == DESK_CACHE_LEN && *places == filled(after) && places_that_differ(after, cache) <= 1,
             "the places that are filled are counted, and at most one is written");
    memcpy(cache, after, cachelen);
    return number;
}

/* What an ask answers: a number, and where the slip is. */
struct asked {
    size_t number, from, len;
};

/* Asks this cache for a card, at every edge. */
static struct asked ask(const uint8_t *cache, size_t cachelen, const uint8_t *card, size_t clen, struct clock clock)
{
    struct asked asked = {0, 0, 0};
    called = "desk_cache_ask";
    put(&cache_room, cache, cachelen);
    put(&paper_room, card, clen);
    for (int i = 0; i < EDGES * EDGES * EDGES * EDGES; i++) {
        enum edge edge = i & 1, card_edge = i >> 1 & 1, from_edge = i >> 2 & 1, len_edge = i >> 3 & 1;
        size_t *from = lend_number(&first_room, from_edge), *len = lend_number(&second_room, len_edge);
        size_t number = desk_cache_ask(lent(&cache_room, edge, cachelen), cachelen,
                                       lent(&paper_room, card_edge, clen), clen, clock.now, clock.tolerance,
                                       from, len);
        hold(kept(&first_room, from_edge, sizeof *from, sizeof *from) &&
                 kept(&second_room, len_edge, sizeof *len, sizeof *len),
             "nothing beside *from and *len changes");
        hold(i == 0 || (number == asked.number && *from == asked.from && *len == asked.len),
             "the same answer wherever the octets are");
        asked = (struct asked){number, *from, *len};
    }
    size_t number = asked.number;
    hold(number == 0 || number == 1 || number == 15 || number == 16 || number == 19 || number == DESK_NOT_HELD,
         "0, 1, 15, 16, 19 or DESK_NOT_HELD");
    if (number != 0)
        hold(asked.from == 0 && asked.len == 0, "without an answer there is an empty part");
    else
        hold(cachelen == DESK_CACHE_LEN && clen == DESK_CARD_LEN && asked.from % PLACE == 0 &&
                 asked.from < DESK_CACHE_LEN && asked.len == (cache[asked.from] == DESK_REVOKED ? 87 : 78) &&
                 memcmp(cache + asked.from + 1, card, DESK_CARD_LEN) == 0,
             "the slip of this card's place, and nothing after it");
    return asked;
}

/* ---- runs over one cache (tests/README.md) */

static uint64_t number_at(const uint8_t *octets, int size)
{
    uint64_t n = 0;
    while (size-- > 0)
        n = n << 8 | *octets++;
    return n;
}

/* An answer has the fields of a slip in their order, then a refusal's two. */
static void print_answer(const uint8_t *slip, size_t len)
{
    printf("s");
    for (size_t i = 0; i < 89; i++)
        printf("%02x", i < len ? slip[i] : 0);
    printf(" ");
}

static void file_step(uint8_t *cache, size_t cachelen, const uint8_t *slip, size_t n, struct clock clock)
{
    size_t places, number = file(cache, cachelen, slip, n, clock, &places);
    if (number == 0)
        printf("c%02zx ", places);
    else
        printf("r%zu ", number);
}

static void ask_step(const uint8_t *cache, size_t cachelen, const uint8_t *card, struct clock clock)
{
    struct asked asked = ask(cache, cachelen, card, DESK_CARD_LEN, clock);
    if (asked.number == DESK_NOT_HELD)
        printf("n ");
    else if (asked.number == 0)
        print_answer(cache + asked.from, asked.len);
    else
        printf("r%zu ", asked.number);
}

void answer_run(const uint8_t *body, size_t len)
{
    static uint8_t cache[ROOM / 2];
    size_t cachelen = len < 4 ? 0 : (size_t)number_at(body, 4);
    if (len < 4 || len - 4 < cachelen) {
        printf("-\n");
        return;
    }
    memcpy(cache, body + 4, cachelen);
    for (size_t at = 4 + cachelen; len - at >= 18; at += 18 + body[at + 17]) {
        struct clock clock = {number_at(body + at + 1, 8), number_at(body + at + 9, 8)};
        size_t n = body[at + 17];
        if (len - at - 18 < n || !(body[at] == 1 || (body[at] == 2 && n == DESK_CARD_LEN)))
            break;
        if (body[at] == 1)
            file_step(cache, cachelen, body + at + 18, n, clock);
        else
            ask_step(cache, cachelen, body + at + 18, clock);
    }
    for (size_t i = 0; i < cachelen; i++)
        printf("%02x", cache[i]);
    printf("\n");
}

/* ---- document 02, C-11, with document 01's card: hashes all 11 and all 22 */

#define T 1114909200u /* document 01's time */
static const struct clock at_t = {T, 0};

static uint8_t cache[DESK_CACHE_LEN + PLACE];

static void put_card(uint8_t card[DESK_CARD_LEN], uint8_t serial)
{
    memset(card, 0x11, 20);
    memset(card + 20, 0x22, 20);
    memset(card + 40, 0, 21);
    card[40] = 1;
    card[41] = serial;
}

static void put_number(uint8_t *octets, uint64_t n)
{
    for (int i = 7; i >= 0; i--, n >>= 8)
        octets[i] = (uint8_t)n;
}

/* A slip of this kind for the card with this serial; its length. */
static size_t put_slip(uint8_t slip[DESK_SLIP_MAX], uint8_t kind, uint8_t serial, uint64_t this_update,
                       uint64_t next_update)
{
    memset(slip, 0, DESK_SLIP_MAX);
    slip[0] = kind;
    put_card(slip + 1, serial);
    put_number(slip + 62, this_update);
    put_number(slip + 70, next_update);
    if (kind != DESK_REVOKED)
        return 78;
    put_number(slip + 78, this_update);
    slip[86] = DESK_NO_REASON;
    return 87;
}

static size_t filing(const uint8_t *slip, size_t n, struct clock clock, size_t *places)
{
    return file(cache, DESK_CACHE_LEN, slip, n, clock, places);
}

static size_t asking(uint8_t serial, struct clock clock)
{
    uint8_t card[DESK_CARD_LEN];
    put_card(card, serial);
    return ask(cache, DESK_CACHE_LEN, card, DESK_CARD_LEN, clock).number;
}

/* Place i is this slip and then zeros. */
static void holds(size_t i, const uint8_t *slip, size_t n)
{
    hold(memcmp(cache + PLACE * i, slip, n) == 0 && is_zero(cache + PLACE * i + n, PLACE - n),
         "the place has this slip, and zeros after it");
}

/* A full cache: serial i + 1 in place i, good from T to T + 100. */
static void fill_cache(void)
{
    memset(cache, 0, sizeof cache);
    for (size_t i = 0; i < DESK_PLACES; i++)
        put_slip(cache + PLACE * i, DESK_GOOD, (uint8_t)(i + 1), T, T + 100);
}

/* One card: 15, its answer, 16; a tie, an older and a later slip. */
static void document_one_card(void)
{
    uint8_t good[DESK_SLIP_MAX], revoked[DESK_SLIP_MAX], other[DESK_SLIP_MAX];
    size_t places, n = put_slip(good, DESK_GOOD, 5, T, T + 100);
    memset(cache, 0, sizeof cache);
    hold(asking(5, at_t) == DESK_NOT_HELD, "a new cache has no card");
    hold(filing(good, n, at_t, &places) == 0 && places == 1, "a new cache takes a slip");
    holds(0, good, n);
    hold(asking(5, (struct clock){T - 1, 3600}) == 15, "15 before thisUpdate, whatever the tolerance");
    hold(asking(5, at_t) == 0, "from thisUpdate on");
    hold(asking(5, (struct clock){T + 100, 0}) == 0, "until nextUpdate");
    hold(asking(5, (struct clock){T + 101, 0}) == 16, "16 past it");
    hold(asking(5, (struct clock){T + 107, 7}) == 0, "until nextUpdate plus tolerance");
    hold(asking(5, (struct clock){T + 108, 7}) == 16, "16 past that");
    hold(asking(6, at_t) == DESK_NOT_HELD, "another serial is another card");

    size_t m = put_slip(revoked, DESK_REVOKED, 5, T, T + 200);
    hold(filing(revoked, m, at_t, &places) == 0 && places == 1, "a tie is accepted");
    holds(0, revoked, m);
    n = put_slip(other, DESK_UNKNOWN, 5, T - 1, T + 300);
    hold(filing(other, n, at_t, &places) == 0 && places == 1, "an older slip is accepted");
    holds(0, revoked, m);
    n = put_slip(other, DESK_UNKNOWN, 5, T + 1, T + 300);
    hold(filing(other, n, at_t, &places) == 0 && places == 1, "a later slip is accepted");
    holds(0, other, n);

    n = put_slip(good, DESK_GOOD, 5, T, T + 100);
    good[1] ^= 1;
    hold(filing(good, n, at_t, &places) == 0 && places == 2, "the serial under another issuer is another card");
    holds(0, other, put_slip(other, DESK_UNKNOWN, 5, T + 1, T + 300));
    holds(1, good, n);
}

/* A new card takes the first place that is empty or stale; 20 where there is none. */
static void document_full(void)
{
    uint8_t slip[DESK_SLIP_MAX];
    size_t places, n = put_slip(slip, DESK_GOOD, 100, T, T + 100);
    struct clock end = {T + 107, 7}, past = {T + 108, 7};
    fill_cache();
    hold(filing(slip, n, end, &places) == 20, "20 where no place is empty or stale");
    put_slip(slip, DESK_REVOKED, 64, T, T + 100);
    hold(filing(slip, 87, end, &places) == 0 && places == 64, "a card that is held has its place");
    holds(63, slip, 87);
    n = put_slip(slip, DESK_GOOD, 100, T + 200, T + 300);
    hold(filing(slip, n, past, &places) == 0 && places == 64, "the first stale place is taken");
    holds(0, slip, n);
    hold(asking(1, at_t) == DESK_NOT_HELD && asking(2, at_t) == 0, "its card alone is gone");
    fill_cache();
    memset(cache + PLACE * 62, 0, PLACE);
    hold(filing(slip, n, end, &places) == 0 && places == 64, "an empty place is taken");
    holds(62, slip, n);
    fill_cache();
    memset(cache, 0, PLACE * 63);
    put_slip(cache + PLACE * 3, DESK_GOOD, 4, T, T + 50);
    memset(cache + PLACE * 63, 0, PLACE);
    hold(asking(4, (struct clock){T + 51, 0}) == 16, "asking frees nothing");
    hold(filing(slip, n, (struct clock){T + 51, 0}, &places) == 0 && places == 2, "the lowest place that is free");
    holds(0, slip, n);
}

/* Both functions refuse with 19. */
static void both_19(size_t cachelen, const char *what)
{
    uint8_t slip[DESK_SLIP_MAX], card[DESK_CARD_LEN];
    size_t places, n = put_slip(slip, DESK_GOOD, 5, T, T + 100);
    static const struct clock out = {LAST_TIME + 1, LAST_TOLERANCE + 1};
    put_card(card, 5);
    for (int i = 0; i < 2; i++) {
        /* Before 1 and 17: the second time round all else is wrong too. */
        struct clock clock = i == 0 ? at_t : out;
        size_t less = (size_t)i;
        hold(file(cache, cachelen, slip, n - less, clock, &places) == 19, what);
        hold(ask(cache, cachelen, card, DESK_CARD_LEN - less, clock).number == 19, what);
    }
}

/* Buffers that are no cache. */
static void document_19(void)
{
    static const size_t lengths[] = {0, 1, PLACE, DESK_CACHE_LEN - PLACE, DESK_CACHE_LEN - 1, DESK_CACHE_LEN + 1,
                                     DESK_CACHE_LEN + PLACE};
    memset(cache, 0, sizeof cache);
    for (size_t i = 0; i < sizeof lengths / sizeof *lengths; i++)
        both_19(lengths[i], "19 for another length");

    static const size_t at[] = {0, 1, 62, 63};
    for (size_t i = 0; i < sizeof at / sizeof *at; i++) {
        uint8_t *place = cache + PLACE * at[i];
        memset(cache, 0, sizeof cache);
        place[86] = 1;
        both_19(DESK_CACHE_LEN, "19 for an octet in an empty place");
        put_slip(place, DESK_GOOD, 5, T, T + 100);
        place[78] = 1;
        both_19(DESK_CACHE_LEN, "19 for an octet behind a slip");
        put_slip(place, DESK_GOOD, 5, T, T - 1);
        both_19(DESK_CACHE_LEN, "19 for a slip that breaks the slip rules");
        memset(place, 0, PLACE);
        memcpy(place, "\x04\x04\x06", 3);
        both_19(DESK_CACHE_LEN, "19 for a slip of kind 04");
        fill_cache();
        put_slip(place, DESK_UNKNOWN, 33, T + 1, T + 2);
        both_19(DESK_CACHE_LEN, "19 for a card in two places");
    }
}

/* Times and tolerances out of range, cards and slips of other lengths, and the order of the numbers. */
static void document_order(void)
{
    static const struct clock in[] = {{0, 0}, {LAST_TIME, LAST_TOLERANCE}},
                              out[] = {{LAST_TIME + 1, 0}, {T, LAST_TOLERANCE + 1}, {(uint64_t)1 << 63, 0},
                                       {UINT64_MAX, 0},    {T, (uint64_t)1 << 32},  {T, UINT64_MAX}};
    static const uint8_t refusal[] = {0x04, 0x04, 0x06};
    uint8_t slip[DESK_SLIP_MAX + 1] = {0}, card[DESK_CARD_LEN + 1] = {0};
    size_t places, n = put_slip(slip, DESK_GOOD, 100, T, T + 100);
    put_card(card, 5);
    for (size_t i = 0; i < sizeof in / sizeof *in; i++) {
        memset(cache, 0, sizeof cache);
        hold(asking(5, in[i]) == DESK_NOT_HELD && filing(slip, n, in[i], &places) == 0, "times in range");
    }
    fill_cache();
    for (size_t i = 0; i < sizeof out / sizeof *out; i++)
        hold(asking(5, out[i]) == 1 && filing(slip, n, out[i], &places) == 1 &&
                 filing(slip, n - 1, out[i], &places) == 1,
             "1 for a time or a tolerance out of range, before 17");
    for (size_t m = 0; m <= DESK_SLIP_MAX + 1; m++)
        hold(filing(slip, m, at_t, &places) == (m == n ? 20 : 17), "17 for another length, before 20");
    slip[0] = DESK_REVOKED;
    for (size_t m = n; m <= DESK_SLIP_MAX + 1; m++)
        hold(filing(slip, m, at_t, &places) == (m == DESK_SLIP_MAX ? 20 : 17), "a revoked slip has 87 octets");
    hold(filing(refusal, sizeof refusal, at_t, &places) == 17, "17 for a slip of kind 04");
    for (size_t clen = 0; clen <= DESK_CARD_LEN + 1; clen++)
        hold(ask(cache, DESK_CACHE_LEN, card, clen, at_t).number == (clen == DESK_CARD_LEN ? 0 : 1),
             "a card has 61 octets");
    card[40] = 0;
    hold(ask(cache, DESK_CACHE_LEN, card, DESK_CARD_LEN, at_t).number == 1, "1 for a card without a serial");
    card[40] = 1;
    card[42] = 1;
    hold(ask(cache, DESK_CACHE_LEN, card, DESK_CARD_LEN, at_t).number == 1, "1 for a fill that is not zeros");
}

void document_caches(void)
{
    document_one_card();
    document_full();
    document_19();
    document_order();
}
