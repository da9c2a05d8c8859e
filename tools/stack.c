/*
 * How much stack each function of desk.h uses: calls it on a stack that was painted before, and looks
 * how far down the paint is gone. tools/stack builds and runs it. Its argument is the number of octets
 * that each function stays under.
 *
 * The responses:
 *   - one as full and as deep as the layout lets it be: 64 entries, the last of them the card's, and
 *     revoked; 16 extensions in the response and in that entry; free elements 16 deep; 8 certificates,
 *     the last with so many elements side by side that the response has some 16,384 octets;
 *   - a small one, whole, and with each of its octets changed;
 *   - an error, a response of another type, and one that is too long.
 * The caches: a new one; a full one, with cards that differ in their issuer alone, the last one asked for and
 * filed; one with a card in two places; and one that is too short.
 *
 * Prints the most that was seen of each function; the frame of its caller, some 30 octets, is counted
 * with it. Ends with 1 where a function used as much as its limit or more, and with 2 where the full
 * response is not answered with "revoked".
 */
#include <stdint.h>
#include <stdio.h>
#include <stdlib.h>
#include <string.h>
#include <ucontext.h>

#include "desk.h"

/* ---- a response, written from its end to its start */

static uint8_t response[DESK_RESPONSE_MAX + 1];
static size_t rlen;
static uint8_t *at; /* the first octet that is written */

static void octet(unsigned c)
{
    if (at == response)
        exit(2);
    *--at = (uint8_t)c;
}

static void octets(const char *s, size_t n)
{
    while (n > 0)
        octet((uint8_t)s[--n]);
}

static void repeated(unsigned c, size_t n)
{
    while (n-- > 0)
        octet(c);
}

/* The header of what was written before `end`. */
static void head(unsigned tag, const uint8_t *end)
{
    size_t n = (size_t)(end - at);
    octet(n & 0xFF);
    if (n > 0xFF)
        octet((unsigned)(n >> 8));
    if (n > 0x7F)
        octet(n > 0xFF ? 0x82 : 0x81);
    octet(tag);
}

/* A free element, `depth` elements one inside the other; there are `wide` innermost ones. */
static void free_element(unsigned depth, size_t wide)
{
    const uint8_t *end = at;
    while (wide-- > 0)
        octets("\x05\x00", 2);
    while (--depth > 0)
        head(0x30, end);
}

static void generalized_time(const char *digits)
{
    octets(digits, 15);
    octets("\x18\x0F", 2);
}

/* Extensions .. 1.1 to .. 1.n, the one that is understood among them critical. */
static void extensions(unsigned n, unsigned understood)
{
    const uint8_t *end = at;
    for (; n > 0; n--) {
        const uint8_t *each = at;
        octets("\x04\x01\x00", 3);
        if (n == understood)
            octets("\x01\x01\xFF", 3);
        octet(n);
        octets("\x06\x09\x2B\x06\x01\x05\x05\x07\x30\x01", 10);
        head(0x30, each);
    }
    head(0x30, end);
    head(0xA1, end);
}

/* An entry, revoked for a reason; the parameters of its algorithm are `depth` deep, 05 00 for 1. */
static void entry(unsigned serial, unsigned depth, unsigned more)
{
    const uint8_t *end = at;
    if (more > 0)
        extensions(more, 6);
    const uint8_t *next = at;
    generalized_time("20050503010000Z");
    head(0xA0, next);
    generalized_time("20050501010000Z");
    const uint8_t *status = at;
    octets("\xA0\x03\x0A\x01\x01", 5);
    generalized_time("20050401010000Z");
    head(0xA1, status);
    const uint8_t *cert = at;
    octet(serial);
    octets("\x02\x01", 2);
    repeated(0x22, 20);
    octets("\x04\x14", 2);
    repeated(0x11, 20);
    octets("\x04\x14", 2);
    const uint8_t *algorithm = at;
    free_element(depth, 1);
    octets("\x06\x05\x2B\x0E\x03\x02\x1A", 7);
    head(0x30, algorithm);
    head(0x30, cert);
    head(0x30, end);
}

/* How full a response is. */
struct shape {
    unsigned entries, extensions, depth, certificates;
    size_t wide; /* elements side by side in the last certificate */
    unsigned type; /* the last number of the response's type: 1 for the basic one */
};

static uint8_t name[DESK_NAME_MAX];
static size_t name_len;

static void build(struct shape s)
{
    const uint8_t *end = at = response + DESK_RESPONSE_MAX;
    for (unsigned i = 0; i < s.certificates; i++)
        free_element(s.depth, i == 0 ? s.wide : 1);
    head(0x30, end);
    head(0xA0, end);
    const uint8_t *signature = at;
    repeated(0x55, 256);
    octet(0);
    head(0x03, signature);
    const uint8_t *algorithm = at;
    free_element(s.depth, 1);
    octets("\x06\x09\x2A\x86\x48\x86\xF7\x0D\x01\x01\x0B", 11);
    head(0x30, algorithm);
    const uint8_t *signed_part = at;
    extensions(s.extensions, 2);
    const uint8_t *entries = at;
    entry(0x05, 1, s.extensions);
    for (unsigned i = 1; i < s.entries; i++)
        entry(0x06, s.depth, 0);
    head(0x30, entries);
    generalized_time("20050501010000Z");
    const uint8_t *responder = at;
    free_element(s.depth, 1);
    name_len = (size_t)(responder - at);
    memcpy(name, at, name_len);
    head(0xA1, responder);
    head(0x30, signed_part);
    head(0x30, end);
    head(0x04, end);
    octet(s.type);
    octets("\x06\x09\x2B\x06\x01\x05\x05\x07\x30\x01", 10);
    head(0x30, end);
    head(0xA0, end);
    octets("\x0A\x01\x00", 3);
    head(0x30, end);
    rlen = (size_t)(end - at);
    memmove(response, at, rlen);
}

/* ---- a question about the card that the responses are about */

static uint8_t question[DESK_QUESTION_LEN];

static void ask(void)
{
    memset(question, 0, sizeof question);
    question[0] = DESK_QUESTION;
    memset(question + 1, 0x11, 20);
    memset(question + 21, 0x22, 20);
    question[41] = 1;
    question[42] = 0x05;
    memcpy(question + 66, "\x42\x74\x2A\x10", 4); /* 20050501010000Z */
    question[72] = DESK_VALID;
    question[73] = DESK_ISSUER;
    question[95] = (uint8_t)(name_len >> 8);
    question[96] = (uint8_t)name_len;
    memcpy(question + 97, name, name_len);
}

/* ---- the functions */

static uint8_t slip[DESK_SLIP_MAX], request[DESK_REQUEST_MAX];
static size_t slip_len, ordinal, from, len;

static void call_check(void)
{
    slip_len = desk_check(question, sizeof question, response, rlen, slip, sizeof slip);
}
static void call_signed(void) { desk_signed(response, rlen, &from, &len); }
static void call_signature(void) { desk_signature(response, rlen, &from, &len); }
static void call_algorithm(void) { desk_algorithm(response, rlen, &from, &len); }
static void call_certificates(void) { desk_certificates(response, rlen, &from, &len); }
static void call_refusal(void) { desk_refusal(response, rlen, &len); }
static void call_misfit(void) { desk_misfit(response, rlen, &from); }
static void call_entry(void) { desk_entry(response, rlen, ordinal, &from, &len); }
static void call_request(void)
{
    desk_request(question + 1, DESK_CARD_LEN, request, sizeof request);
}
static void call_slip(void) { desk_slip(slip, slip_len); }

static uint8_t cache[DESK_CACHE_LEN], filed[DESK_SLIP_MAX];
static size_t cache_len = DESK_CACHE_LEN;
static const uint64_t now = 1114909200; /* 20050501010000Z */

static void call_cache_file(void)
{
    desk_cache_file(cache, cache_len, filed, sizeof filed, now, 0, &len);
}
static void call_cache_ask(void)
{
    desk_cache_ask(cache, cache_len, filed + 1, DESK_CARD_LEN, now, 0, &from, &len);
}

/* A revoked slip for the card with the question's serial under the issuer of this number. */
static void put_slip(uint8_t at[DESK_SLIP_MAX], unsigned issuer)
{
    memset(at, 0, DESK_SLIP_MAX);
    at[0] = DESK_REVOKED;
    memcpy(at + 1, question + 1, DESK_CARD_LEN);
    at[1] = (uint8_t)issuer;
    for (int i = 0; i < 3; i++)
        memcpy(at + 62 + 8 * i, question + 62, 8);
    at[86] = DESK_NO_REASON;
}

static struct row {
    const char *name;
    void (*call)(void);
    size_t most;
    const char *seen;
} rows[] = {
    {"desk_request", call_request, 0, ""},
    {"desk_signed", call_signed, 0, ""},
    {"desk_signature", call_signature, 0, ""},
    {"desk_algorithm", call_algorithm, 0, ""},
    {"desk_certificates", call_certificates, 0, ""},
    {"desk_refusal", call_refusal, 0, ""},
    {"desk_misfit", call_misfit, 0, ""},
    {"desk_check", call_check, 0, ""},
    {"desk_slip", call_slip, 0, ""},
    {"desk_entry", call_entry, 0, ""},
    {"desk_cache_file", call_cache_file, 0, ""},
    {"desk_cache_ask", call_cache_ask, 0, ""},
};
#define ROWS (sizeof rows / sizeof rows[0])

/* ---- a stack that is looked at */

#define STACK 32768
#define PAINT 0xA5

static uint8_t stack[STACK] __attribute__((aligned(16)));
static ucontext_t here, there;
static void (*called)(void);
static uint8_t *caller;

static void enter(void)
{
    caller = __builtin_frame_address(0);
    called();
}

/* The octets of stack that a call uses, below its caller's. */
static size_t used(void (*call)(void))
{
    memset(stack, PAINT, STACK);
    called = call;
    if (getcontext(&there) != 0)
        exit(2);
    there.uc_stack.ss_sp = stack;
    there.uc_stack.ss_size = STACK;
    there.uc_link = &here;
    makecontext(&there, enter, 0);
    if (swapcontext(&here, &there) != 0)
        exit(2);
    uint8_t *lowest = stack;
    while (*lowest == PAINT)
        lowest++;
    return (size_t)(caller - lowest);
}

/* Every function on the response and the cache as they stand. */
static void measure(const char *what)
{
    for (struct row *r = rows; r < rows + ROWS; r++) {
        size_t n = used(r->call);
        if (n > r->most) {
            r->most = n;
            r->seen = what;
        }
    }
}

int main(int count, char **words)
{
    size_t limit = count == 2 ? strtoul(words[1], NULL, 10) : 0;
    struct shape full = {64, 16, 16, 8, 1, 1}, small = {2, 2, 3, 1, 1, 1}, other = {2, 2, 3, 1, 1, 2};

    build(full);
    full.wide += (DESK_RESPONSE_MAX - rlen) / 2 - 16;
    build(full);
    ask();
    call_check();
    printf("the full response: %zu octets\n", rlen);
    if (slip_len != DESK_SLIP_MAX || slip[0] != DESK_REVOKED) {
        printf("it is not answered with \"revoked\": %02x %02x\n", slip[0], slip[1]);
        return 2;
    }
    for (ordinal = 0; ordinal <= 64; ordinal++)
        measure("the full response");

    build(small);
    ask();
    ordinal = 1;
    measure("the small response");
    for (size_t i = 0; i < rlen; i++)
        for (unsigned bit = 1; bit <= 0x80; bit <<= 7) {
            response[i] ^= (uint8_t)bit;
            measure("the small response with an octet changed");
            response[i] ^= (uint8_t)bit;
        }

    build(other);
    measure("a response of another type");
    memcpy(response, "\x30\x03\x0A\x01\x06", rlen = 5);
    measure("an error");
    rlen = DESK_RESPONSE_MAX + 1;
    measure("a response that is too long");

    put_slip(filed, 1);
    measure("a new cache");
    for (unsigned i = 0; i < DESK_PLACES; i++)
        put_slip(cache + DESK_SLIP_MAX * i, i + 1);
    for (unsigned issuer = DESK_PLACES; issuer <= DESK_PLACES + 1; issuer++) {
        put_slip(filed, issuer);
        measure("a full cache");
    }
    put_slip(cache, DESK_PLACES);
    measure("a card in two places");
    cache_len--;
    measure("a cache that is too short");

    int status = 0;
    for (struct row *r = rows; r < rows + ROWS; r++) {
        printf("%-16s %5zu octets of stack, most with %s\n", r->name, r->most, r->seen);
        if (r->most >= limit)
            status = 1;
    }
    return status;
}
