/*
 * Wrong functions, to see that edges.c notices them. Linked with --wrap for every function of desk.h:
 * each does what the library's does, and the fault besides that the number in BROKEN names, counted from
 * 1. With the word `list` there, the program only prints the faults, a line for each.
 */
#include <stdio.h>
#include <stdlib.h>
#include <string.h>

#include "desk.h"

#define FAULTS(F) \
    F(CARD_PAST, "desk_request reads past the card") \
    F(CARD_BEFORE, "desk_request reads before the card") \
    F(REQUEST_PAST, "desk_request writes past the request") \
    F(REQUEST_BEFORE, "desk_request writes before the request") \
    F(REQUEST_SHORT, "desk_request writes into a buffer that is too short") \
    F(REQUEST_OTHER, "desk_request writes another algorithm") \
    F(REQUEST_LENGTH, "desk_request returns the length of the buffer") \
    F(REFUSAL_PAST, "desk_refusal reads past the response") \
    F(REFUSAL_BEFORE, "desk_refusal reads before the response") \
    F(REFUSAL_DROPS, "desk_refusal leaves the status out") \
    F(REFUSAL_LEAVES, "desk_refusal leaves the status as it was") \
    F(REFUSAL_BESIDE, "desk_refusal writes beside the status") \
    F(MISFIT_PAST, "desk_misfit reads past the response") \
    F(MISFIT_BEFORE, "desk_misfit reads before the response") \
    F(MISFIT_WRITES, "desk_misfit writes into the response") \
    F(MISFIT_PAST_PLACE, "desk_misfit writes past *place") \
    F(MISFIT_BEFORE_PLACE, "desk_misfit writes before *place") \
    F(MISFIT_HALF, "desk_misfit writes four octets of *place") \
    F(MISFIT_LEAVES, "desk_misfit leaves *place as it was with 3") \
    F(MISFIT_WITH_5, "desk_misfit writes *place with 5") \
    F(MISFIT_ZERO, "desk_misfit sets *place to 0 with other numbers than 3") \
    F(MISFIT_READS, "desk_misfit reads *place with other numbers than 3") \
    F(MISFIT_STATUS, "desk_misfit returns the status in the number's place") \
    F(MISFIT_TYPE, "desk_misfit says 3 of another type") \
    F(MISFIT_FROM_1, "desk_misfit counts octets from 1") \
    F(MISFIT_STRING, "desk_misfit counts from the start of the string") \
    F(MISFIT_REPEAT, "desk_misfit places a repeat one element too early") \
    F(MISFIT_END, "desk_misfit places what is missing at the last octet") \
    F(MISFIT_ORDER, "desk_misfit places the basic response before what is behind the envelope") \
    F(SIGNED_PAST, "desk_signed reads past the response") \
    F(SIGNED_BEFORE, "desk_signed reads before the response") \
    F(SIGNED_LEAVES, "desk_signed leaves *from as it was with a refusal") \
    F(SIGNED_BEFORE_FROM, "desk_signed writes before *from") \
    F(SIGNED_PAST_LEN, "desk_signed writes past *len") \
    F(SIGNED_HEADER, "desk_signed leaves an octet of the header out") \
    F(ALGORITHM_PAST, "desk_algorithm reads past the response") \
    F(ALGORITHM_CONTENT, "desk_algorithm shows the content alone") \
    F(ALGORITHM_SIGNED, "desk_algorithm shows the signed part") \
    F(SIGNATURE_BEFORE, "desk_signature reads before the response") \
    F(SIGNATURE_BITS, "desk_signature shows the 00 too") \
    F(CERTIFICATES_PAST, "desk_certificates reads past the response") \
    F(CERTIFICATES_HELD, "desk_certificates shows the sequence's header too") \
    F(CERTIFICATES_NONE, "desk_certificates shows none at a place") \
    F(QUESTION_PAST, "desk_check reads past the question") \
    F(QUESTION_BEFORE, "desk_check reads before the question") \
    F(QUESTION_WRITTEN, "desk_check writes into the question") \
    F(RESPONSE_PAST, "desk_check reads past the response") \
    F(RESPONSE_BEFORE, "desk_check reads before the response") \
    F(RESPONSE_WRITTEN, "desk_check writes into the response") \
    F(SLIP_PAST, "desk_check writes past the slip") \
    F(SLIP_BEFORE, "desk_check writes before the slip") \
    F(SLIP_SHORT, "desk_check writes into a buffer that is too short") \
    F(SLIP_UNKNOWN, "desk_check says good where the card is unknown") \
    F(SLIP_LONG, "desk_check wants one octet more than the slip has") \
    F(READER_PAST, "desk_slip reads past the slip") \
    F(READER_BEFORE, "desk_slip reads before the slip") \
    F(READER_TAKES, "desk_slip takes everything") \
    F(READER_REFUSES, "desk_slip refuses everything") \
    F(ENTRY_PAST, "desk_entry reads past the response") \
    F(ENTRY_NEXT, "desk_entry shows the entry behind") \
    F(ENTRY_LAST, "desk_entry shows the first entry past the last") \
    F(FILING_PAST, "desk_cache_file reads past the slip") \
    F(FILING_BEFORE, "desk_cache_file reads before the slip") \
    F(FILING_BESIDE, "desk_cache_file writes past the cache") \
    F(FILING_BESIDE_PLACES, "desk_cache_file writes beside *places") \
    F(FILING_LEAVES, "desk_cache_file leaves *places as it was with a refusal") \
    F(FILING_COUNTS, "desk_cache_file counts a place more") \
    F(FILING_REFUSED, "desk_cache_file writes into a cache that it refuses") \
    F(FILING_TIE, "desk_cache_file keeps the old slip on a tie") \
    F(FILING_TAIL, "desk_cache_file leaves the end of a longer slip") \
    F(FILING_TOLERANCE, "desk_cache_file leaves the tolerance out") \
    F(FILING_ORDER, "desk_cache_file says 17 before 1") \
    F(ASKING_CARD_PAST, "desk_cache_ask reads past the card") \
    F(ASKING_CARD_BEFORE, "desk_cache_ask reads before the card") \
    F(ASKING_CACHE_PAST, "desk_cache_ask reads past the cache") \
    F(ASKING_CACHE_BEFORE, "desk_cache_ask reads before the cache") \
    F(ASKING_WRITES, "desk_cache_ask writes into the cache") \
    F(ASKING_LEAVES, "desk_cache_ask leaves *from as it was without an answer") \
    F(ASKING_BESIDE, "desk_cache_ask writes past *len") \
    F(ASKING_PLACE, "desk_cache_ask shows the whole place") \
    F(ASKING_STALE, "desk_cache_ask shows a stale slip") \
    F(ASKING_OTHER, "desk_cache_ask shows the first place's slip where the card is not held") \
    F(ASKING_LENGTH, "desk_cache_ask takes 62 octets for a card")

#define NAME(fault, what) fault,
#define WHAT(fault, what) what,
enum fault { NONE, FAULTS(NAME) FAULT_COUNT };
static const char *const whats[] = {FAULTS(WHAT)};
static int broken;

__attribute__((constructor)) static void choose(void)
{
    const char *word = getenv("BROKEN");
    broken = word == NULL ? NONE : atoi(word);
    if (word == NULL || strcmp(word, "list") != 0)
        return;
    for (size_t i = 0; i < sizeof whats / sizeof *whats; i++)
        puts(whats[i]);
    exit(0);
}

/* Reads an octet before or past what is lent. */
static void touch(const uint8_t *octets, size_t len, int before, int past)
{
    if (broken == before)
        (void)*(const volatile uint8_t *)(octets - 1);
    if (broken == past)
        (void)*(const volatile uint8_t *)(octets + len);
}

#define OUTSIDE (FAULT_COUNT + 1) /* no fault of this function */

size_t __real_desk_request(const uint8_t *card, size_t clen, uint8_t *out, size_t outlen);
size_t __wrap_desk_request(const uint8_t *card, size_t clen, uint8_t *out, size_t outlen)
{
    touch(card, clen, CARD_BEFORE, CARD_PAST);
    size_t n = __real_desk_request(card, clen, out, outlen);
    if (broken == REQUEST_PAST)
        out[n] = 0;
    if (broken == REQUEST_BEFORE)
        out[-1] = 0;
    if (broken == REQUEST_SHORT && n == 0 && outlen > 0)
        out[0] = 0;
    if (broken == REQUEST_OTHER && n > 0)
        out[18] ^= 1;
    return broken == REQUEST_LENGTH && n > 0 ? outlen : n;
}

size_t __real_desk_refusal(const uint8_t *response, size_t rlen, size_t *status);
size_t __wrap_desk_refusal(const uint8_t *response, size_t rlen, size_t *status)
{
    size_t was = *status;
    touch(response, rlen, REFUSAL_BEFORE, REFUSAL_PAST);
    size_t number = __real_desk_refusal(response, rlen, status);
    if (broken == REFUSAL_DROPS)
        *status = 0;
    if (broken == REFUSAL_LEAVES && number != 4)
        *status = was;
    if (broken == REFUSAL_BESIDE)
        status[1] = 0;
    return number;
}

size_t __real_desk_misfit(const uint8_t *response, size_t rlen, size_t *place);

/* Where the string of a basic response begins, or 0: behind the type's OID and the string's header. */
static size_t string_start(const uint8_t *response, size_t rlen)
{
    static const uint8_t type[] = {0x06, 0x09, 0x2B, 0x06, 0x01, 0x05, 0x05, 0x07, 0x30, 0x01, 0x01, 0x04};
    for (size_t at = 0; at + sizeof type < rlen; at++)
        if (memcmp(response + at, type, sizeof type) == 0) {
            uint8_t length = response[at + sizeof type];
            return at + sizeof type + 1 + (length > 0x80 ? length & 0x0F : 0);
        }
    return 0;
}

/* Whether the OID at a place stands further left too. */
static int is_repeat(const uint8_t *response, size_t rlen, size_t place)
{
    if (rlen - place < 2 || response[place] != 0x06 || rlen - place - 2 < response[place + 1])
        return 0;
    for (size_t at = 0; at < place; at++)
        if (memcmp(response + at, response + place, 2 + (size_t)response[place + 1]) == 0)
            return 1;
    return 0;
}

/* The wrong place for a right one. */
static size_t misplaced(const uint8_t *response, size_t rlen, size_t place)
{
    size_t start = string_start(response, rlen), other;
    if (broken == MISFIT_FROM_1)
        return place + 1;
    if (broken == MISFIT_STRING && start > 0 && place >= start)
        return place - start;
    if (broken == MISFIT_REPEAT && is_repeat(response, rlen, place))
        return place - 2;
    if (broken == MISFIT_END && place == rlen && rlen > 0)
        return place - 1;
    /* Without what is behind the envelope; where anything else is left out, the envelope overruns the rest. */
    if (broken == MISFIT_ORDER && __real_desk_misfit(response, place, &other) == 3 && other > 0)
        return other;
    return place;
}

/* Without a fault, `*place` is neither read nor written where the library's function does not write it. */
size_t __wrap_desk_misfit(const uint8_t *response, size_t rlen, size_t *place)
{
    size_t status, found;
    int apart = broken == MISFIT_LEAVES || broken == MISFIT_HALF;
    touch(response, rlen, MISFIT_BEFORE, MISFIT_PAST);
    if (broken == MISFIT_WRITES && rlen > 0)
        *(volatile uint8_t *)response = response[0];
    size_t number = __real_desk_misfit(response, rlen, apart ? &found : place);
    if (number == 3 && !apart)
        *place = misplaced(response, rlen, *place);
    if (number == 3 && broken == MISFIT_HALF)
        memcpy(place, &found, sizeof *place / 2);
    if (broken == MISFIT_PAST_PLACE && number == 3)
        place[1] = 0;
    if (broken == MISFIT_BEFORE_PLACE && number == 3)
        place[-1] = 0;
    if ((broken == MISFIT_WITH_5 || broken == MISFIT_TYPE) && number == 5)
        *place = string_start(response, rlen);
    if (broken == MISFIT_ZERO && number != 3)
        *place = 0;
    if (broken == MISFIT_READS && number != 3)
        (void)*(volatile size_t *)place;
    if (broken == MISFIT_STATUS && number == 4) {
        __real_desk_refusal(response, rlen, &status);
        return status;
    }
    return broken == MISFIT_TYPE && number == 5 ? 3 : number;
}

size_t __real_desk_signed(const uint8_t *response, size_t rlen, size_t *from, size_t *len);
size_t __wrap_desk_signed(const uint8_t *response, size_t rlen, size_t *from, size_t *len)
{
    size_t was = *from;
    touch(response, rlen, SIGNED_BEFORE, SIGNED_PAST);
    size_t number = __real_desk_signed(response, rlen, from, len);
    if (broken == SIGNED_LEAVES && number != 0)
        *from = was;
    if (broken == SIGNED_BEFORE_FROM)
        from[-1] = 0;
    if (broken == SIGNED_PAST_LEN)
        len[1] = 0;
    if (broken == SIGNED_HEADER && number == 0) {
        *from += 1;
        *len -= 1;
    }
    return number;
}

size_t __real_desk_algorithm(const uint8_t *response, size_t rlen, size_t *from, size_t *len);
size_t __wrap_desk_algorithm(const uint8_t *response, size_t rlen, size_t *from, size_t *len)
{
    touch(response, rlen, OUTSIDE, ALGORITHM_PAST);
    size_t number = __real_desk_algorithm(response, rlen, from, len);
    if (broken == ALGORITHM_CONTENT && number == 0) {
        *from += 2;
        *len -= 2;
    }
    return broken == ALGORITHM_SIGNED ? __real_desk_signed(response, rlen, from, len) : number;
}

size_t __real_desk_signature(const uint8_t *response, size_t rlen, size_t *from, size_t *len);
size_t __wrap_desk_signature(const uint8_t *response, size_t rlen, size_t *from, size_t *len)
{
    touch(response, rlen, SIGNATURE_BEFORE, OUTSIDE);
    size_t number = __real_desk_signature(response, rlen, from, len);
    if (broken == SIGNATURE_BITS && number == 0) {
        *from -= 1;
        *len += 1;
    }
    return number;
}

size_t __real_desk_certificates(const uint8_t *response, size_t rlen, size_t *from, size_t *len);
size_t __wrap_desk_certificates(const uint8_t *response, size_t rlen, size_t *from, size_t *len)
{
    touch(response, rlen, OUTSIDE, CERTIFICATES_PAST);
    size_t number = __real_desk_certificates(response, rlen, from, len);
    if (broken == CERTIFICATES_HELD && *len > 0) {
        *from -= 2;
        *len += 2;
    }
    if (broken == CERTIFICATES_NONE && number == 0 && *len == 0)
        *from = rlen;
    return number;
}

size_t __real_desk_check(const uint8_t *question, size_t qlen, const uint8_t *response, size_t rlen,
                         uint8_t *slip, size_t sliplen);
size_t __wrap_desk_check(const uint8_t *question, size_t qlen, const uint8_t *response, size_t rlen,
                         uint8_t *slip, size_t sliplen)
{
    touch(question, qlen, QUESTION_BEFORE, QUESTION_PAST);
    touch(response, rlen, RESPONSE_BEFORE, RESPONSE_PAST);
    if (broken == QUESTION_WRITTEN && qlen > 0)
        *(volatile uint8_t *)question = question[0];
    if (broken == RESPONSE_WRITTEN && rlen > 0)
        *(volatile uint8_t *)response = response[0];
    size_t n = __real_desk_check(question, qlen, response, rlen, slip, sliplen);
    if (broken == SLIP_PAST)
        slip[n] = 0;
    if (broken == SLIP_BEFORE)
        slip[-1] = 0;
    if (broken == SLIP_SHORT && n == 0 && sliplen > 0)
        slip[sliplen - 1] = 0;
    if (broken == SLIP_UNKNOWN && n > 0 && slip[0] == DESK_UNKNOWN)
        slip[0] = DESK_GOOD;
    return broken == SLIP_LONG && n == sliplen ? 0 : n;
}

size_t __real_desk_slip(const uint8_t *slip, size_t sliplen);
size_t __wrap_desk_slip(const uint8_t *slip, size_t sliplen)
{
    touch(slip, sliplen, READER_BEFORE, READER_PAST);
    size_t number = __real_desk_slip(slip, sliplen);
    return broken == READER_TAKES ? 0 : broken == READER_REFUSES ? 17 : number;
}

size_t __real_desk_entry(const uint8_t *response, size_t rlen, size_t ordinal, size_t *from,
                         size_t *len);
size_t __wrap_desk_entry(const uint8_t *response, size_t rlen, size_t ordinal, size_t *from,
                         size_t *len)
{
    touch(response, rlen, OUTSIDE, ENTRY_PAST);
    size_t number =
        __real_desk_entry(response, rlen, ordinal + (broken == ENTRY_NEXT ? 1 : 0), from, len);
    if (broken == ENTRY_LAST && number == 0 && *len == 0)
        number = __real_desk_entry(response, rlen, 0, from, len);
    return number;
}

/* How many octets a cache that is looked at may have here. */
#define CACHE_MOST ((size_t)1 << 18)

size_t __real_desk_cache_file(uint8_t *cache, size_t cachelen, const uint8_t *slip, size_t sliplen,
                              uint64_t now, uint64_t tolerance, size_t *places);
size_t __real_desk_cache_ask(const uint8_t *cache, size_t cachelen, const uint8_t *card, size_t clen,
                             uint64_t now, uint64_t tolerance, size_t *from, size_t *len);

/* The one place that a filing wrote: its octets before, and as they are now. */
static void after_filing(uint8_t *cache, const uint8_t *was)
{
    for (size_t at = 0; at < DESK_CACHE_LEN; at += DESK_SLIP_MAX) {
        int same_card = memcmp(cache + at + 1, was + at + 1, DESK_CARD_LEN) == 0;
        if (broken == FILING_TIE && same_card && memcmp(cache + at + 62, was + at + 62, 8) == 0)
            memcpy(cache + at, was + at, DESK_SLIP_MAX);
        if (broken == FILING_TAIL && was[at] == DESK_REVOKED && cache[at] != DESK_REVOKED)
            memcpy(cache + at + 78, was + at + 78, 9);
    }
}

size_t __wrap_desk_cache_file(uint8_t *cache, size_t cachelen, const uint8_t *slip, size_t sliplen,
                              uint64_t now, uint64_t tolerance, size_t *places)
{
    static uint8_t was[CACHE_MOST];
    size_t before = *places;
    if (cachelen > CACHE_MOST)
        exit(2);
    memcpy(was, cache, cachelen);
    touch(slip, sliplen, FILING_BEFORE, FILING_PAST);
    size_t number = __real_desk_cache_file(cache, cachelen, slip, sliplen, now,
                                           broken == FILING_TOLERANCE ? 0 : tolerance, places);
    if (number == 0)
        after_filing(cache, was);
    if (broken == FILING_BESIDE)
        cache[cachelen] = 0;
    if (broken == FILING_BESIDE_PLACES)
        places[1] = 0;
    if (broken == FILING_LEAVES && number != 0)
        *places = before;
    if (broken == FILING_COUNTS && number == 0)
        *places += 1;
    if (broken == FILING_REFUSED && number != 0 && cachelen > 0)
        cache[cachelen - 1] ^= 1;
    if (broken == FILING_ORDER && number == 1 &&
        __real_desk_cache_file(was, cachelen, slip, sliplen, 0, 0, &before) == 17)
        number = 17;
    return number;
}

size_t __wrap_desk_cache_ask(const uint8_t *cache, size_t cachelen, const uint8_t *card, size_t clen,
                             uint64_t now, uint64_t tolerance, size_t *from, size_t *len)
{
    size_t before = *from;
    touch(cache, cachelen, ASKING_CACHE_BEFORE, ASKING_CACHE_PAST);
    touch(card, clen, ASKING_CARD_BEFORE, ASKING_CARD_PAST);
    if (broken == ASKING_WRITES && cachelen > 0)
        *(volatile uint8_t *)cache = cache[0];
    if (broken == ASKING_LENGTH && clen == DESK_CARD_LEN + 1)
        clen = DESK_CARD_LEN;
    size_t number = __real_desk_cache_ask(cache, cachelen, card, clen, now, tolerance, from, len);
    if (broken == ASKING_LEAVES && number != 0)
        *from = before;
    if (broken == ASKING_BESIDE)
        len[1] = 0;
    if (broken == ASKING_PLACE && number == 0)
        *len = DESK_SLIP_MAX;
    if (broken == ASKING_STALE && number == 16) {
        for (size_t at = 0; at < DESK_CACHE_LEN; at += DESK_SLIP_MAX)
            if (memcmp(cache + at + 1, card, DESK_CARD_LEN) == 0)
                *from = at;
        *len = cache[*from] == DESK_REVOKED ? 87 : 78;
        return 0;
    }
    if (broken == ASKING_OTHER && number == DESK_NOT_HELD && cache[0] != 0) {
        *len = cache[0] == DESK_REVOKED ? 87 : 78;
        return 0;
    }
    return number;
}
