/*
 * desk.h: what an OCSP response says about one card at one time, for programs in C.
 *
 *   desk_request       writes the request for a card
 *   desk_refusal       says whether a response can be judged at all, and if not why
 *   desk_misfit        says at which octet a response does not fit the layout
 *   desk_signed        shows the part of a response that is signed
 *   desk_algorithm     shows the AlgorithmIdentifier of its signature
 *   desk_signature     shows the signature
 *   desk_certificates  shows the certificates that the responder sent along
 *   desk_check         says what a response means for a question
 *   desk_slip          says whether octets are a slip
 *   desk_entry         shows the entry at an ordinal
 *   desk_cache_file    files a slip in the room's cache
 *   desk_cache_ask     asks the room's cache for a card
 *
 * Every function is proved to meet its contract: it ends with a defined answer for any octets and
 * any lengths, it reads and writes nothing outside what it is lent, and what it answers is what the
 * definitions in crates/ say. None of them hashes, checks a signature, opens a connection, looks at a
 * clock, allocates, or keeps anything between two calls. Any number of threads may call them at once.
 *
 * What a caller of every function owes, since no function can test it:
 *   - a pointer to octets is valid for as many octets as the length beside it says. It is not NULL,
 *     also where that length is 0;
 *   - what a function writes (`slip`, `out`, `status`, `place`, `from`, `len`, `places`, and of
 *     desk_cache_file the `cache`) overlaps nothing else that it is lent;
 *   - no other thread or process changes what is lent while the call lasts, or reads a cache while a slip is
 *     filed in it.
 *
 * Limits: a response of more than 16,384 octets is refused before it is read. Stack: under 4 KiB
 * (tools/stack measures it on a response as full and as deep as the layout allows, and on full caches);
 * leave 8 KiB.
 *
 * To link (x86-64 Linux): `tools/install PREFIX` puts archive, header and a pkg-config file where C
 * programs look for them, and then
 *     cc program.c $(pkg-config --cflags --libs desk)
 * The archive needs nothing but the C library.
 *
 * docs/INTEGRATORS.md says which facts a caller has to find out, and what to do with each answer;
 * examples/row is a whole program with real parts, examples/room one with a cache.
 */
#ifndef DESK_H
#define DESK_H

#include <stddef.h>
#include <stdint.h>

#ifdef __cplusplus
extern "C" {
#endif

/* Sizes, in octets. */
#define DESK_CARD_LEN 61         /* a card */
#define DESK_QUESTION_LEN 353    /* a question */
#define DESK_NAME_MAX 256        /* the Name in a question, at most */
#define DESK_RESPONSE_MAX 16384  /* a response, at most */
#define DESK_SLIP_MAX 87         /* a slip, at most: a buffer of this size is never too short */
#define DESK_REQUEST_MAX 87      /* a request, at most: a buffer of this size is never too short */
#define DESK_CACHE_LEN 5568      /* a cache: DESK_PLACES places of 87 octets */

/* Places of a cache. */
#define DESK_PLACES 64

/* What desk_cache_ask returns where no place has the card: not the number of a refusal. */
#define DESK_NOT_HELD 256

/* Kinds: the first octet of a slip, and of a question. */
#define DESK_GOOD 0x01
#define DESK_REVOKED 0x02
#define DESK_UNKNOWN 0x03
#define DESK_REFUSAL 0x04
#define DESK_QUESTION 0x51

/* Signature verdicts. */
#define DESK_NOT_TRIED 0
#define DESK_VALID 1
#define DESK_INVALID 2

/* The signer's roles. */
#define DESK_ISSUER 1    /* the CA that issued the card */
#define DESK_DELEGATE 2  /* a delegate of that CA: needs all three marks */
#define DESK_TRUSTED 3   /* trusted locally */

/* Marks of a delegate's certificate, added together. Ignored for other roles. */
#define DESK_BY_ISSUER 1      /* issued directly by that CA */
#define DESK_OCSP_SIGNING 2   /* has the OCSPSigning usage */
#define DESK_VALID_NOW 4      /* valid now */

/* A slip's reason where the response gives none. */
#define DESK_NO_REASON 0xFF

/*
 * Layouts. Numbers have their high octet first. Times are seconds since 1970, at most
 * 253,402,300,799 (the last second of 9999).
 *
 * Card, 61 octets
 *     0  20  SHA-1 of the issuer's Name as DER
 *    20  20  SHA-1 of the issuer's public key (the content of the BIT STRING, without the 00)
 *    40   1  length of the serial, 1 to 20
 *    41  20  serial: the content of the INTEGER, filled up with zeros
 *   A serial has its first bit clear and is minimal: a leading 00 only where it is alone or the next
 *   octet is 80 hex or more.
 *
 * Question, 353 octets
 *     0   1  kind, 51 hex
 *     1  61  card
 *    62   8  now
 *    70   2  tolerance in seconds, at most 3,600
 *    72   1  verdict on the signature: 0 not tried, 1 valid, 2 invalid
 *    73   1  role of the signer: 1 the issuing CA, 2 its delegate, 3 trusted locally
 *    74   1  marks of a delegate: 1, 2 and 4 added together
 *    75  20  SHA-1 of the signer's public key
 *    95   2  length of the signer's Name, at most 256
 *    97 256  signer's Name as DER, filled up with zeros
 *
 * Slip, 78 octets (good, unknown), 87 (revoked) or 3 (refusal)
 *     0   1  kind: 01 good, 02 revoked, 03 unknown, 04 refusal
 *   good, unknown and revoked:
 *     1  61  card
 *    62   8  thisUpdate
 *    70   8  nextUpdate
 *   revoked also:
 *    78   8  revocationTime
 *    86   1  reason, 0 to 10 but not 7, or FF where there is none
 *   refusal:
 *     1   1  number
 *     2   1  status of the response, 1, 2, 3, 5 or 6, with number 4; else 0
 *
 * Cache, 5,568 octets: 64 places of 87. A place is empty, all zeros, or a slip of kind 01, 02 or 03 with zeros
 * after it; no card is in two places. A new cache is 5,568 zeros.
 *
 * Numbers of refusals. A refusal is never "revoked": it says that there is no answer, and why.
 *     1  question out of range
 *     2  response longer than 16,384 octets
 *     3  octets do not fit the layout of a response, its limits included; desk_misfit says where
 *     4  the responder gave no answer; its status goes with the number: 1 malformed request,
 *        2 internal error, 3 try later, 5 signature required, 6 unauthorized
 *     5  response type is not the basic one
 *     6  verdict is not 1
 *     7  responder id is not the signer's
 *     8  role is 2 and one of the three marks is missing
 *     9  a critical response extension is not understood
 *    10  no entry is for this card
 *    11  two or more entries are for this card
 *    12  a critical extension of that entry is not understood
 *    13  that entry has no nextUpdate
 *    14  nextUpdate is before thisUpdate
 *    15  thisUpdate is after now
 *    16  now is after nextUpdate plus tolerance
 *    17  octets are no slip; in a filing, also a slip of kind 04
 *    19  buffer is no cache
 *    20  the slip's card has no place in the cache, and no place is empty or stale
 * A check gives the first of 1 to 16 that applies. A filing gives the first of 19, 1, 17 and 20, an ask of a
 * cache the first of 19, 1, 15 and 16; 1 is there for a card, time or tolerance out of range.
 */

/*
 * Writes the request for a card: one CertID with SHA-1, no extensions.
 *
 * Returns the number of octets written at the start of `out`: 67 plus the serial's length, so 68 to
 * 87. Returns 0 and leaves `out` as it was where the card does not have 61 octets, its serial breaks
 * the rule or its fill is not zeros, or `out` is too short. What lies behind the octets written is
 * as it was.
 */
size_t desk_request(const uint8_t *card, size_t clen, uint8_t *out, size_t outlen);

/*
 * Says whether a response fits the layout and is a basic one.
 *
 * Returns 0 where it does: then the functions below show its parts, and desk_check goes on to the
 * question. Else returns the number of the refusal, 2 to 5. Sets `*status` to the response's status
 * with 4 (1, 2, 3, 5 or 6), else to 0.
 */
size_t desk_refusal(const uint8_t *response, size_t rlen, size_t *status);

/*
 * Says at which octet a response does not fit the layout.
 *
 * Returns what desk_refusal returns: 0, or 2 to 5. With 3 sets `*place` to the octet, counted from 0 at the
 * start of the response: the first place, from left to right, whose element itself, and not just one inside
 * it, does not fit, the envelope before the basic response. It is the element's tag; but
 *   - a missing element or a cut-off header is placed at the end of what holds it,
 *   - left-over octets at the first of them,
 *   - a repeated OID at its second occurrence, an item beyond a limit of number or depth at the first beyond.
 * Overrunning what holds it counts against the element itself: a response that was cut short has as a rule
 * place 0. So has an empty one. `*place` is at most `rlen`; it is `rlen` where something is missing at the end.
 *
 * With any other number `*place` is neither read nor written: it may hold nothing yet.
 */
size_t desk_misfit(const uint8_t *response, size_t rlen, size_t *place);

/*
 * Shows the signed part of a response, header included: the octets over which its signature is made.
 *
 * Returns 0 and the place of the part: it is the `*len` octets at `response + *from`. They are the
 * caller's own octets, nothing is copied. Returns the number of a refusal, 2 to 5, and an empty part,
 * `*from` and `*len` both 0; desk_refusal says the status that goes with 4.
 *
 * Returning 0 says that the whole response fits the layout. The parts outside the signed one are
 * shown by desk_algorithm, desk_signature and desk_certificates.
 */
size_t desk_signed(const uint8_t *response, size_t rlen, size_t *from, size_t *len);

/*
 * Shows the AlgorithmIdentifier of the signature, header included: its OID, then its parameters, if
 * any. Otherwise as desk_signed.
 */
size_t desk_algorithm(const uint8_t *response, size_t rlen, size_t *from, size_t *len);

/*
 * Shows the signature: the content of its BIT STRING without the leading 00. Otherwise as
 * desk_signed.
 */
size_t desk_signature(const uint8_t *response, size_t rlen, size_t *from, size_t *len);

/*
 * Shows the certificates in a response: 0 to 8 of them one after the other, each with its header,
 * without the A0 and the SEQUENCE around them. Where the response has none, the part is empty, `*from`
 * and `*len` both 0. Otherwise as desk_signed.
 *
 * They are not signed, and nothing says that the signer's is among them.
 */
size_t desk_certificates(const uint8_t *response, size_t rlen, size_t *from, size_t *len);

/*
 * Says what a response means for a question.
 *
 * Writes a slip at the start of `slip` and returns its length: 78, 87 or 3. Returns 0 and leaves
 * `slip` as it was where it is too short for the slip; with DESK_SLIP_MAX octets it never is. What
 * lies behind the slip is as it was.
 *
 * A question that does not have 353 octets, has another kind, a value out of its range or a fill
 * that is not zeros gives refusal 1: a slip like every other.
 */
size_t desk_check(const uint8_t *question, size_t qlen, const uint8_t *response, size_t rlen,
                  uint8_t *slip, size_t sliplen);

/*
 * Says whether octets are a slip: 0, or 17 where they break the slip rules (unknown kind, another
 * length than the kind's, a card, time, reason, number or status out of its range, thisUpdate after
 * nextUpdate).
 */
size_t desk_slip(const uint8_t *slip, size_t sliplen);

/*
 * Shows the entry at an ordinal, counted from 0, header included.
 *
 * Returns 0 and its place, as desk_signed does. Past the last entry it returns 0 and an empty part,
 * `*from` and `*len` both 0; no entry is empty. Returns the number of a refusal, 2 to 5, and an empty
 * part.
 */
size_t desk_entry(const uint8_t *response, size_t rlen, size_t ordinal, size_t *from, size_t *len);

/*
 * Files a slip in the cache. `now` and `tolerance` say when this is: a slip is stale where `now` is past its
 * nextUpdate plus `tolerance`.
 *
 * Where a place has the slip's card, that place has then the slip whose thisUpdate is later, on a tie the new
 * one. Else the slip takes the first place that is empty or stale. A slip that is stale itself, or from the
 * future, is filed all the same.
 *
 * Returns 0 and sets `*places` to how many places are then not empty; no other place is written. Returns 19, 1,
 * 17 or 20, sets `*places` to 0 and leaves every octet of `cache` as it was: 19 where `cache` is no cache, 1
 * for a time above 253,402,300,799 or a tolerance above 3,600, 17 where the octets are no slip of kind 01, 02
 * or 03, 20 where the card has no place and none is empty or stale.
 *
 * Filing needs a writer's lock: no one else may read or write the cache meanwhile. The slip must not lie in the
 * cache. Keep a copy before a filing if the machine may lose power in the middle of one: the slip is written
 * octet by octet. docs/INTEGRATORS.md says how to keep a cache in a file.
 */
size_t desk_cache_file(uint8_t *cache, size_t cachelen, const uint8_t *slip, size_t sliplen,
                       uint64_t now, uint64_t tolerance, size_t *places);

/*
 * Asks the cache for a card at a time. It writes nothing but `*from` and `*len`, so that any number may ask at
 * once.
 *
 * Returns 0 and the place of the card's slip: it is the `*len` octets at `cache + *from`, 78 or 87, of kind 01,
 * 02 or 03. They are the caller's own octets, nothing is copied: a later filing may write over them. Returns
 * DESK_NOT_HELD where no place has the card, or a refusal's number: 19 where `cache` is no cache, 1 for a time
 * above 253,402,300,799, a tolerance above 3,600, or octets that are no card (another number than 61, a serial
 * that breaks the rule, a fill that is not zeros), 15 where the slip's thisUpdate is after `now`, 16 where `now`
 * is after its nextUpdate plus `tolerance`. `*from` and `*len` are then both 0.
 */
size_t desk_cache_ask(const uint8_t *cache, size_t cachelen, const uint8_t *card, size_t clen,
                      uint64_t now, uint64_t tolerance, size_t *from, size_t *len);

#ifdef __cplusplus
}
#endif

#endif
