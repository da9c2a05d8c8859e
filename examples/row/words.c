#include "words.h"

#include <inttypes.h>
#include <stdio.h>
#include <string.h>

static uint8_t *put(uint8_t *at, uint64_t number, int n)
{
    for (int i = 0; i < n; i++)
        at[i] = (uint8_t)(number >> (8 * (n - 1 - i)));
    return at + n;
}

static uint8_t *put_octets(uint8_t *at, const uint8_t *octets, size_t n)
{
    memcpy(at, octets, n);
    return at + n;
}

void question_of(const uint8_t card[DESK_CARD_LEN], uint64_t now, uint16_t tolerance,
                 const struct facts *facts, uint8_t question[DESK_QUESTION_LEN])
{
    uint8_t *at = question;
    memset(question, 0, DESK_QUESTION_LEN);
    at = put(at, DESK_QUESTION, 1);
    at = put_octets(at, card, DESK_CARD_LEN);
    at = put(at, now, 8);
    at = put(at, tolerance, 2);
    at = put(at, facts->verdict, 1);
    at = put(at, facts->role, 1);
    at = put(at, facts->marks, 1);
    at = put_octets(at, facts->key_hash, 20);
    at = put(at, facts->name_len, 2);
    put_octets(at, facts->name, facts->name_len);
}

uint64_t number_at(const uint8_t *at, int n)
{
    uint64_t number = 0;
    for (int i = 0; i < n; i++)
        number = number << 8 | at[i];
    return number;
}

static const char *time_at(const uint8_t *at, char *room, size_t size)
{
    time_t seconds = (time_t)number_at(at, 8);
    struct tm parts;
    gmtime_r(&seconds, &parts);
    strftime(room, size, "%Y-%m-%d %H:%M:%S UTC", &parts);
    return room;
}

void say_signer(const struct facts *facts)
{
    static const char *const verdicts[] = {"no signature was tried", "signature valid",
                                           "signature not valid under any key at hand"};
    printf("  signer    %s", verdicts[facts->verdict]);
    if (facts->verdict == DESK_VALID && facts->role == DESK_ISSUER)
        printf("; the issuing CA itself");
    if (facts->verdict == DESK_VALID && facts->role == DESK_TRUSTED)
        printf("; a responder that this desk trusts");
    if (facts->verdict == DESK_VALID && facts->role == DESK_DELEGATE)
        printf("; a delegate: %s by this CA, %s OCSPSigning, %s",
               facts->marks & DESK_BY_ISSUER ? "issued" : "not issued",
               facts->marks & DESK_OCSP_SIGNING ? "has" : "without",
               facts->marks & DESK_VALID_NOW ? "valid now"
               : facts->no_check             ? "not valid now"
                                             : "perhaps revoked itself (it has no no-check)");
    printf("\n");
}

/* Why there is no answer, by the refusal's number. */
static const char *const refusals[] = {
    NULL,
    "the question is out of range",
    "the response is longer than 16,384 octets",
    "the octets do not fit the layout of a response",
    "the responder itself gave no answer",
    "the response is not of the basic type",
    "the signature was not found valid",
    "the response names another responder than the one who signed it",
    "one of the delegate's three marks is missing",
    "the response has a critical extension that is not understood",
    "the response has no entry for this card",
    "the response has two or more entries for this card",
    "the entry has a critical extension that is not understood",
    "the entry does not say until when it holds",
    "the entry ends before it begins",
    "the entry is not yet in force",
    "the entry is too old",
};

static const char *const statuses[] = {NULL,        "malformed request",  "internal error",
                                       "try later", NULL,                 "signature required",
                                       "unauthorized"};

static const char *const reasons[] = {"unspecified",
                                      "key compromise",
                                      "CA compromise",
                                      "affiliation changed",
                                      "superseded",
                                      "cessation of operation",
                                      "on hold",
                                      NULL,
                                      "removed from CRL",
                                      "privilege withdrawn",
                                      "AA compromise"};

size_t say_slip(const uint8_t *slip, size_t len)
{
    static const char *const kinds[] = {NULL, "good", "revoked", "unknown"};
    char from[40], until[40], since[40];
    /* What is no slip has no fields, and its octets are nothing to look up by. */
    size_t broken = desk_slip(slip, len);
    if (broken != 0) {
        printf("  answer    none: these octets are no slip (%zu)\n", broken);
    } else if (slip[0] == DESK_REFUSAL) {
        printf("  answer    none: %s (refusal %d", refusals[slip[1]], slip[1]);
        if (slip[2] != 0)
            printf(", %s", statuses[slip[2]]);
        printf(")\n");
    } else {
        printf("  answer    %s, from %s to %s\n", kinds[slip[0]],
               time_at(slip + 62, from, sizeof from), time_at(slip + 70, until, sizeof until));
    }
    if (broken == 0 && slip[0] == DESK_REVOKED)
        printf("            revoked at %s, reason: %s\n", time_at(slip + 78, since, sizeof since),
               slip[86] == DESK_NO_REASON ? "none given" : reasons[slip[86]]);
    printf("  folio     %s\n", broken == 0 && slip[0] == DESK_GOOD ? "opens" : "stays closed");
    return broken;
}
