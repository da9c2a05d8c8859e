/*
 * desk_misfit, called as edges.c calls the others: at every edge, with what desk.h promises of each call looked
 * at, and the place written or held to document 02, C-16.
 */
#include "edges.h"

#include "desk.h"

static struct room octets_room, place_room, closed_room;

void new_misfit_rooms(void)
{
    octets_room = new_room(PROT_READ);
    place_room = new_room(PROT_READ | PROT_WRITE);
    closed_room = new_room(PROT_NONE);
}

/* ---- the call */

/* A response's refusal, and the place that goes with 3; else that is 0 here. */
struct misfit {
    size_t number, place;
};

/* What desk_misfit says of a response, at every edge. Each edge has another fill where the place is written. */
static struct misfit misfit(const uint8_t *response, size_t rlen)
{
    struct misfit misfit = {0, 0};
    size_t status;
    called = "desk_misfit";
    put(&octets_room, response, rlen);
    for (int i = 0; i < EDGES * EDGES; i++) {
        enum edge edge = i & 1, place_edge = i >> 1;
        size_t *at = lend_number(&place_room, place_edge);
        size_t number = desk_misfit(lent(&octets_room, edge, rlen), rlen, at);
        hold(kept(&place_room, place_edge, sizeof *at, number == 3 ? sizeof *at : 0),
             "*place is written with 3 alone, and nothing beside it changes");
        size_t found = number == 3 ? *at : 0;
        hold(i == 0 || (number == misfit.number && found == misfit.place),
             "the same answer wherever the octets are, and whatever *place was");
        misfit = (struct misfit){number, found};
    }
    const uint8_t *again = lent(&octets_room, AT_START, rlen);
    hold(misfit.number == desk_refusal(again, rlen, &status), "the number that desk_refusal returns");
    hold(misfit.place <= rlen, "a place is in the response, or its end");
    /* Where it has no place to write, a look at *place ends the program. */
    if (misfit.number != 3)
        hold(misfit.number == desk_misfit(again, rlen, (size_t *)lent(&closed_room, AT_START, sizeof(size_t))),
             "the same number wherever *place is");
    return misfit;
}

/* ---- desk cases (tests/README.md) */

/* The place where the check gives 3, else `-`: a question out of range comes before it. */
void answer_place(const uint8_t *body, size_t len)
{
    uint8_t slip[DESK_SLIP_MAX];
    size_t qlen = len < DESK_QUESTION_LEN ? len : DESK_QUESTION_LEN, rlen = len - qlen;
    struct misfit found = misfit(body + qlen, rlen);
    size_t n = desk_check(body, qlen, body + qlen, rlen, slip, sizeof slip);
    size_t refused = n == 3 ? slip[1] : 0;
    hold(refused == 1 || found.number == (refused <= 5 ? refused : 0), "the check's refusal");
    if (refused == 3)
        printf("%zu\n", found.place);
    else
        printf("-\n");
}

/* ---- from the documents */

#define MOST 256 /* octets of a response here, at most */

#define BASIC "2b0601050507300101"
#define TIME "180f32303035303530313031303030305a"
#define EXTENSION "300506012a0400"
#define ALGORITHM "300306012a"
#define SIGNATURE "030200aa"

/*
 * A response of a type, with a string that holds this. Every header has two octets:
 *     0  30, envelope
 *     2     0A 01 00, status
 *     5     A0
 *     7        30
 *     9           06, type: the basic one ends at 20
 *    20           04, string
 *    22              what it holds
 */
static const char *with_string(const char *type, const char *string)
{
    static char hex[2 * MOST + 1];
    size_t t = strlen(type) / 2, s = strlen(string) / 2, held = 2 + t + 2 + s;
    snprintf(hex, sizeof hex, "30%02zx0a0100a0%02zx30%02zx06%02zx%s04%02zx%s", held + 7, held + 2, held, t, type, s,
             string);
    return hex;
}

/*
 * A basic response of these parts, in a string that begins at 22 and holds nothing else:
 *    22  30, basic response
 *    24     30, signed part
 *    26        responder id: A1 02 30 00 ends at 30
 *    30        producedAt: TIME ends at 47
 *    47        30 00, no entry
 *    49        extensions: where there are none, the algorithm
 *    54     the signature then, up to 58
 */
static const char *basic(const char *id, const char *produced, const char *extensions, const char *signature)
{
    char hex[2 * MOST + 1];
    size_t part = strlen(id) / 2 + strlen(produced) / 2 + 2 + strlen(extensions) / 2;
    snprintf(hex, sizeof hex, "30%02zx30%02zx%s%s3000%s" ALGORITHM "%s", 2 + part + 5 + strlen(signature) / 2, part,
             id, produced, extensions, signature);
    return with_string(BASIC, hex);
}

static void says(const char *hex, size_t number, size_t at, const char *promise)
{
    uint8_t response[MOST];
    struct misfit found = misfit(response, from_hex(hex, response));
    hold(found.number == number && found.place == at, promise);
}

static void document_numbers(void)
{
    char error[] = "30030a0100";
    for (const char *status = "12356"; *status != 0; status++) {
        error[9] = *status;
        says(error, 4, 0, "no place with 4");
    }
    says(with_string("2a03", ""), 5, 0, "no place with 5");
    says(with_string("2a03", "1f00"), 5, 0, "no place with 5: the string of another type is not looked at");
    says(basic("a1023000", TIME, "", SIGNATURE), 0, 0, "no place where the response fits");
    says(basic("a1023000", TIME, "a109" "3007" EXTENSION, SIGNATURE), 0, 0, "nor with an extension");

    static uint8_t filled[DESK_RESPONSE_MAX + 1] = {0x30, 0x03, 0x0A, 0x01, 0x06};
    struct misfit full = misfit(filled, DESK_RESPONSE_MAX), longer = misfit(filled, DESK_RESPONSE_MAX + 1);
    hold(full.number == 3 && full.place == 5, "16,384 octets are read, and left over from 5 on");
    hold(longer.number == 2, "no place with 2");
}

static void document_envelope(void)
{
    says("", 3, 0, "an empty response has place 0");
    says("30", 3, 1, "a cut-off header: the end");
    says("308201", 3, 3, "cut-off octets of a length: the end");
    says("3080" "0a0106" "0000", 3, 0, "a refused header: its tag");
    says("3003" "0a0206", 3, 2, "overrunning: the element itself");
    says("3003" "0a0104", 3, 2, "wrong content: the element itself");
    says("3003" "0a0100", 3, 5, "missing: the end of what holds it");
    says("3003" "0a0106" "00", 3, 5, "left over behind the envelope: the first octet of it");
    says("3005" "0a0106" "0500", 3, 5, "left over in the envelope: the first octet of it");
    says(with_string("2b80", ""), 3, 9, "a type that is no OID: its tag");

    uint8_t response[MOST];
    size_t len = from_hex(basic("a1023000", TIME, "", SIGNATURE), response);
    for (size_t cut = 2; cut < len; cut++) {
        struct misfit found = misfit(response, cut);
        hold(found.number == 3 && found.place == 0, "cut short: the envelope overruns the response");
    }
}

static void document_basic(void)
{
    says(with_string(BASIC, ""), 3, 22, "an empty string: its end, which is the response's");
    says(with_string(BASIC, "1f00"), 3, 22, "counted from the start of the response, not of the string");
    says(basic("a3023000", TIME, "", SIGNATURE), 3, 26, "another tag: that tag");
    says(basic("a1023100", TIME, "", SIGNATURE), 3, 28, "the Name itself, and not what holds it");
    says(basic("a1023000", "1800", "", SIGNATURE), 3, 30, "wrong content: the element's tag");
    says(basic("a1023000", TIME, "", "030201aa"), 3, 54, "the signature, behind everything else");
    says(basic("a1023000", TIME, "", ""), 3, 54, "no signature: the end");
    says(basic("a1023000", TIME, "", SIGNATURE "0500"), 3, 58, "left over at the end: the first octet of it");
    says(basic("a1023000", "1800", "", "030201aa"), 3, 30, "of two the left one");
    says(basic("a1023000", TIME, "a102" "3000", SIGNATURE), 3, 53, "too few items: the end of what holds them");

    /* Extensions at 53 and 60, their OIDs at 55 and 62. */
    says(basic("a1023000", TIME, "a110" "300e" EXTENSION EXTENSION, SIGNATURE), 3, 62,
         "a repeated OID: the second one's tag");
    says(basic("a1023000", TIME, "a110" "300e" EXTENSION "300506012a0500", "030201aa"), 3, 62,
         "a repeated OID, also where something to its right is broken");

    char both[2 * MOST + 1];
    snprintf(both, sizeof both, "%s00", basic("a3023000", TIME, "", SIGNATURE));
    says(both, 3, 58, "the envelope before the basic response");
}

void document_misfits(void)
{
    document_numbers();
    document_envelope();
    document_basic();
}
