/*
 * row: the whole row with real parts. A desk asks a real responder about a card and opens the folio
 * only if the card is good.
 *
 *     row FOLDER DELEGATE ISSUER HELPER DEPUTY PSS WEAK DOWN
 *
 * FOLDER has the certificates that `register` makes; the other words are ports on loopback: the
 * responders that a delegate, the CA itself, a helper without the right usage and a deputy without
 * no-check sign for, two with RSA-PSS (over SHA-256, and over SHA-1), and one where nobody listens.
 * Ends with 0 exactly if every scene ended as it should.
 */
#include <stdio.h>
#include <stdlib.h>

#include "asking.h"
#include "words.h"

static int scenes, wrong;

static void scene(const char *what)
{
    scenes++;
    printf("%sScene %d: %s\n", scenes == 1 ? "" : "\n", scenes, what);
}

/* Counts a scene's answer that is not the one it should have: a kind, and a refusal's number. */
static void expect(const struct slip *slip, uint8_t kind, uint8_t number)
{
    if (slip->octets[0] == kind && (kind != DESK_REFUSAL || slip->octets[1] == number))
        return;
    printf("  WRONG     this scene should have ended otherwise\n");
    wrong++;
}

/* The same for the verdict on a signature: "not tried" and "invalid" give the same refusal. */
static void expect_verdict(uint8_t verdict, uint8_t wanted)
{
    if (verdict == wanted)
        return;
    printf("  WRONG     the signature should have been judged otherwise\n");
    wrong++;
}

/* A whole scene of the common kind: asks, and judges at once. */
static void play(const char *what, X509 *certificate, X509 *ca, int port, uint8_t verdict,
                 uint8_t kind, uint8_t number)
{
    struct response response;
    struct slip slip = {0};
    scene(what);
    if (ask(certificate, ca, port, &response))
        expect_verdict(judge(&response, certificate, ca, NULL, time(NULL), &slip), verdict);
    expect(&slip, kind, number);
}

/* The same octets at nextUpdate plus tolerance, and a second later. */
static void play_stale(X509 *card, X509 *ca, int port)
{
    struct response kept;
    struct slip slip = {0};
    scene("an answer is kept, and served again the next day");
    if (ask(card, ca, port, &kept))
        judge(&kept, card, ca, NULL, time(NULL), &slip);
    expect(&slip, DESK_GOOD, 0);
    time_t last = (time_t)number_at(slip.octets + 70, 8) + TOLERANCE;
    printf("  the next day, at nextUpdate plus %d seconds of tolerance:\n", TOLERANCE);
    judge(&kept, card, ca, NULL, last, &slip);
    expect(&slip, DESK_GOOD, 0);
    printf("  one second later:\n");
    judge(&kept, card, ca, NULL, last + 1, &slip);
    expect(&slip, DESK_REFUSAL, 16);
}

/* A slip is not signed: what comes back from elsewhere may be no slip any more. */
static void play_kept_slip(X509 *card, X509 *ca, int port)
{
    struct response response;
    struct slip slip = {0};
    scene("a slip is kept, and damaged before it is read again");
    if (ask(card, ca, port, &response))
        expect_verdict(judge(&response, card, ca, NULL, time(NULL), &slip), DESK_VALID);
    expect(&slip, DESK_GOOD, 0);
    slip.octets[0] = DESK_REFUSAL;
    printf("  read again, with its first octet changed:\n");
    if (say_slip(slip.octets, slip.len) != 17)
        wrong++;
}

/* One octet of the signed part is changed between the responder and the desk. */
static void play_altered(const char *what, X509 *card, X509 *ca, int port)
{
    struct response response;
    struct slip slip = {0};
    size_t from, len;
    scene(what);
    if (ask(card, ca, port, &response) &&
        desk_signed(response.octets, response.len, &from, &len) == 0) {
        response.octets[from + len - 2] ^= 1; /* the last digit of nextUpdate */
        expect_verdict(judge(&response, card, ca, NULL, time(NULL), &slip), DESK_INVALID);
    }
    expect(&slip, DESK_REFUSAL, 6);
}

/* A cache that looks for the serial alone hands out the answer for another CA's card. */
static void play_other_issuer(X509 *card, X509 *ca, X509 *theirs, X509 *their_ca, X509 *trusted,
                              int port)
{
    struct response response;
    struct slip slip = {0};
    scene("the answer is for the same serial under another issuer");
    if (ASN1_INTEGER_cmp(X509_get0_serialNumber(card), X509_get0_serialNumber(theirs)) != 0)
        printf("  the two cards do not have the same serial\n");
    else if (ask(card, ca, port, &response))
        judge(&response, theirs, their_ca, trusted, time(NULL), &slip);
    expect(&slip, DESK_REFUSAL, 10);
}

/* Nobody answers: there is nothing to check. */
static void play_down(X509 *card, X509 *ca, int port)
{
    struct response response;
    scene("the responder is down");
    if (ask(card, ca, port, &response))
        wrong++;
    else
        printf("  answer    none: there is no response to check\n  folio     stays closed\n");
}

static X509 *certificate_in(const char *folder, const char *name)
{
    char path[4096];
    snprintf(path, sizeof path, "%s/%s.pem", folder, name);
    X509 *certificate = certificate_at(path);
    if (certificate == NULL) {
        fprintf(stderr, "row: no certificate in %s\n", path);
        exit(2);
    }
    return certificate;
}

int main(int argc, char **argv)
{
    if (argc != 9) {
        fprintf(stderr, "usage: row FOLDER DELEGATE ISSUER HELPER DEPUTY PSS WEAK DOWN (seven ports)\n");
        return 2;
    }
    X509 *ca = certificate_in(argv[1], "house/ca"), *other_ca = certificate_in(argv[1], "branch/ca");
    X509 *ada = certificate_in(argv[1], "house/ada"), *ben = certificate_in(argv[1], "house/ben");
    X509 *cleo = certificate_in(argv[1], "house/cleo"), *dora = certificate_in(argv[1], "branch/dora");
    X509 *delegate_certificate = certificate_in(argv[1], "house/delegate");
    int delegate = atoi(argv[2]), issuer = atoi(argv[3]), helper = atoi(argv[4]);
    int deputy = atoi(argv[5]), pss = atoi(argv[6]), weak = atoi(argv[7]), down = atoi(argv[8]);

    play("a card in good standing", ada, ca, delegate, DESK_VALID, DESK_GOOD, 0);
    play("the same card, and the CA itself signs", ada, ca, issuer, DESK_VALID, DESK_GOOD, 0);
    play("a revoked card", ben, ca, delegate, DESK_VALID, DESK_REVOKED, 0);
    play("a card that the register does not know", cleo, ca, delegate, DESK_VALID, DESK_UNKNOWN, 0);
    play_stale(ada, ca, delegate);
    play_kept_slip(ada, ca, delegate);
    play_altered("an answer is altered on its way", ada, ca, delegate);
    play("a signature by RSA-PSS", ada, ca, pss, DESK_VALID, DESK_GOOD, 0);
    play_altered("the same, and the answer is altered on its way", ada, ca, pss);
    play("RSA-PSS over SHA-1, which this desk does not take", ada, ca, weak, DESK_NOT_TRIED,
         DESK_REFUSAL, 6);
    play("the delegate has no OCSPSigning", ada, ca, helper, DESK_VALID, DESK_REFUSAL, 8);
    play("the delegate has no no-check, and nobody asked about it", ada, ca, deputy, DESK_VALID,
         DESK_REFUSAL, 8);
    play_other_issuer(ada, ca, dora, other_ca, delegate_certificate, delegate);
    play_down(ada, ca, down);

    printf("\n%d scenes, %s\n", scenes, wrong == 0 ? "each as it should end" : "NOT each as it should end");
    X509 *all[] = {ca, other_ca, ada, ben, cleo, dora, delegate_certificate};
    for (size_t i = 0; i < sizeof all / sizeof *all; i++)
        X509_free(all[i]);
    return wrong == 0 ? 0 : 1;
}
