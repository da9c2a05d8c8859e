#include "asking.h"

#include <stdio.h>
#include <string.h>

#include <openssl/pem.h>

#include "http.h"
#include "words.h"

X509 *certificate_at(const char *path)
{
    X509 *certificate = NULL;
    FILE *file = fopen(path, "r");
    if (file != NULL) {
        certificate = PEM_read_X509(file, NULL, NULL, NULL);
        fclose(file);
    }
    return certificate;
}

int ask(X509 *certificate, X509 *ca, int port, struct response *response)
{
    uint8_t card[DESK_CARD_LEN], request[DESK_REQUEST_MAX];
    const char *why = "";
    size_t len = 0, from;
    long got;
    response->len = 0;
    if (card_of(certificate, ca, card))
        len = desk_request(card, sizeof card, request, sizeof request);
    if (len == 0) {
        printf("  request   none: this certificate is no card of that CA\n");
        return 0;
    }
    printf("  request   %zu octets, posted to 127.0.0.1:%d\n", len, port);
    got = http_post(port, request, len, response->octets, sizeof response->octets, &why);
    if (got < 0) {
        printf("  response  none: %s\n", why);
        return 0;
    }
    response->len = (size_t)got;
    printf("  response  %zu octets", response->len);
    if (desk_signed(response->octets, response->len, &from, &len) == 0)
        printf(", of which %zu from %zu on are signed", len, from);
    if (desk_signature(response->octets, response->len, &from, &len) == 0)
        printf(", and %zu from %zu on are the signature", len, from);
    printf("\n");
    return 1;
}

uint8_t judge(const struct response *response, X509 *certificate, X509 *ca, X509 *trusted,
              time_t now, struct slip *slip)
{
    uint8_t card[DESK_CARD_LEN] = {0}, question[DESK_QUESTION_LEN];
    struct facts facts;
    card_of(certificate, ca, card);
    facts_of(response->octets, response->len, ca, trusted, now, &facts);
    say_signer(&facts);
    question_of(card, (uint64_t)now, TOLERANCE, &facts, question);
    memset(slip, 0, sizeof *slip);
    slip->len = desk_check(question, sizeof question, response->octets, response->len, slip->octets,
                           sizeof slip->octets);
    say_slip(slip->octets, slip->len);
    return facts.verdict;
}
