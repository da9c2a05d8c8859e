/*
 * The facts that a caller of the library owes, found out with OpenSSL's libcrypto: the card from
 * certificates, and about a response whether its signature is valid, and who made it.
 */
#ifndef ROW_FACTS_H
#define ROW_FACTS_H

#include <stddef.h>
#include <stdint.h>
#include <time.h>

#include <openssl/x509.h>

#include "desk.h"

/* What a question says of the signer, in the words of desk.h. */
struct facts {
    uint8_t verdict, role, marks;
    uint8_t key_hash[20];
    uint8_t name[DESK_NAME_MAX];
    size_t name_len;
    int no_check; /* no part of a question: whether a delegate's certificate says that nobody has to ask
                     whether it was revoked (id-pkix-ocsp-nocheck) */
};

/* The card of a certificate that `ca` issued. Returns 0 where the certificate has no such card. */
int card_of(X509 *certificate, X509 *ca, uint8_t card[DESK_CARD_LEN]);

/*
 * Who signed a response about a card of `ca`, at the time `now`. `trusted` is a responder that this
 * desk trusts whatever the CA says of it, or NULL.
 *
 * A signature of an algorithm that this desk does not take is not tried. A delegate whose certificate is
 * valid now gets the third mark only with no_check: this desk does not ask about delegates themselves.
 */
void facts_of(const uint8_t *response, size_t rlen, X509 *ca, X509 *trusted, time_t now,
              struct facts *facts);

#endif
