/* One card at one desk: reading certificates, asking a responder, and judging what comes back. */
#ifndef ROW_ASKING_H
#define ROW_ASKING_H

#include "facts.h"

/* How far this desk lets an answer outlive its nextUpdate, in seconds. */
#define TOLERANCE 300

/* Room for one octet more than the longest response: a longer one is then refused as such, and not cut. */
struct response {
    uint8_t octets[DESK_RESPONSE_MAX + 1];
    size_t len;
};

struct slip {
    uint8_t octets[DESK_SLIP_MAX];
    size_t len;
};

/* The certificate in a PEM file, or NULL. */
X509 *certificate_at(const char *path);

/* Writes the request for a card and posts it to 127.0.0.1. Returns 0 where no response came. */
int ask(X509 *certificate, X509 *ca, int port, struct response *response);

/*
 * Finds the facts about a response out, asks the check, and says what it answers; `trusted` is as for
 * facts_of. Returns the verdict on the signature.
 */
uint8_t judge(const struct response *response, X509 *certificate, X509 *ca, X509 *trusted,
              time_t now, struct slip *slip);

#endif
