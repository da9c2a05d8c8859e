/*
 * Whether a key made a signature, found out with OpenSSL's libcrypto: the algorithms that this desk
 * takes, RSA-PSS with its parameters among them.
 */
#ifndef ROW_SIGNATURE_H
#define ROW_SIGNATURE_H

#include <stddef.h>
#include <stdint.h>

#include <openssl/evp.h>

/* A part of a response: the caller's own octets. */
struct part {
    const uint8_t *at;
    size_t len;
};

/* How a signature was made. */
struct algorithm {
    int key;              /* the type of the key */
    const EVP_MD *digest; /* NULL where the algorithm has none of its own to name */
    const EVP_MD *mask;   /* of RSA-PSS: the hash of its mask; else NULL */
    int salt;             /* of RSA-PSS: the length of its salt */
};

/*
 * Reads an AlgorithmIdentifier. Returns 0 where this desk does not take the algorithm, or not with
 * these parameters: then the signature can not be tried.
 */
int read_algorithm(struct part identifier, struct algorithm *algorithm);

/* Whether `key` made this signature over exactly these octets. */
int made_by(EVP_PKEY *key, const struct algorithm *algorithm, struct part octets,
            struct part signature);

#endif
