#include "signature.h"

#include <limits.h>

#include <openssl/objects.h>
#include <openssl/rsa.h>
#include <openssl/x509.h>

/* This desk takes no signature over a shorter digest than SHA-256's. */
static const EVP_MD *hash_named(const X509_ALGOR *identifier)
{
    switch (identifier == NULL ? NID_undef : OBJ_obj2nid(identifier->algorithm)) {
    case NID_sha256: return EVP_sha256();
    case NID_sha384: return EVP_sha384();
    case NID_sha512: return EVP_sha512();
    default: return NULL;
    }
}

/* The algorithms without parameters. A NULL where they would be says nothing, and is let pass. */
static int read_plain(const X509_ALGOR *identifier, struct algorithm *algorithm)
{
    static const struct {
        int name, key;
        const EVP_MD *(*digest)(void);
    } taken[] = {
        {NID_sha256WithRSAEncryption, EVP_PKEY_RSA, EVP_sha256},
        {NID_sha384WithRSAEncryption, EVP_PKEY_RSA, EVP_sha384},
        {NID_sha512WithRSAEncryption, EVP_PKEY_RSA, EVP_sha512},
        {NID_ecdsa_with_SHA256, EVP_PKEY_EC, EVP_sha256},
        {NID_ecdsa_with_SHA384, EVP_PKEY_EC, EVP_sha384},
        {NID_ecdsa_with_SHA512, EVP_PKEY_EC, EVP_sha512},
        {NID_ED25519, EVP_PKEY_ED25519, NULL},
        {NID_ED448, EVP_PKEY_ED448, NULL},
    };
    int name = OBJ_obj2nid(identifier->algorithm);
    if (identifier->parameter != NULL && ASN1_TYPE_get(identifier->parameter) != V_ASN1_NULL)
        return 0;
    for (size_t i = 0; i < sizeof taken / sizeof *taken; i++)
        if (taken[i].name == name) {
            algorithm->key = taken[i].key;
            algorithm->digest = taken[i].digest == NULL ? NULL : taken[i].digest();
            return 1;
        }
    return 0;
}

/* The hash of MGF1, the one mask that this desk takes. */
static const EVP_MD *mask_named(const X509_ALGOR *identifier)
{
    if (identifier == NULL || OBJ_obj2nid(identifier->algorithm) != NID_mgf1)
        return NULL;
    X509_ALGOR *hash =
        ASN1_TYPE_unpack_sequence(ASN1_ITEM_rptr(X509_ALGOR), identifier->parameter);
    const EVP_MD *digest = hash_named(hash);
    X509_ALGOR_free(hash);
    return digest;
}

/* A number that may be left out, and then is `absent`; -1 where it is not from 0 to INT_MAX. */
static int number_in(const ASN1_INTEGER *integer, int absent)
{
    int64_t number = absent;
    if (integer != NULL && ASN1_INTEGER_get_int64(&number, integer) != 1)
        return -1;
    return number >= 0 && number <= INT_MAX ? (int)number : -1;
}

/* RFC 4055, section 3.1: both hashes are SHA-1 where they are left out, which this desk does not take. */
static int read_pss(const X509_ALGOR *identifier, struct algorithm *algorithm)
{
    RSA_PSS_PARAMS *pss =
        ASN1_TYPE_unpack_sequence(ASN1_ITEM_rptr(RSA_PSS_PARAMS), identifier->parameter);
    if (pss == NULL)
        return 0;
    algorithm->key = EVP_PKEY_RSA;
    algorithm->digest = hash_named(pss->hashAlgorithm);
    algorithm->mask = mask_named(pss->maskGenAlgorithm);
    algorithm->salt = number_in(pss->saltLength, 20);
    int trailer = number_in(pss->trailerField, 1);
    RSA_PSS_PARAMS_free(pss);
    return algorithm->digest != NULL && algorithm->mask != NULL && algorithm->salt >= 0 &&
           trailer == 1;
}

int read_algorithm(struct part identifier, struct algorithm *algorithm)
{
    const uint8_t *at = identifier.at;
    X509_ALGOR *read = d2i_X509_ALGOR(NULL, &at, (long)identifier.len);
    *algorithm = (struct algorithm){0};
    int taken = read != NULL && (OBJ_obj2nid(read->algorithm) == NID_rsassaPss
                                     ? read_pss(read, algorithm)
                                     : read_plain(read, algorithm));
    X509_ALGOR_free(read);
    return taken;
}

/* A key may be one for RSA-PSS alone; libcrypto then sees to what it says of its use. */
static int key_fits(EVP_PKEY *key, const struct algorithm *algorithm)
{
    int type = EVP_PKEY_get_base_id(key);
    return type == algorithm->key || (algorithm->mask != NULL && type == EVP_PKEY_RSA_PSS);
}

/* The salt has exactly the length that the parameters say. */
static int set_pss(EVP_PKEY_CTX *context, const struct algorithm *algorithm)
{
    return EVP_PKEY_CTX_set_rsa_padding(context, RSA_PKCS1_PSS_PADDING) == 1 &&
           EVP_PKEY_CTX_set_rsa_mgf1_md(context, algorithm->mask) == 1 &&
           EVP_PKEY_CTX_set_rsa_pss_saltlen(context, algorithm->salt) == 1;
}

int made_by(EVP_PKEY *key, const struct algorithm *algorithm, struct part octets,
            struct part signature)
{
    if (key == NULL || !key_fits(key, algorithm))
        return 0;
    EVP_PKEY_CTX *how = NULL; /* belongs to the context */
    EVP_MD_CTX *context = EVP_MD_CTX_new();
    int valid = context != NULL &&
                EVP_DigestVerifyInit(context, &how, algorithm->digest, NULL, key) == 1 &&
                (algorithm->mask == NULL || set_pss(how, algorithm)) &&
                EVP_DigestVerify(context, signature.at, signature.len, octets.at, octets.len) == 1;
    EVP_MD_CTX_free(context);
    return valid;
}
