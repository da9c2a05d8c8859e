#include "facts.h"

#include <string.h>

#include <openssl/evp.h>
#include <openssl/objects.h>
#include <openssl/x509v3.h>

#include "signature.h"

/* At most so many certificates stand in a response. */
#define CERTIFICATES_MAX 8
/* What a signature over SHA-256 is worth, in libcrypto's bits: certificates are signed no weaker. */
#define STRENGTH_MIN 128

static int sha1_of_key(X509 *certificate, uint8_t hash[20])
{
    unsigned len = 0;
    return X509_pubkey_digest(certificate, EVP_sha1(), hash, &len) == 1 && len == 20;
}

/* Whether the CA's key signed this certificate, and no weaker than responses are to be signed. */
static int issued_by(X509 *certificate, X509 *ca)
{
    int bits = 0;
    return X509_check_issued(ca, certificate) == X509_V_OK &&
           X509_get_signature_info(certificate, NULL, NULL, &bits, NULL) == 1 &&
           bits >= STRENGTH_MIN && X509_verify(certificate, X509_get0_pubkey(ca)) == 1;
}

int card_of(X509 *certificate, X509 *ca, uint8_t card[DESK_CARD_LEN])
{
    uint8_t *serial = NULL;
    unsigned len = 0;
    /* An INTEGER of up to 20 octets is 02, its length in one octet, its content. */
    int whole = i2d_ASN1_INTEGER(X509_get0_serialNumber(certificate), &serial);
    int made = whole > 2 && whole <= 2 + 20 && issued_by(certificate, ca) &&
               X509_NAME_digest(X509_get_issuer_name(certificate), EVP_sha1(), card,
                                &len) == 1 &&
               len == 20 && sha1_of_key(ca, card + 20);
    if (made) {
        memset(card + 40, 0, 21);
        card[40] = (uint8_t)(whole - 2);
        memcpy(card + 41, serial + 2, (size_t)(whole - 2));
    }
    OPENSSL_free(serial);
    return made;
}

/* What is signed, how, and by which octets, all of it places in the caller's own response. */
struct sealed {
    struct part octets, identifier, signature, certificates;
    struct algorithm algorithm;
};

typedef size_t show_function(const uint8_t *, size_t, size_t *, size_t *);

/* A part of a response, by the library. Returns 0 where it refuses the response: it then has none. */
static int take_part(show_function *show, const uint8_t *response, size_t rlen, struct part *part)
{
    size_t from;
    if (show(response, rlen, &from, &part->len) != 0)
        return 0;
    part->at = response + from;
    return 1;
}

static int read_parts(const uint8_t *response, size_t rlen, struct sealed *sealed)
{
    return take_part(desk_signed, response, rlen, &sealed->octets) &&
           take_part(desk_algorithm, response, rlen, &sealed->identifier) &&
           take_part(desk_signature, response, rlen, &sealed->signature) &&
           take_part(desk_certificates, response, rlen, &sealed->certificates);
}

/* Reads the certificates, up to one that is none for libcrypto, and returns how many were read. */
static int read_certificates(struct part part, X509 *found[CERTIFICATES_MAX])
{
    const uint8_t *at = part.at, *end = part.at + part.len;
    int n = 0;
    while (n < CERTIFICATES_MAX && at < end &&
           (found[n] = d2i_X509(NULL, &at, (long)(end - at))) != NULL)
        n++;
    return n;
}

static int signed_by(const struct sealed *sealed, X509 *certificate)
{
    return made_by(X509_get0_pubkey(certificate), &sealed->algorithm, sealed->octets,
                   sealed->signature);
}

/* Between its two times, and free of critical extensions that libcrypto does not understand. */
static int valid_at(X509 *certificate, time_t now)
{
    return !(X509_get_extension_flags(certificate) & (EXFLAG_INVALID | EXFLAG_CRITICAL)) &&
           X509_cmp_time(X509_get0_notBefore(certificate), &now) < 0 &&
           X509_cmp_time(X509_get0_notAfter(certificate), &now) > 0;
}

static uint8_t marks_of(X509 *delegate, X509 *ca, time_t now, int no_check)
{
    uint8_t marks = 0;
    if (issued_by(delegate, ca))
        marks |= DESK_BY_ISSUER;
    /* libcrypto answers "every usage" for a certificate that names none, so ask that first. */
    if ((X509_get_extension_flags(delegate) & EXFLAG_XKUSAGE) &&
        (X509_get_extended_key_usage(delegate) & XKU_OCSP_SIGN))
        marks |= DESK_OCSP_SIGNING;
    /* This desk asks nobody whether a delegate was revoked, so it needs the CA's word not to. */
    if (valid_at(delegate, now) && no_check)
        marks |= DESK_VALID_NOW;
    return marks;
}

static void take_signer(X509 *signer, uint8_t role, struct facts *facts)
{
    const uint8_t *name = NULL;
    size_t len = 0;
    facts->verdict = DESK_VALID;
    facts->role = role;
    sha1_of_key(signer, facts->key_hash);
    /* A Name that is too long for a question stays out of it, and then matches no responder. */
    if (X509_NAME_get0_der(X509_get_subject_name(signer), &name, &len) == 1 &&
        len <= DESK_NAME_MAX) {
        memcpy(facts->name, name, len);
        facts->name_len = len;
    }
}

static void take_delegate(X509 *delegate, X509 *ca, time_t now, struct facts *facts)
{
    take_signer(delegate, DESK_DELEGATE, facts);
    facts->no_check = X509_get_ext_by_NID(delegate, NID_id_pkix_OCSP_noCheck, -1) >= 0;
    facts->marks = marks_of(delegate, ca, now, facts->no_check);
}

void facts_of(const uint8_t *response, size_t rlen, X509 *ca, X509 *trusted, time_t now,
              struct facts *facts)
{
    struct sealed sealed;
    X509 *found[CERTIFICATES_MAX];
    memset(facts, 0, sizeof *facts);
    facts->verdict = DESK_NOT_TRIED;
    facts->role = DESK_DELEGATE;
    if (!read_parts(response, rlen, &sealed) ||
        !read_algorithm(sealed.identifier, &sealed.algorithm))
        return;
    facts->verdict = DESK_INVALID;
    int n = read_certificates(sealed.certificates, found);
    if (signed_by(&sealed, ca))
        take_signer(ca, DESK_ISSUER, facts);
    else if (trusted != NULL && signed_by(&sealed, trusted))
        take_signer(trusted, DESK_TRUSTED, facts);
    else
        for (int i = 0; i < n && facts->verdict != DESK_VALID; i++)
            if (signed_by(&sealed, found[i]))
                take_delegate(found[i], ca, now, facts);
    while (n > 0)
        X509_free(found[--n]);
}
