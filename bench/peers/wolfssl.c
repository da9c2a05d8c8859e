/* wolfSSL: the response decoded, its times judged, the entry for the card found; no signature.
 *
 * OcspResponseDecode is what wolfSSL's own OCSP check and its public wolfSSL_d2i_OCSP_RESPONSE call;
 * it allocates little, so it is the cheapest way in. Where a certificate comes with a response it
 * checks the signature, even when told not to verify. bench/run makes wolfSSL's wc_Sha256Hash weak,
 * and the one below takes its place: the check of a signature with SHA-256, as all responses with a
 * certificate have here, ends where it begins, and what was decoded is used all the same.
 */
#include <wolfssl/options.h>
#include <wolfssl/wolfcrypt/asn.h>
#include <wolfssl/wolfcrypt/error-crypt.h>
#include "bench.h"
#include <string.h>

static const uint8_t *card, *serial;
static word32 size;

int wc_Sha256Hash(const byte *data, word32 len, byte *hash)
{
    (void)data, (void)len, (void)hash;
    return -1;
}

/* wolfSSL keeps a serial without its leading 00. */
void peer_ready(const uint8_t *question)
{
    card = question + AT_CARD;
    serial = question + AT_SERIAL;
    size = question[AT_SERIAL_LEN];
    if (size > 1 && !serial[0]) {
        serial++;
        size--;
    }
}

unsigned peer_answer(const uint8_t *response, size_t len)
{
    OcspResponse whole;
    OcspEntry first;
    CertStatus status;
    unsigned said = NONE;
    InitOcspResponse(&whole, &first, &status, (byte *)response, (word32)len, NULL);
    int ret = OcspResponseDecode(&whole, NULL, NULL, 1);
    if ((ret == 0 || ret == ASN_OCSP_CONFIRM_E) && whole.responseStatus == 0) {
        for (OcspEntry *e = whole.single; e; e = e->next) {
            if ((word32)e->status->serialSz == size && !memcmp(e->status->serial, serial, size)
                && !memcmp(e->issuerHash, card, 20) && !memcmp(e->issuerKeyHash, card + 20, 20)) {
                said = (unsigned)e->status->status + 1;
                break;
            }
        }
    }
    FreeOcspResponse(&whole);
    return said;
}
