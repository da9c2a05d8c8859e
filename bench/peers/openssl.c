/* OpenSSL: the response decoded, the entry for the card found, its times judged; no signature. */
#include "bench.h"
#include <openssl/ocsp.h>
#include <string.h>

static OCSP_CERTID *id;
static long tolerance;

void peer_ready(const uint8_t *question)
{
    static const uint8_t head[] = {0x30, 0, 0x30, 9, 6, 5, 0x2b, 0x0e, 3, 2, 0x1a, 5, 0};
    uint8_t der[96], *to = der + sizeof head;
    uint8_t size = question[AT_SERIAL_LEN];
    memcpy(der, head, sizeof head);
    for (int i = 0; i < 2; i++) {
        *to++ = 4;
        *to++ = 20;
        memcpy(to, question + AT_CARD + 20 * i, 20);
        to += 20;
    }
    *to++ = 2;
    *to++ = size;
    memcpy(to, question + AT_SERIAL, size);
    to += size;
    der[1] = (uint8_t)(to - der - 2);
    const uint8_t *from = der;
    id = d2i_OCSP_CERTID(NULL, &from, to - der);
    tolerance = (long)number(question + AT_TOLERANCE, 2);
}

unsigned peer_answer(const uint8_t *response, size_t len)
{
    int status, reason;
    unsigned said = NONE;
    ASN1_GENERALIZEDTIME *revoked, *this, *next;
    OCSP_BASICRESP *basic = NULL;
    const uint8_t *from = response;
    OCSP_RESPONSE *whole = d2i_OCSP_RESPONSE(NULL, &from, (long)len);
    if (whole && OCSP_response_status(whole) == OCSP_RESPONSE_STATUS_SUCCESSFUL
        && (basic = OCSP_response_get1_basic(whole))
        && OCSP_resp_find_status(basic, id, &status, &reason, &revoked, &this, &next)
        && OCSP_check_validity(this, next, tolerance, -1))
        said = (unsigned)status + 1;
    OCSP_BASICRESP_free(basic);
    OCSP_RESPONSE_free(whole);
    return said;
}
