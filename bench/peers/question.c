/* question RESPONSE FILE: writes to FILE the question about the response's last entry, asked at its
 * thisUpdate and with the response's own responder as the signer, and prints how many entries there
 * are. A response without entries gets the question of document 01's own case. None of this is
 * counted.
 */
#include "bench.h"
#include <openssl/ocsp.h>
#include <openssl/x509.h>
#include <stdio.h>
#include <stdlib.h>
#include <string.h>
#include <time.h>

static uint8_t q[QUESTION], response[65536];

static void put(uint8_t *at, int width, uint64_t n)
{
    while (width-- > 0) {
        at[width] = (uint8_t)n;
        n >>= 8;
    }
}

static void hash(int at, const ASN1_OCTET_STRING *s)
{
    if (ASN1_STRING_length(s) == 20) memcpy(q + at, ASN1_STRING_get0_data(s), 20);
}

static void ask_about(OCSP_BASICRESP *basic, OCSP_SINGLERESP *entry)
{
    ASN1_OCTET_STRING *name, *key;
    ASN1_OBJECT *algorithm;
    ASN1_INTEGER *serial;
    OCSP_id_get0_info(&name, &algorithm, &key, &serial, (OCSP_CERTID *)OCSP_SINGLERESP_get0_id(entry));
    hash(AT_CARD, name);
    hash(AT_CARD + 20, key);
    uint8_t der[80], *to = der;
    int size = i2d_ASN1_INTEGER(serial, &to) - 2;
    if (size > 20) return;
    q[AT_SERIAL_LEN] = (uint8_t)size;
    memset(q + AT_SERIAL, 0, 20);
    memcpy(q + AT_SERIAL, der + 2, (size_t)size);
    int reason;
    ASN1_GENERALIZEDTIME *revoked, *this, *next;
    struct tm tm;
    OCSP_single_get0_status(entry, &reason, &revoked, &this, &next);
    if (ASN1_TIME_to_tm(this, &tm)) put(q + AT_NOW, 8, (uint64_t)timegm(&tm));
    const ASN1_OCTET_STRING *id;
    const X509_NAME *subject;
    if (!OCSP_resp_get0_id(basic, &id, &subject)) return;
    if (id) hash(AT_KEY, id);
    uint8_t *at = q + AT_NAME;
    if (subject && i2d_X509_NAME(subject, NULL) <= 256)
        put(q + AT_NAME_LEN, 2, (uint64_t)i2d_X509_NAME(subject, &at));
}

int main(int argc, char **argv)
{
    if (argc != 3) return 2;
    FILE *f = fopen(argv[1], "rb");
    if (!f) return 2;
    size_t len = fread(response, 1, sizeof response, f);
    fclose(f);
    q[0] = 0x51;
    memset(q + AT_CARD, 0x11, 20);
    memset(q + AT_CARD + 20, 0x22, 20);
    q[AT_SERIAL_LEN] = 1;
    q[AT_SERIAL] = 5;
    put(q + AT_NOW, 8, 1114909200);
    q[AT_VERDICT] = 1;
    q[AT_ROLE] = 1;
    memset(q + AT_KEY, 0x33, 20);
    const uint8_t *from = response;
    OCSP_RESPONSE *whole = d2i_OCSP_RESPONSE(NULL, &from, (long)len);
    OCSP_BASICRESP *basic = whole ? OCSP_response_get1_basic(whole) : NULL;
    int entries = basic ? OCSP_resp_count(basic) : 0;
    if (entries > 0) ask_about(basic, OCSP_resp_get0(basic, entries - 1));
    f = fopen(argv[2], "wb");
    if (!f || fwrite(q, 1, sizeof q, f) != sizeof q || fclose(f)) return 2;
    printf("%d\n", entries);
    return 0;
}
