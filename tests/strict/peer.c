/*
 * What OpenSSL says to a stream of desk cases, or, with WITH_WOLFSSL, wolfSSL by its functions of the
 * same names: a line for each.
 *
 *     peer CA CARD < STREAM
 *     peer --version
 *
 * It does what their manuals show: read the response, look at its status, verify the basic response
 * with the CA as the one trusted certificate, find the card's entry, check its times. The line is the
 * entry's status, or where it stopped: "not read", "error status", "not verified", "no entry", "not
 * in time". The time is the clock's, since OCSP_check_validity takes no other.
 */
#ifdef WITH_WOLFSSL
#include <wolfssl/options.h>
#include <wolfssl/openssl/ocsp.h>
#include <wolfssl/openssl/pem.h>
#include <wolfssl/openssl/ssl.h>
#else
#include <openssl/ocsp.h>
#include <openssl/pem.h>
#endif

#include "stream.h"

static X509 *certificate_in(const char *path)
{
    FILE *file = fopen(path, "r");
    X509 *certificate = file == NULL ? NULL : PEM_read_X509(file, NULL, NULL, NULL);
    if (certificate == NULL) {
        fprintf(stderr, "peer: no certificate in %s\n", path);
        exit(2);
    }
    fclose(file);
    return certificate;
}

/* Its tolerance in seconds is the question's. */
static long tolerance_of(const uint8_t *question)
{
    return question[70] << 8 | question[71];
}

static const char *status_of(OCSP_BASICRESP *basic, OCSP_CERTID *id, X509_STORE *store, long tolerance)
{
    int status = -1, reason = -1;
    ASN1_GENERALIZEDTIME *since = NULL, *from = NULL, *until = NULL;
    if (OCSP_basic_verify(basic, NULL, store, 0) <= 0)
        return "not verified";
    if (OCSP_resp_find_status(basic, id, &status, &reason, &since, &from, &until) != 1)
        return "no entry";
    if (OCSP_check_validity(from, until, tolerance, -1) != 1)
        return "not in time";
    return status == V_OCSP_CERTSTATUS_GOOD      ? "good"
           : status == V_OCSP_CERTSTATUS_REVOKED ? "revoked"
                                                 : "unknown";
}

static const char *answer_to(const uint8_t *octets, size_t len, OCSP_CERTID *id, X509_STORE *store,
                             long tolerance)
{
    const char *answer = "not read";
    const unsigned char *at = octets;
    OCSP_RESPONSE *response = d2i_OCSP_RESPONSE(NULL, &at, (int)len);
    if (response != NULL && OCSP_response_status(response) != OCSP_RESPONSE_STATUS_SUCCESSFUL) {
        answer = "error status";
    } else if (response != NULL) {
        OCSP_BASICRESP *basic = OCSP_response_get1_basic(response);
        if (basic != NULL)
            answer = status_of(basic, id, store, tolerance);
        OCSP_BASICRESP_free(basic);
    }
    OCSP_RESPONSE_free(response);
    return answer;
}

int main(int argc, char **argv)
{
    static uint8_t room[65536];
    size_t len;
    if (argc == 2) {
#ifdef WITH_WOLFSSL
        printf("wolfSSL %s\n", wolfSSL_lib_version());
#else
        printf("OpenSSL %s\n", OpenSSL_version(OPENSSL_VERSION_STRING));
#endif
        return 0;
    }
    if (argc != 3) {
        fprintf(stderr, "usage: peer CA CARD < STREAM\n");
        return 2;
    }
#ifdef WITH_WOLFSSL
    wolfSSL_Init();
#endif
    X509 *ca = certificate_in(argv[1]), *card = certificate_in(argv[2]);
    OCSP_CERTID *id = OCSP_cert_to_id(EVP_sha1(), card, ca);
    X509_STORE *store = X509_STORE_new();
    if (id == NULL || store == NULL || X509_STORE_add_cert(store, ca) != 1) {
        fprintf(stderr, "peer: the certificates are not taken\n");
        return 2;
    }
    while ((len = next_case(room, sizeof room)) != 0) {
        printf("%s\n", answer_to(room + QUESTION, len - QUESTION, id, store, tolerance_of(room)));
        fflush(stdout);
    }
    X509_STORE_free(store);
    OCSP_CERTID_free(id);
    X509_free(card);
    X509_free(ca);
    return 0;
}
