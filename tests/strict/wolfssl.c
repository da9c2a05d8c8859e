/*
 * What wolfSSL says to a stream of desk cases by its own check, wolfSSL_CertManagerCheckOCSP: a line
 * for each.
 *
 *     wolfssl CA CARD < STREAM
 *
 * The check asks for the response through a callback, which hands out the case's octets. It tells
 * good, revoked, and everything else apart: "no answer". Its time is the clock's, without tolerance.
 */
#include <wolfssl/options.h>
#include <wolfssl/error-ssl.h>
#include <wolfssl/ssl.h>

#include "stream.h"

static uint8_t room[65536];
static size_t len;

static int hand_out(void *context, const char *url, int url_len, unsigned char *request,
                    int request_len, unsigned char **response)
{
    (void)context, (void)url, (void)url_len, (void)request, (void)request_len;
    *response = room + QUESTION;
    return (int)(len - QUESTION);
}

static void take_back(void *context, unsigned char *response)
{
    (void)context, (void)response;
}

/* A manager of its own for each case, since a manager keeps what it has learnt. */
static int check(const char *ca, const unsigned char *card, long card_len)
{
    WOLFSSL_CERT_MANAGER *manager = wolfSSL_CertManagerNew();
    if (manager == NULL ||
        wolfSSL_CertManagerLoadCA(manager, ca, NULL) != WOLFSSL_SUCCESS ||
        wolfSSL_CertManagerEnableOCSP(manager, WOLFSSL_OCSP_URL_OVERRIDE | WOLFSSL_OCSP_NO_NONCE) !=
            WOLFSSL_SUCCESS ||
        wolfSSL_CertManagerSetOCSPOverrideURL(manager, "http://127.0.0.1/") != WOLFSSL_SUCCESS ||
        wolfSSL_CertManagerSetOCSP_Cb(manager, hand_out, take_back, NULL) != WOLFSSL_SUCCESS) {
        fprintf(stderr, "wolfssl: its manager can not be set up\n");
        exit(2);
    }
    int said = wolfSSL_CertManagerCheckOCSP(manager, (unsigned char *)card, (int)card_len);
    wolfSSL_CertManagerFree(manager);
    return said;
}

int main(int argc, char **argv)
{
    unsigned char *card = NULL;
    wolfSSL_Init();
    WOLFSSL_X509 *certificate =
        argc == 3 ? wolfSSL_X509_load_certificate_file(argv[2], WOLFSSL_FILETYPE_PEM) : NULL;
    int card_len = certificate == NULL ? 0 : wolfSSL_i2d_X509(certificate, &card);
    if (card_len <= 0) {
        fprintf(stderr, "usage: wolfssl CA CARD < STREAM\n");
        return 2;
    }
    while ((len = next_case(room, sizeof room)) != 0) {
        int said = check(argv[1], card, card_len);
        printf("%s\n", said == WOLFSSL_SUCCESS      ? "good"
                       : said == OCSP_CERT_REVOKED ? "revoked"
                                                   : "no answer");
        fflush(stdout);
    }
    return 0;
}
