/*
 * verdicts CA RESPONSE...: the verdicts of examples/row on the signature of each response, as it is and
 * with its last octet changed, a line for each: 0 not tried, 1 valid, 2 invalid. CA is a certificate that
 * made none of them.
 */
#include <stdio.h>

#include <openssl/pem.h>

#include "facts.h"

int main(int argc, char **argv)
{
    FILE *file = argc > 2 ? fopen(argv[1], "r") : NULL;
    X509 *ca = file == NULL ? NULL : PEM_read_X509(file, NULL, NULL, NULL);
    if (ca == NULL) {
        fprintf(stderr, "usage: verdicts CA RESPONSE...\n");
        return 2;
    }
    fclose(file);
    for (int i = 2; i < argc; i++) {
        static uint8_t response[DESK_RESPONSE_MAX + 1];
        struct facts facts, changed;
        size_t from, n;
        file = fopen(argv[i], "rb");
        if (file == NULL) {
            perror(argv[i]);
            return 2;
        }
        size_t len = fread(response, 1, sizeof response, file);
        fclose(file);
        facts_of(response, len, ca, NULL, 0, &facts);
        desk_signature(response, len, &from, &n);
        if (n > 0)
            response[from + n - 1] ^= 1;
        facts_of(response, len, ca, NULL, 0, &changed);
        printf("%s %d %d\n", argv[i], facts.verdict, changed.verdict);
    }
    X509_free(ca);
    return 0;
}
