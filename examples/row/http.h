/* Posting an OCSP request (source document 002, A.1) over plain sockets. */
#ifndef ROW_HTTP_H
#define ROW_HTTP_H

#include <stddef.h>
#include <stdint.h>

/*
 * Posts `request` to 127.0.0.1 at `port` and puts the first `size` octets of what comes back into
 * `response`. Returns their number, or -1 with the reason in `*why`.
 */
long http_post(int port, const uint8_t *request, size_t len, uint8_t *response, size_t size,
               const char **why);

#endif
