#define _GNU_SOURCE /* strcasestr */
#include "http.h"

#include <arpa/inet.h>
#include <errno.h>
#include <stdio.h>
#include <stdlib.h>
#include <string.h>
#include <sys/socket.h>
#include <sys/time.h>
#include <unistd.h>

/* Room for what stands before a response's octets. */
#define HEAD_MAX 4096
/* How long to wait for a connection, and for each piece of an answer. */
#define PATIENCE_SECONDS 10

static int connect_to(int port)
{
    struct sockaddr_in there = {.sin_family = AF_INET, .sin_port = htons((uint16_t)port)};
    struct timeval patience = {.tv_sec = PATIENCE_SECONDS};
    int s = socket(AF_INET, SOCK_STREAM, 0);
    if (s < 0)
        return -1;
    there.sin_addr.s_addr = htonl(INADDR_LOOPBACK);
    setsockopt(s, SOL_SOCKET, SO_SNDTIMEO, &patience, sizeof patience);
    setsockopt(s, SOL_SOCKET, SO_RCVTIMEO, &patience, sizeof patience);
    if (connect(s, (struct sockaddr *)&there, sizeof there) == 0)
        return s;
    int reason = errno;
    close(s);
    errno = reason;
    return -1;
}

static int send_all(int s, const void *octets, size_t len)
{
    const char *at = octets;
    while (len > 0) {
        ssize_t sent = send(s, at, len, MSG_NOSIGNAL);
        if (sent <= 0)
            return 0;
        at += sent;
        len -= (size_t)sent;
    }
    return 1;
}

/* Finds the octets behind the head in `got`, which ends with a 0 that is not counted in `n`. */
static long take_apart(char *got, size_t n, uint8_t *response, size_t size, const char **why)
{
    int status = 0;
    char *end = strstr(got, "\r\n\r\n");
    if (end == NULL || sscanf(got, "HTTP/1.%*d %d", &status) != 1) {
        *why = "what came back is not HTTP";
        return -1;
    }
    if (status != 200) {
        *why = "the server did not say 200";
        return -1;
    }
    *end = '\0';
    if (strcasestr(got, "\r\nContent-Type: application/ocsp-response") == NULL) {
        *why = "what came back is not an OCSP response";
        return -1;
    }
    size_t len = n - (size_t)(end + 4 - got);
    const char *told = strcasestr(got, "\r\nContent-Length:");
    if (told != NULL && strtoul(told + 17, NULL, 10) > len && len < size) {
        *why = "the answer was cut off";
        return -1;
    }
    if (len > size)
        len = size;
    memcpy(response, end + 4, len);
    return (long)len;
}

long http_post(int port, const uint8_t *request, size_t len, uint8_t *response, size_t size,
               const char **why)
{
    char head[256];
    int head_len = snprintf(head, sizeof head,
                            "POST / HTTP/1.0\r\n"
                            "Host: 127.0.0.1:%d\r\n"
                            "Content-Type: application/ocsp-request\r\n"
                            "Content-Length: %zu\r\n\r\n",
                            port, len);
    size_t room = HEAD_MAX + size, n = 0;
    char *got = malloc(room + 1);
    int s = got == NULL ? -1 : connect_to(port);
    long result = -1;
    if (s < 0) {
        *why = strerror(errno);
    } else if (!send_all(s, head, (size_t)head_len) || !send_all(s, request, len)) {
        *why = strerror(errno);
    } else {
        ssize_t more;
        while (n < room && (more = recv(s, got + n, room - n, 0)) > 0)
            n += (size_t)more;
        got[n] = '\0';
        if (n < room && more < 0)
            *why = strerror(errno);
        else
            result = take_apart(got, n, response, size, why);
    }
    if (s >= 0)
        close(s);
    free(got);
    return result;
}
