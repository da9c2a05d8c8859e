/* What a peer is to the program that drives it, and the question that it is asked. */
#ifndef BENCH_H
#define BENCH_H
#include <stddef.h>
#include <stdint.h>

/* The octets of a question (document 01, "Request and slip"), and where its fields start. */
enum {
    QUESTION = 353,
    AT_CARD = 1,
    AT_SERIAL_LEN = 41,
    AT_SERIAL = 42,
    AT_NOW = 62,
    AT_TOLERANCE = 70,
    AT_VERDICT = 72,
    AT_ROLE = 73,
    AT_MARKS = 74,
    AT_KEY = 75,
    AT_NAME_LEN = 95,
    AT_NAME = 97
};

/* What a peer says of a card; NONE is any refusal. The numbers are those of a slip's kind. */
enum { GOOD = 1, REVOKED, UNKNOWN, NONE };

/* Done once, and not counted: the peer is handed the question. */
void peer_ready(const uint8_t *question);

/* What is counted: a response is read and asked about the question's card. */
unsigned peer_answer(const uint8_t *response, size_t len);

/* The number that some octets write, high first. */
static inline uint64_t number(const uint8_t *at, int width)
{
    uint64_t n = 0;
    while (width-- > 0) n = n << 8 | *at++;
    return n;
}
#endif
