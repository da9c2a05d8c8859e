/* Desk cases from standard input, in the form of tests/README.md. */
#ifndef STRICT_STREAM_H
#define STRICT_STREAM_H

#include <stdint.h>
#include <stdio.h>
#include <stdlib.h>

#define QUESTION 353

/*
 * Reads the next case: a question, and a response behind it. Returns the octets of both together, or
 * 0 at the end. What is no desk case ends the program.
 */
static size_t next_case(uint8_t *room, size_t size)
{
    uint8_t head[5];
    size_t got = fread(head, 1, sizeof head, stdin);
    if (got == 0)
        return 0;
    size_t len = (size_t)head[1] << 24 | (size_t)head[2] << 16 | (size_t)head[3] << 8 | head[4];
    if (got != sizeof head || head[0] != 1 || len < QUESTION || len > size ||
        fread(room, 1, len, stdin) != len) {
        fprintf(stderr, "strict: the stream has something else than desk cases\n");
        exit(2);
    }
    return len;
}

#endif
