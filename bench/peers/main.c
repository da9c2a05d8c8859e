/* PEER QUESTION RESPONSE TIMES: one peer answers the same question TIMES times; its answer is printed. */
#include "bench.h"
#include <stdio.h>
#include <stdlib.h>
#include <time.h>

static uint8_t question[QUESTION];
static uint8_t response[65536];

/* The clock stands at the question's time, so that every peer judges freshness at the same time. */
time_t time(time_t *t)
{
    time_t now = (time_t)number(question + AT_NOW, 8);
    if (t) *t = now;
    return now;
}

static size_t load(const char *path, uint8_t *to, size_t size)
{
    FILE *f = fopen(path, "rb");
    if (!f) {
        perror(path);
        exit(2);
    }
    size_t n = fread(to, 1, size, f);
    fclose(f);
    return n;
}

int main(int argc, char **argv)
{
    if (argc != 4) return 2;
    if (load(argv[1], question, sizeof question) != QUESTION) return 2;
    size_t len = load(argv[2], response, sizeof response);
    peer_ready(question);
    unsigned said = NONE;
    for (long left = atol(argv[3]); left > 0; left--) said = peer_answer(response, len);
    printf("%u\n", said);
    return 0;
}
