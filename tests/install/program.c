/* Document 01's case: hashes all 11 and all 22, serial 05, and a responder that says "unauthorized". */
#include <desk.h>
#include <stdio.h>
#include <string.h>

int main(void)
{
    static const uint8_t response[] = {0x30, 0x03, 0x0A, 0x01, 0x06};
    static const uint8_t now[] = {0, 0, 0, 0, 0x42, 0x74, 0x2A, 0x10}; /* 1,114,909,200 */
    uint8_t question[DESK_QUESTION_LEN] = {DESK_QUESTION}, slip[DESK_SLIP_MAX];
    memset(question + 1, 0x11, 20);
    memset(question + 21, 0x22, 20);
    question[41] = 1;
    question[42] = 5;
    memcpy(question + 62, now, sizeof now);
    question[72] = DESK_VALID;
    question[73] = DESK_ISSUER;
    memset(question + 75, 0x33, 20);
    size_t n = desk_check(question, sizeof question, response, sizeof response, slip, sizeof slip);
    for (size_t i = 0; i < n; i++)
        printf("%02x", slip[i]);
    printf("\n");
    return 0;
}
