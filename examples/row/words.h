/* The octets of a question, and slips and facts in words. */
#ifndef ROW_WORDS_H
#define ROW_WORDS_H

#include "facts.h"

/* Puts a question together; desk.h has the layout. */
void question_of(const uint8_t card[DESK_CARD_LEN], uint64_t now, uint16_t tolerance,
                 const struct facts *facts, uint8_t question[DESK_QUESTION_LEN]);

/* The number in the `n` octets at `at`, high octet first. */
uint64_t number_at(const uint8_t *at, int n);

/* Prints who signed, in words. */
void say_signer(const struct facts *facts);

/*
 * Prints what a slip says, in words, and what follows for the folio. Returns what desk_slip does: 0, or 17
 * where the octets are no slip, and then nothing is read from them.
 */
size_t say_slip(const uint8_t *slip, size_t len);

#endif
