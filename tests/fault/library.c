/* A library that breaks its promises, so that it can be seen what the tool does with a fault of our own: a proof that is not empty
 * gets the answer 9, which there is not, and the formula is written out as more bytes than there is room for. */
#include "../../include/proofscale.h"

uint64_t proofscale_check(const uint8_t *formula, size_t formula_length, const uint8_t *proof, size_t proof_length,
                          uint32_t *heads, size_t heads_length, uint32_t *lits, size_t lits_length, uint32_t *hints,
                          size_t hints_length, uint32_t *guess, size_t guess_length, uint8_t *marks, size_t marks_length,
                          uint32_t *tape, size_t tape_length, uint64_t *step, uint64_t *turns) {
    (void)formula, (void)formula_length, (void)proof, (void)heads, (void)heads_length, (void)lits, (void)lits_length;
    (void)hints, (void)hints_length, (void)guess, (void)guess_length, (void)marks, (void)marks_length, (void)tape, (void)tape_length;
    *step = 0;
    *turns = 0;
    return proof_length == 0 ? PROOFSCALE_UNFINISHED : 9;
}

uint64_t proofscale_write(const uint8_t *formula, size_t formula_length, uint32_t *heads, size_t heads_length, uint32_t *lits,
                          size_t lits_length, uint8_t *out, size_t out_length, uint64_t *length) {
    (void)formula, (void)formula_length, (void)heads, (void)heads_length, (void)lits, (void)lits_length, (void)out;
    *length = (uint64_t)out_length + 1;
    return 0;
}
