/* Proofscale: a proved checker of LRAT proofs against DIMACS formulas.
 *
 * The functions are those of a static library that is written and proved in Rattle (dist/libproofscale.a; `./proofscale prove`
 * makes it anew). Each is proved safe and total for all arguments that this page allows: whatever bytes lie in
 * the slices, a call returns, touches nothing but what it was lent, and answers as documents 01 and STATEMENTS.md say.
 *
 * A slice is a pointer and the number of its elements (not bytes). The pointer is aligned for its type and not NULL, also where
 * the number is 0; it points to so many elements that are initialised (what they hold does not matter) and that nobody else
 * touches during the call. No two slices that are written to may overlap, nor one that is written to and one that is read.
 * The library keeps nothing between two calls, allocates nothing, and may be called from several threads at a time.
 */
#ifndef PROOFSCALE_H
#define PROOFSCALE_H

#include <stddef.h>
#include <stdint.h>

#ifdef __cplusplus
extern "C" {
#endif

/* The answers of document 01, section 1. */
#define PROOFSCALE_VERIFIED 0           /* the formula has no solution; with the step that adds the empty clause */
#define PROOFSCALE_UNREADABLE_FORMULA 1 /* the formula is unreadable */
#define PROOFSCALE_UNREADABLE_STEP 2    /* a step is unreadable; with its number */
#define PROOFSCALE_REFUSED 3            /* a step is refused; with its number */
#define PROOFSCALE_UNFINISHED 4         /* no step added the empty clause; with the number of steps */
#define PROOFSCALE_TOO_SHORT 5          /* a part of the work store is too short */
#define PROOFSCALE_OUTPUT_TOO_SHORT 6   /* of proofscale_write only: the output is too short */

/* Checks the bytes of a proof against the bytes of a formula, and returns the answer, 0 to 5.
 *
 * *step is the number that comes with the answers 0, 2, 3 and 4, and 0 with the others; *turns is how many turns the loops made.
 *
 * The work store comes in six parts. For a formula of f bytes and a proof of p bytes in which variables up to v occur, these
 * lengths always do (their bytes together are at most 14 (f + p) + 2 v + 44); much shorter ones often do, and the answer is
 * PROOFSCALE_TOO_SHORT where they do not:
 *   heads   (3 (f + p) + 12) / 2  three numbers for each clause that is alive, and up to as many again for deleted ones
 *   lits    (f + p + 3) / 2       a number for each literal of those clauses, and those of the step that is read
 *   hints   (p + 2) / 2           a number for each hint, or id to delete, of one step
 *   tape    f + p + 2             a number for each literal of one step and of its clauses, and for each of its hints
 *   marks   2 v + 2               a byte for each literal
 *   guess   any, also 0           where clauses probably are: 64 numbers for each clause that is alive make looking up quick; one
 *                                 more than a power of 2 of them are used at most, and no more than 128 for each clause
 * What the parts hold before does not matter, and what they hold after is not promised to mean anything. */
uint64_t proofscale_check(const uint8_t *formula, size_t formula_length,
                          const uint8_t *proof, size_t proof_length,
                          uint32_t *heads, size_t heads_length,
                          uint32_t *lits, size_t lits_length,
                          uint32_t *hints, size_t hints_length,
                          uint32_t *guess, size_t guess_length,
                          uint8_t *marks, size_t marks_length,
                          uint32_t *tape, size_t tape_length,
                          uint64_t *step, uint64_t *turns);

/* Reads a formula and writes it out: the line p cnf V C, then one clause to a line, no comments, single spaces.
 *
 * Returns 0 if it was written, and then *length is how many bytes; what lies behind them in `out` is as it was. Otherwise `out` is
 * as it was, byte for byte, and the answer is 1 (unreadable; *length is the place of the byte up to which it was read), 5 (the
 * store is too short) or 6 (the output is too short). A store of (3 f + 10) / 2 numbers in `heads` and (f + 2) / 2 in `lits`
 * always does. */
uint64_t proofscale_write(const uint8_t *formula, size_t formula_length,
                          uint32_t *heads, size_t heads_length,
                          uint32_t *lits, size_t lits_length,
                          uint8_t *out, size_t out_length,
                          uint64_t *length);

#ifdef __cplusplus
}
#endif

#endif
