/* Stallhitch: posits of 32 bits and their 512-bit accumulator, proved, for C.

   Link libcapi.a, which tools/native-archive makes. docs/SPECIFICATION.md says what each answer
   is; the numbers in brackets are its statements.

   Every function answers on every input, keeps no state of its own and allocates nothing. A
   pointer has to point at as many elements as its declaration or its length says, and what one
   call is lent to change has to be its own while it runs. */

#ifndef STALLHITCH_H
#define STALLHITCH_H

#include <stdbool.h>
#include <stddef.h>
#include <stdint.h>

#ifdef __cplusplus
extern "C" {
#endif

/* ---- Posits: a pattern of 32 bits (1) ----

   Every uint32_t is a pattern. 0 is zero, 0x40000000 is 1, 0x7FFFFFFF the largest, and 0x80000000
   is NaR, "not a real". A result is the exact one rounded once (2), and a NaR operand gives NaR
   (3.1). */

uint32_t stallhitch_p32e2_neg(uint32_t a);             /* -a (1.3) */
uint32_t stallhitch_p32e2_add(uint32_t a, uint32_t b); /* a + b (3.3) */
uint32_t stallhitch_p32e2_sub(uint32_t a, uint32_t b); /* a - b (3.3) */
uint32_t stallhitch_p32e2_mul(uint32_t a, uint32_t b); /* a * b (3.3) */
uint32_t stallhitch_p32e2_div(uint32_t a, uint32_t b); /* a / b; NaR where b is 0 (3.4) */
uint32_t stallhitch_p32e2_recip(uint32_t a);           /* 1 / a; NaR where a is 0 (3.4) */
uint32_t stallhitch_p32e2_sqrt(uint32_t a);            /* the root; NaR where a is below 0 (3.5) */

/* Fused: the product is not rounded before the sum (3.6). */
uint32_t stallhitch_p32e2_mul_add(uint32_t a, uint32_t b, uint32_t c);     /* a * b + c */
uint32_t stallhitch_p32e2_mul_sub(uint32_t a, uint32_t b, uint32_t c);     /* a * b - c */
uint32_t stallhitch_p32e2_sub_product(uint32_t c, uint32_t a, uint32_t b); /* c - a * b */

/* ---- Accumulators: eight words that the caller owns (4) ----

   Word 0 is the most significant. The words are one 512-bit number in two's complement, which
   counts units of 2^-240. Eight words 0 are zero; word 0 equal to 0x8000000000000000 with seven
   words 0 is NaR. Any eight words are a state.

   A step is exact. It makes NaR where an operand is NaR or where the new total lies outside
   +-(2^511 - 1) (4.4), and it never leads out of NaR: clear does, and so does writing new words. */

void stallhitch_q32e2_clear(uint64_t q[8]);                                 /* q = 0 (4.9) */
void stallhitch_q32e2_add_product(uint64_t q[8], uint32_t a, uint32_t b);   /* q += a * b (4.3) */
void stallhitch_q32e2_sub_product(uint64_t q[8], uint32_t a, uint32_t b);   /* q -= a * b (4.3) */
void stallhitch_q32e2_add_posit(uint64_t q[8], uint32_t a);                 /* q += a (4.3) */
void stallhitch_q32e2_sub_posit(uint64_t q[8], uint32_t a);                 /* q -= a (4.3) */
void stallhitch_q32e2_neg(uint64_t q[8]);                                   /* q = -q; NaR stays (4.6) */
uint32_t stallhitch_q32e2_to_posit(const uint64_t q[8]);                    /* the total, rounded (4.7) */
bool stallhitch_q32e2_is_zero(const uint64_t q[8]);                         /* by all eight words (4.2) */
bool stallhitch_q32e2_is_nar(const uint64_t q[8]);                          /* by all eight words (4.2) */

/* The total of another accumulator, added or taken, and the total without its sign. NaR on either
   side, or a new total outside +-(2^511 - 1), makes NaR. The words of NaR are not read as a number,
   and every other total has its size within the range.

   q is lent to be changed, so p must not overlap it, nor be q itself. To add an accumulator to
   itself, copy its eight words first and pass the copy as p. */
void stallhitch_q32e2_qAddQ(uint64_t q[8], const uint64_t p[8]);            /* q += p (4.13) */
void stallhitch_q32e2_qSubQ(uint64_t q[8], const uint64_t p[8]);            /* q -= p (4.13) */
void stallhitch_q32e2_qAbs(uint64_t q[8]);                                  /* q = |q|; NaR stays (4.14) */

/* ---- The desk: images, batches and claims (4.10 to 4.12) ----

   The answer is the number of the refusal (5), or 0 for none:

     1  bytes that are not 64 long
     2  a buffer of fewer than 64 bytes
     3  two lists of unequal length
     4  more than 16384 pairs
     5  a claim that is not the image of its batch

   Where a number is answered, everything that was lent is as it was. A length counts elements. A
   pointer may be to no element, but not NULL, where its length is 0. */

/* The image of q into the first 64 bytes of buffer, word 0 first, each word high byte first; the
   bytes behind them stay. 0 or 2. */
uint32_t stallhitch_write_image(const uint64_t q[8], uint8_t *buffer, size_t length);

/* q becomes the state whose image bytes are; any 64 bytes are one. 0 or 1. */
uint32_t stallhitch_read_image(uint64_t q[8], const uint8_t *bytes, size_t length);

/* q += a[i] * b[i] for each i from the front, each a step as above. 0, 3 or 4. */
uint32_t stallhitch_add_batch(uint64_t q[8], const uint32_t *a, size_t a_length, const uint32_t *b, size_t b_length);

/* Is claim the image of the batch from zero? All 64 bytes are compared, whatever the first ones
   say. 0, or the first that is due of 3, 4, 1, 5. */
uint32_t stallhitch_check_claim(const uint32_t *a, size_t a_length, const uint32_t *b, size_t b_length, const uint8_t *claim, size_t claim_length);

#ifdef __cplusplus
}
#endif

#endif
