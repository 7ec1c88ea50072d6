/* The desk for C and C++: link libdesk.a, which `rt lib` in crates/desk writes to its out/ for x86-64 Linux.
 *
 * A polynomial is DESK_TERMS coefficients, that of x^0 first. Every function takes any numbers: what 01 or 02 refuses is refused
 * by its number, and every result is written, zeros after a refusal (a change is then (1, 0), a sheet and a text's area stay as
 * they are, and after No. 11 so does a chain's area). What is past the DESK_WORDS of a chain's area, the DESK_SHEET of a sheet,
 * or the text that is written, is neither read nor written.
 *
 * A modulus m is a word: 2 to 2,147,483,647, or 0, which means 2^32. At 2^32 every word is a coefficient; No. 5 is given for an
 * even r and for chains of an even n, No. 8 only for an even a. The modulus that desk_check and desk_read_sheet write is that
 * word; after a refusal it is 0 as well, so look at the number first.
 *
 * Memory: no pointer may be null, and each is aligned for its type, also where a count is 0 and nothing is read or written.
 * What a function writes (what is not const) may overlap nothing else that it is given: no other result, and nothing that
 * it reads. What it only reads may overlap: g and h may be one polynomial. Nobody else writes any of it before the call
 * returns. The library keeps no pointer and has no state, so threads may call it at once; it calls memcpy, memmove and memset.
 *
 * Stack that a call takes, about (stack.c measures it, docs/STACK.md has the bytes): desk_read_text 49 KB, desk_nth_chain and
 * desk_count_chains 36 KB, desk_chain 33 KB, desk_split 11 KB, desk_change_pair, desk_left_part and desk_quick 6 KB,
 * desk_change_polynomial and desk_write_text 4 KB, desk_read_sheet 3 KB, desk_compose 2 KB, every other 1 KB. A thread wants some
 * 10 KB more for itself. */
#ifndef DESK_H
#define DESK_H

#include <stddef.h>
#include <stdint.h>

#ifdef __cplusplus
extern "C" {
#endif

#define DESK_LIMIT 126                       /* the highest degree */
#define DESK_TERMS (DESK_LIMIT + 1)          /* coefficients of a polynomial */
#define DESK_PARTS 6                         /* parts of a chain at most: none has a degree below 2 */
#define DESK_WORDS (DESK_PARTS * DESK_TERMS) /* words of a chain area that are used */
#define DESK_BYTES (4 * (1 + DESK_TERMS))    /* bytes of a record: the modulus, then the coefficients */
#define DESK_SHEET (DESK_PARTS * DESK_BYTES) /* bytes of a chain sheet that are used: a record for each place of an area */
#define DESK_TEXT_BYTES 8192                 /* bytes of the longest text that is read */
#define DESK_TEXT_MOST (24 * DESK_TERMS)     /* bytes of an area in which every text fits that is written */
#define DESK_TWO_TO_32 0                     /* the modulus word that means 2^32 */

typedef uint32_t desk_polynomial[DESK_TERMS];

/* number: 0 if the request was answered, else
 *    1  m is 1 or above 2,147,483,647               6  r, or the degree of h, does not fit
 *    2  a coefficient is m or more                  7  no pair; no left part
 *    3  the degree is below 2, or all is zero       8  a or b is m or more, or a has no inverse
 *    4  the leading coefficient is not 1            9  fewer bytes than a record has
 *    5  r, or a chain's n, shares a factor with m
 *   10  the composed degree is too high, or a sum, product or power in a text has a nonzero coefficient above
 *      x^DESK_LIMIT
 *   11  the area has fewer than DESK_WORDS words, or the sheet has fewer than DESK_SHEET bytes, or the text does not fit its area
 *   12  the used places are not the first ones, or none is used, or the moduli of a sheet differ
 *   13  the text is misspelt, or a power in it is above DESK_LIMIT, or it has no byte or more than DESK_TEXT_BYTES
 *   14  a ninth bracket is opened inside eight
 *   18  j is not below the number of chains
 * polynomial: which one 2, 3 and 4 concern, 1 the first, 2 the second, 16 + i that in place i, from 0, of a sheet or of the
 *    area that is written as one; 0 for all others
 * power: the lowest whose coefficient offends for 2; 0 for all others */
typedef struct {
    uint32_t number;
    uint32_t polynomial;
    uint32_t power;
} desk_refused;

/* the record that the bytes begin with */
desk_refused desk_check(const uint8_t *bytes, size_t count, uint32_t *modulus, desk_polynomial f, size_t *degree);
/* f = g(h) */
desk_refused desk_compose(uint32_t m, const desk_polynomial g, const desk_polynomial h, desk_polynomial f);
/* the g with f = g(h) */
desk_refused desk_left_part(uint32_t m, const desk_polynomial f, const desk_polynomial h, desk_polynomial g);
/* the pair with f = g(h), g of degree r and h(0) = 0 */
desk_refused desk_split(uint32_t m, const desk_polynomial f, size_t r, desk_polynomial g, desk_polynomial h);
/* whether there is that pair, refused as desk_split is, but not by No. 7; answer: 1 for yes or 0 for no, then 0 with a yes, or
 * the highest power of x at which f and g(h) differ, where h is the right part that f's leading terms force, of degree s, and g
 * the monic one for which f and g(h) agree at every power x^(is) */
desk_refused desk_quick(uint32_t m, const desk_polynomial f, size_t r, size_t answer[2]);
/* f, or the pair g and h, changed by (a, b) */
desk_refused desk_change_polynomial(uint32_t m, const desk_polynomial f, uint32_t a, uint32_t b, desk_polynomial out);
desk_refused desk_change_pair(uint32_t m, const desk_polynomial g, const desk_polynomial h, uint32_t a, uint32_t b,
                              desk_polynomial left, desk_polynomial right);
/* out: first (a, b), then (a2, b2), as one change; the change that undoes (a, b) */
desk_refused desk_combine(uint32_t m, uint32_t a, uint32_t b, uint32_t a2, uint32_t b2, uint32_t out[2]);
desk_refused desk_undo(uint32_t m, uint32_t a, uint32_t b, uint32_t out[2]);
/* the chain of f by 01's rule, which is the first of its complete chains, in the area, its parts left to right; numbers: parts,
 * tries, price (the multiplications that the parts cost: n - 1 for one of degree n) */
desk_refused desk_chain(uint32_t m, const desk_polynomial f, uint32_t *area, size_t count, size_t numbers[3]);
/* the number of f's complete chains that are normal, 1 to n*n: no part splits, and all parts but the leftmost have constant
 * term 0 */
desk_refused desk_count_chains(uint32_t m, const desk_polynomial f, size_t *number);
/* the j-th of them, from 0, in the area as desk_chain writes it; numbers: parts, price. They are ordered by the degrees of their
 * parts read from the right, the part next to x first: the smaller degree at the first difference comes first. The 0th is
 * desk_chain's. The chains of one f may differ in their number of parts and their price (worked.c has such an f). */
desk_refused desk_nth_chain(uint32_t m, const desk_polynomial f, size_t j, uint32_t *area, size_t count, size_t numbers[2]);
/* place: where part i, from 0, starts in the area and how long it is; 0 and 0 if it is empty */
void desk_part(const uint32_t *area, size_t count, size_t i, size_t place[2]);
/* the sheet of the modulus m and the area's parts, a chain's or any others: a record for each, left to right, and zero bytes in
 * the places that are not used, which are those that are all zero */
desk_refused desk_write_sheet(uint32_t m, const uint32_t *area, size_t words, uint8_t *sheet, size_t bytes);
/* the sheet's parts in the area, and zeros in the places that are not used; its modulus; the f that the parts compose to */
desk_refused desk_read_sheet(const uint8_t *sheet, size_t bytes, uint32_t *area, size_t words, uint32_t *modulus,
                             desk_polynomial f);
/* the f that a text means, as (x^2+x)^2-3*x: sums and differences of products; the factors of a product, with * between them, are
 * numbers, x, and sums in brackets, at most 8 in one another, each with or without a power, 0 to DESK_LIMIT; a sum may
 * begin with a minus. A number, a power too, has at most 10 digits. No spaces, and no zero byte at the end. */
desk_refused desk_read_text(uint32_t m, const uint8_t *text, size_t count, desk_polynomial f);
/* f as a text that reads back to it, as 1*x^2+1*x^1+3*x^0, with no zero byte at the end; length: its bytes, 0 after a refusal */
desk_refused desk_write_text(uint32_t m, const desk_polynomial f, uint8_t *area, size_t count, size_t *length);

#ifdef __cplusplus
}
#endif

#endif
