/*
 * All roots of small polynomials over GF(2^m), m from 2 to 16: the calls of libfirmware.a, for C99 and C++.
 *
 * Every call returns 0 with its values at the front of the lists that the caller lends, or the number that it is turned down by, and then
 * no lent entry is touched. No input is forbidden, and any two answers to one input are the same. A list is lent as a pointer and the
 * number of entries that it has. How much room a list needs is said below and does not depend on what is found, except in
 * gfroots_list_roots; a shorter list is turned down by GFROOTS_NO_PLACE, after every other number. Entries after the values stay as they
 * were. The calls keep nothing between them, allocate nothing, and use nothing of the C library but memcpy and memset.
 *
 * What the caller owes, and no call can test: a pointer is never NULL, also where the list has no entry; it is aligned for its type and
 * points to as many entries as its length says; and a list that a call writes to overlaps no other list of the same call.
 *
 * An element of the field is a number below 2^m: bit i stands for x^i. p is the field polynomial, 4 to 131071 (19 is x^4 + x + 1, m = 4).
 */
#ifndef GFROOTS_H
#define GFROOTS_H

#include <stddef.h>
#include <stdint.h>

#ifdef __cplusplus
extern "C" {
#endif

/* The numbers that a call is turned down by; the first that applies wins. */
#define GFROOTS_OUT_OF_RANGE 1     /* the field polynomial is below 4 or at least 131072; a degree that the house table does not have */
#define GFROOTS_HAS_FACTOR 2       /* the field polynomial has a proper factor, so there is no field */
#define GFROOTS_WRONG_COUNT 3      /* no coefficient, or too many; too many roots to build from */
#define GFROOTS_TOO_LARGE 4        /* an element, a coefficient or a logarithm number is 2^m or more */
#define GFROOTS_ALL_ZERO 5         /* every coefficient is 0 */
#define GFROOTS_DIVISION_BY_ZERO 6 /* a quotient by 0, or 0 to a negative exponent */
#define GFROOTS_NO_PLACE 7         /* no root at this place, or a lent list without room */
#define GFROOTS_MALFORMED 8        /* stands in answer lines only: the line is malformed */

/* Room that the lists need. (gfroots_list_roots needs as much as there are roots, at most GFROOTS_LIST_ROOM.) */
#define GFROOTS_ONE 1                /* a list for one value */
#define GFROOTS_MOST_ROOTS 4         /* roots, multiplicities */
#define GFROOTS_MOST_COEFFICIENTS 5  /* coefficients of what was built; the most that gfroots_solve takes */
#define GFROOTS_SPACE 3              /* found, k, base */
#define GFROOTS_DIRECTIONS 16        /* directions */
#define GFROOTS_LIST_ROOM 65536      /* all roots of any affine equation */
#define GFROOTS_ANSWER_ROOM 77       /* the answer to a line, and a line feed that the caller may put after it; no call writes a NUL */

/* Where gfroots_affine_solve puts its three values. */
#define GFROOTS_SPACE_FOUND 0
#define GFROOTS_SPACE_K 1
#define GFROOTS_SPACE_BASE 2

/* Tests a field polynomial; degree[0] is its degree m. */
uint32_t gfroots_accept(uint32_t p, uint32_t *degree, size_t degree_len);

/* polynomial[0] is the house's polynomial of this degree, 2 to 16. */
uint32_t gfroots_house_polynomial(uint32_t degree, uint32_t *polynomial, size_t polynomial_len);

/* element[0] is a + b, which is a ^ b. */
uint32_t gfroots_sum(uint32_t p, uint32_t a, uint32_t b, uint32_t *element, size_t element_len);

/* element[0] is a times b. */
uint32_t gfroots_product(uint32_t p, uint32_t a, uint32_t b, uint32_t *element, size_t element_len);

/* element[0] is the one q with q times b = a. */
uint32_t gfroots_quotient(uint32_t p, uint32_t a, uint32_t b, uint32_t *element, size_t element_len);

/* element[0] is a to the exponent, which may be negative; 0 to the 0 is 1. */
uint32_t gfroots_power(uint32_t p, uint32_t a, int32_t exponent, uint32_t *element, size_t element_len);

/* element[0] is the one element that squares to b. */
uint32_t gfroots_square_root(uint32_t p, uint32_t b, uint32_t *element, size_t element_len);

/* trace[0] is the trace of c, 0 or 1. */
uint32_t gfroots_trace(uint32_t p, uint32_t c, uint32_t *trace, size_t trace_len);

/* number[0] is e + 1 for the first e with x^e = a, and 0 for 0 and for an element that is no power of x. Walks through up to 2^m - 1 powers. */
uint32_t gfroots_number_of_element(uint32_t p, uint32_t a, uint32_t *number, size_t number_len);

/* element[0] is x^(number - 1), and 0 for the number 0. */
uint32_t gfroots_element_of_number(uint32_t p, uint32_t number, uint32_t *element, size_t element_len);

/* element[0] is x to the exponent, which may be negative. */
uint32_t gfroots_power_of_x(uint32_t p, int32_t exponent, uint32_t *element, size_t element_len);

/*
 * All roots of the polynomial with these one to five coefficients, constant first. count[0] is the number of different roots; they stand
 * ascending in the first places of roots, each with its multiplicity in the same place of multiplicities; of the first four places of
 * both lists those that are not needed become 0.
 */
uint32_t gfroots_solve(uint32_t p, const uint32_t *coefficients, size_t coefficients_len, uint32_t *count, size_t count_len,
                       uint32_t *roots, size_t roots_len, uint32_t *multiplicities, size_t multiplicities_len);

/* The first five coefficients, constant first, become those of the product of all (x + r), r the up to four roots. No root gives 1. */
uint32_t gfroots_build(uint32_t p, const uint32_t *roots, size_t roots_len, uint32_t *coefficients, size_t coefficients_len);

/*
 * All roots of the affine equation c + l0*x + l1*x^2 + l2*x^4 + .. = 0 with the 1 to m + 1 coefficients c, l0, l1, ..:
 * space[0] is 1 where there is a root, else 0; space[1] is k; space[2] is the base, the smallest root. The k directions stand in the first
 * places of directions; of its first 16 places the others become 0. The 2^k roots are the base combined by exclusive or with every choice
 * of the directions.
 */
uint32_t gfroots_affine_solve(uint32_t p, const uint32_t *coefficients, size_t coefficients_len, uint32_t *space, size_t space_len,
                              uint32_t *directions, size_t directions_len);

/* root[0] is the root of the affine equation at place n, from 0, in ascending order. */
uint32_t gfroots_root_at_place(uint32_t p, const uint32_t *coefficients, size_t coefficients_len, uint32_t n, uint32_t *root,
                               size_t root_len);

/* All roots of the affine equation, ascending, at the front of list, which may be longer; count[0] is how many they are. */
uint32_t gfroots_list_roots(uint32_t p, const uint32_t *coefficients, size_t coefficients_len, uint32_t *count, size_t count_len,
                            uint16_t *list, size_t list_len);

/*
 * The answer to one frame line, without line feeds, at the front of answer; count[0] is how many characters it has. A line that is
 * turned down has an answer that says so: the call itself returns 0, or GFROOTS_NO_PLACE.
 */
uint32_t gfroots_answer_line(const uint8_t *line, size_t line_len, uint32_t *count, size_t count_len, uint8_t *answer,
                             size_t answer_len);

#ifdef __cplusplus
}
#endif

#endif
