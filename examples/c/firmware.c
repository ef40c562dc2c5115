/*
 * What the firmware of a strip does with the library. It has received an equation over the house's field of degree 8 and a frame line; it
 * solves the one, answers the other, and is turned down twice. C99, and C++ too.
 *
 * Every number that a call returns and every value that it writes is compared with what it must be. The exit status is 0 only if all are.
 */
#include <stdio.h>
#include <string.h>

#include "gfroots.h"

/* How many values were not as they must be. */
static int wrong = 0;

/* uint32_t may be int or long, so numbers are printed as long. */
static void expect(const char *what, uint32_t value, uint32_t expected)
{
    if (value != expected) {
        printf("%s: %lu, but it must be %lu\n", what, (unsigned long)value, (unsigned long)expected);
        wrong++;
    }
}

/* The field: the house's polynomial of degree 8. A polynomial that came over a line is tested before anything is built on it. */
static uint32_t field(void)
{
    uint32_t p[GFROOTS_ONE] = {0}, m[GFROOTS_ONE] = {0};

    expect("house_polynomial", gfroots_house_polynomial(8, p, GFROOTS_ONE), 0);
    expect("the house's polynomial", p[0], 285);
    expect("accept", gfroots_accept(p[0], m, GFROOTS_ONE), 0);
    expect("its degree", m[0], 8);
    printf("field polynomial %lu, degree %lu\n", (unsigned long)p[0], (unsigned long)m[0]);
    return p[0];
}

/* An equation of degree 4 whose roots are known, since it is built from them: 7 twice, so there are three different ones. */
static void quartic(uint32_t p)
{
    static const uint32_t known[4] = {200, 7, 3, 7};
    static const uint32_t built[GFROOTS_MOST_COEFFICIENTS] = {104, 236, 80, 203, 1};
    /* Places after the last root become 0. */
    static const uint32_t ascending[GFROOTS_MOST_ROOTS] = {3, 7, 200, 0};
    static const uint32_t times[GFROOTS_MOST_ROOTS] = {1, 2, 1, 0};
    uint32_t coefficients[GFROOTS_MOST_COEFFICIENTS] = {0};
    uint32_t count[GFROOTS_ONE] = {0}, roots[GFROOTS_MOST_ROOTS] = {0}, multiplicities[GFROOTS_MOST_ROOTS] = {0};
    uint32_t i;

    expect("build", gfroots_build(p, known, 4, coefficients, GFROOTS_MOST_COEFFICIENTS), 0);
    for (i = 0; i < GFROOTS_MOST_COEFFICIENTS; i++)
        expect("a coefficient", coefficients[i], built[i]);

    expect("solve",
           gfroots_solve(p, coefficients, GFROOTS_MOST_COEFFICIENTS, count, GFROOTS_ONE, roots, GFROOTS_MOST_ROOTS, multiplicities,
                         GFROOTS_MOST_ROOTS),
           0);
    expect("the number of different roots", count[0], 3);
    for (i = 0; i < GFROOTS_MOST_ROOTS; i++) {
        expect("a root", roots[i], ascending[i]);
        expect("a multiplicity", multiplicities[i], times[i]);
    }
    for (i = 0; i < count[0] && i < GFROOTS_MOST_ROOTS; i++)
        printf("root %lu, multiplicity %lu\n", (unsigned long)roots[i], (unsigned long)multiplicities[i]);
}

/* The affine equation 66 + x + x^4 = 0; the coefficient of x^2 is 0. */
static const uint32_t affine[4] = {66, 1, 0, 1};
static const uint16_t affine_roots[4] = {100, 101, 178, 179};

/* First the roots as a space, which has the same size however many they are; then as a list. The list is longer than it needs to be. */
static void all_roots(uint32_t p)
{
    uint32_t space[GFROOTS_SPACE] = {0}, directions[GFROOTS_DIRECTIONS] = {0}, count[GFROOTS_ONE] = {0};
    uint16_t list[6] = {4242, 4242, 4242, 4242, 4242, 4242};
    uint32_t i;

    expect("affine_solve", gfroots_affine_solve(p, affine, 4, space, GFROOTS_SPACE, directions, GFROOTS_DIRECTIONS), 0);
    expect("found", space[GFROOTS_SPACE_FOUND], 1);
    expect("k", space[GFROOTS_SPACE_K], 2);
    expect("the base", space[GFROOTS_SPACE_BASE], 100);
    expect("the first direction", directions[0], 1);
    expect("the second direction", directions[1], 214);
    for (i = 2; i < GFROOTS_DIRECTIONS; i++)
        expect("a direction that there is not", directions[i], 0);

    expect("list_roots", gfroots_list_roots(p, affine, 4, count, GFROOTS_ONE, list, 6), 0);
    expect("the number of roots", count[0], 4);
    printf("affine equation, %lu roots:", (unsigned long)count[0]);
    for (i = 0; i < 4; i++) {
        expect("a root in the list", list[i], affine_roots[i]);
        printf(" %lu", (unsigned long)list[i]);
    }
    printf("\n");
    expect("the entry after the roots", list[4], 4242);
    expect("the last entry", list[5], 4242);
}

/* A frame line as it came, without its line feed. The answer has no 0 at its end: its length is count[0]. */
static void frame(void)
{
    static const uint8_t line[] = "0100001303000E00080001";
    static const char expected[] = "010002000301000B01";
    uint8_t answer[GFROOTS_ANSWER_ROOM];
    uint32_t count[GFROOTS_ONE] = {0};

    expect("answer_line", gfroots_answer_line(line, sizeof line - 1, count, GFROOTS_ONE, answer, GFROOTS_ANSWER_ROOM), 0);
    expect("the length of the answer", count[0], sizeof expected - 1);
    if (count[0] == sizeof expected - 1) {
        printf("%s answered by %.*s\n", (const char *)line, (int)count[0], (const char *)answer);
        expect("the answer is another one", memcmp(answer, expected, sizeof expected - 1) != 0, 0);
    }
}

/* A call that is turned down leaves the lent lists as they were. So a list never holds half an answer. */
static void refusals(uint32_t p)
{
    uint32_t m[GFROOTS_ONE] = {4242}, count[GFROOTS_ONE] = {4242};
    uint16_t list[4] = {4242, 4242, 4242, 4242};
    uint32_t number, i;

    /* The house's polynomial with its lowest bit flipped: x divides it. */
    number = gfroots_accept(p ^ 1, m, GFROOTS_ONE);
    expect("accept with a factor", number, GFROOTS_HAS_FACTOR);
    expect("the degree after it", m[0], 4242);
    printf("field polynomial %lu is turned down by %lu\n", (unsigned long)(p ^ 1), (unsigned long)number);

    /* Three places for four roots. */
    number = gfroots_list_roots(p, affine, 4, count, GFROOTS_ONE, list, 3);
    expect("list_roots without room", number, GFROOTS_NO_PLACE);
    expect("the count after it", count[0], 4242);
    for (i = 0; i < 4; i++)
        expect("an entry after it", list[i], 4242);
    printf("a list of 3 for 4 roots is turned down by %lu\n", (unsigned long)number);
}

int main(void)
{
    uint32_t p = field();

    quartic(p);
    all_roots(p);
    frame();
    refusals(p);
    if (wrong == 0)
        printf("all as it must be\n");
    return wrong == 0 ? 0 : 1;
}
