/* A natural cubic spline through points with whole heights, solved exactly: under two primes, then as fractions. */
#include <string.h>

#include "refusal.h"
#include "residues.h"

#define KNOTS 7
#define N (KNOTS - 2)
#define ROW 7          /* the words of a row of orders 1 and 1: d, p, a, q, g, b, h */
#define DETERMINANT 780 /* of the matrix of N rows with 1 4 1; every denominator divides it, by Cramer's rule */

/* The spline's heights at the knots 0, 1, 2, .. */
static const int64_t heights[KNOTS] = {3, 1, 4, 1, 5, 9, 2};

static const uint32_t primes[2] = {2147483647u, 2147483629u};

/* The second derivatives m are 0 at both ends, and at each inner knot i
 * m(i-1) + 4 m(i) + m(i+1) = 6 (y(i-1) - 2 y(i) + y(i+1)), where y are the heights. This is the right side. */
static int64_t right_side(int i)
{
    return 6 * (heights[i - 1] - 2 * heights[i] + heights[i + 1]);
}

/* The table of the matrix with 4 on the diagonal, 1 beside it and 0 elsewhere. Its orders are 1 and 1. Below the diagonal the
 * entry is p(i) a(i-1) .. a(j+1) q(j): p is the entry beside the diagonal and q is 1, and since a is 0 all that lies further
 * off is 0. Above it g, h and b do the same. Row 1 is a row and no heading: its d, q and g are the matrix's first 4 and the
 * 1s below it and beside it. */
static void put_table(uint32_t *table)
{
    static const uint32_t row[ROW] = {4, 1, 0, 1, 1, 0, 1};
    for (int k = 0; k < N; k++) {
        memcpy(table + k * ROW, row, sizeof row);
    }
}

/* Solves the system modulo p and applies the table to the solution, which must give the right sides again. */
static int solve(uint32_t p, uint32_t *solution)
{
    uint32_t table[N * ROW], column[N], work[N], again[N];
    put_table(table);
    for (int k = 0; k < N; k++) {
        column[k] = (uint32_t)((right_side(k + 1) % p + p) % p);
    }
    const uint64_t solved = residues_solve(p, N, 1, 1, table, N * ROW, column, N, work, N, solution, N);
    if (!accepted("solve", solved)) {
        return 0;
    }
    const uint64_t applied = residues_apply(p, N, 1, 1, table, N * ROW, solution, N, again, N);
    return accepted("apply", applied) && memcmp(again, column, sizeof column) == 0;
}

/* Whether the second derivatives solve the spline's equations, in whole numbers and without the table: a table that is not the
 * spline's passes every check that applies it. */
static int fits(const int32_t *numerators, const uint32_t *denominators)
{
    int64_t over[KNOTS] = {0};
    for (int k = 0; k < N; k++) {
        if (DETERMINANT % denominators[k] != 0) {
            return 0;
        }
        over[k + 1] = (int64_t)numerators[k] * (DETERMINANT / denominators[k]);
    }
    for (int i = 1; i <= N; i++) {
        if (over[i - 1] + 4 * over[i] + over[i + 1] != right_side(i) * DETERMINANT) {
            return 0;
        }
    }
    return 1;
}

int main(void)
{
    uint32_t first[N], second[N], denominators[N];
    int32_t numerators[N];
    if (!solve(primes[0], first) || !solve(primes[1], second)) {
        return 1;
    }
    const uint64_t reply = residues_fractions(primes[0], primes[1], N, first, N, second, N, numerators, N, denominators, N);
    if (!accepted("fractions", reply)) {
        return 1;
    }
    printf("knot  modulo %u  modulo %u  second derivative\n", primes[0], primes[1]);
    for (int k = 0; k < N; k++) {
        printf("%4d  %17u  %17u  %d/%u\n", k + 1, first[k], second[k], numerators[k], denominators[k]);
    }
    const int fit = fits(numerators, denominators);
    puts(fit ? "these solve the spline's equations" : "these do not solve the spline's equations");
    return fit ? 0 : 1;
}
