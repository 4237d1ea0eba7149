/* The voltages of a ladder of resistors, exactly: its matrix has a singular corner, so solve refuses it and solve_dense solves. */
#include <string.h>

#include "refusal.h"
#include "residues.h"

#define NODES 5
#define N (NODES + 1)
#define ROW 7          /* the words of a row of orders 1 and 1: d, p, a, q, g, b, h */
#define VOLTS 10
#define DETERMINANT 34 /* of the ladder's matrix; every denominator divides it, by Cramer's rule */

static const uint32_t primes[2] = {2147483647u, 2147483629u};

/* A source holds node 1 at VOLTS. One ohm lies between each node and the next, and one between each node and the ground. Unknown are
 * the source's current i and the voltages v(1) to v(NODES). By Kirchhoff's law as much flows to a node as from it:
 *     v(1) = VOLTS
 *     -i + 2 v(1) - v(2) = 0
 *     -v(k-1) + 3 v(k) - v(k+1) = 0   for each k between 1 and NODES
 *     -v(NODES-1) + 2 v(NODES) = 0
 * The first equation does not have the first unknown, so the first diagonal entry is 0, under every prime. A node that is not joined
 * has no resistor: 0 = 0 is its equation. */
static void put_table(uint32_t p, int joined, uint32_t *table)
{
    memset(table, 0, N * ROW * sizeof *table);
    for (int k = 0; k <= joined; k++) {
        const uint32_t d = k == 0 ? 0 : k == 1 || k == joined ? 2 : 3;
        const uint32_t above = k == 0 ? 1 : k < joined ? p - 1 : 0;
        const uint32_t row[ROW] = {d, p - 1, 0, 1, above, 0, 1};
        memcpy(table + k * ROW, row, sizeof row);
    }
}

/* By solve, which takes less time, and by solve_dense where that meets a singular corner. */
static int solve_either(uint32_t p, const uint32_t *table, const uint32_t *column, uint32_t *solution)
{
    uint32_t work[N], square[N * N];
    const uint64_t reply = residues_solve(p, N, 1, 1, table, N * ROW, column, N, work, N, solution, N);
    if (accepted("solve", reply)) {
        return 1;
    }
    if (residues_number(reply) != RESIDUES_ZERO_PIVOT) {
        return 0;
    }
    const uint64_t dense = residues_solve_dense(p, N, 1, 1, table, N * ROW, column, N, square, N * N, solution, N);
    return accepted("solve_dense", dense);
}

/* Solves modulo p and applies the table to the solution, which must give the right sides again. */
static int solve(uint32_t p, int joined, uint32_t *solution)
{
    const uint32_t column[N] = {VOLTS};
    uint32_t table[N * ROW], again[N];
    put_table(p, joined, table);
    if (!solve_either(p, table, column, solution)) {
        return 0;
    }
    const uint64_t applied = residues_apply(p, N, 1, 1, table, N * ROW, solution, N, again, N);
    if (!accepted("apply", applied) || memcmp(again, column, sizeof column) != 0) {
        return 0;
    }
    printf("modulo %u the solution is sent to the right sides\n", p);
    return 1;
}

/* Whether the current and the voltages solve the equations above, in whole numbers and without the table. */
static int fits(const int32_t *numerators, const uint32_t *denominators)
{
    int64_t v[N]; /* times DETERMINANT; v[0] is the current */
    for (int k = 0; k < N; k++) {
        if (DETERMINANT % denominators[k] != 0) {
            return 0;
        }
        v[k] = (int64_t)numerators[k] * (DETERMINANT / denominators[k]);
    }
    for (int k = 2; k < NODES; k++) {
        if (v[k - 1] + v[k + 1] != 3 * v[k]) {
            return 0;
        }
    }
    return v[1] == VOLTS * DETERMINANT && v[0] + v[2] == 2 * v[1] && v[NODES - 1] == 2 * v[NODES];
}

int main(void)
{
    uint32_t first[N], second[N], denominators[N];
    int32_t numerators[N];
    if (!solve(primes[0], NODES, first) || !solve(primes[1], NODES, second)) {
        return 1;
    }
    const uint64_t reply = residues_fractions(primes[0], primes[1], N, first, N, second, N, numerators, N, denominators, N);
    if (!accepted("fractions", reply)) {
        return 1;
    }
    printf("the source's current: %d/%u amperes\n", numerators[0], denominators[0]);
    for (int k = 1; k <= NODES; k++) {
        printf("node %d: %d/%u volts\n", k, numerators[k], denominators[k]);
    }
    const int fit = fits(numerators, denominators);
    puts(fit ? "these solve the ladder's equations" : "these do not solve the ladder's equations");
    puts("\nthe last node taken off, so that any voltage of it will do:");
    return fit && !solve(primes[0], NODES - 1, first) ? 0 : 1;
}
