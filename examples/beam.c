/* A bridge that does not hold: solve refuses it, and kernel shows the motion that nothing in the bridge resists. */
#include <string.h>

#include "refusal.h"
#include "residues.h"

#define N 10   /* the bridge's nodes */
#define ROW 17 /* the words of a row of orders 2 and 2: d, p, a, q, g, b, h */
#define WORDS (N * ROW)
#define P 2147483647u

/* Two beams lie end to end, nodes 1 to 7 and 8 to 10. Each resists bending at its inner nodes, but for a hinge at node 4, and each
 * support resists that its node moves. With x(i) for how far node i moves, twice the bridge's energy is the sum of
 *     (x(i-1) - 2 x(i) + x(i+1)) squared   for each node i that resists bending
 *     x(i) squared                         for each supported node i
 * and the matrix is that of this sum: column j has the forces that it takes to move node j alone by 1. */
static const int bends[N] = {0, 1, 1, 0, 1, 1, 0, 0, 1, 0};

static uint32_t residue(int word)
{
    return word < 0 ? P - (uint32_t)-word : (uint32_t)word;
}

/* A residue as a whole number near 0. */
static int32_t near_zero(uint32_t word)
{
    return word > P / 2 ? -(int32_t)(P - word) : (int32_t)word;
}

/* Entries further than 2 from the diagonal are 0. In each row p has those 1 and 2 before the diagonal and g those 1 and 2 after it; q
 * and h are 1 0, and a and b move the 1 one place down, then out. */
static void put_table(const int *supported, uint32_t *table)
{
    static const int bend[3] = {1, -2, 1};
    int band[N][5] = {{0}}; /* of each row the entries from 2 before the diagonal to 2 after it */
    for (int k = 0; k < N; k++) {
        band[k][2] += supported[k];
        for (int i = 0; bends[k] && i < 3; i++) {
            for (int j = 0; j < 3; j++) {
                band[k - 1 + i][2 + j - i] += bend[i] * bend[j];
            }
        }
    }
    for (int k = 0; k < N; k++) {
        const uint32_t row[ROW] = {
            residue(band[k][2]),
            residue(band[k][1]), residue(band[k][0]), 0, 0, 1, 0, 1, 0,
            residue(band[k][3]), residue(band[k][4]), 0, 0, 1, 0, 1, 0,
        };
        memcpy(table + k * ROW, row, sizeof row);
    }
}

/* Whether solve finds how far the nodes move under a load on node 3. */
static int holds(const uint32_t *table)
{
    const uint32_t load[N] = {0, 0, 1};
    uint32_t work[2 * N], moved[N];
    return accepted("solve", residues_solve(P, N, 2, 2, table, WORDS, load, N, work, 2 * N, moved, N));
}

/* The dependence of the first k columns, to x, and k; 0 where there is none. */
static uint32_t find_dependence(const uint32_t *table, uint32_t *x)
{
    memset(x, 0, N * sizeof *x); /* first: kernel leaves the words after the k-th, and kernel_check looks at all N */
    const uint64_t found = residues_kernel(P, N, 2, 2, table, WORDS, x, N);
    if (!accepted("kernel", found)) {
        return 0;
    }
    const uint32_t k = residues_value(found);
    const uint64_t checked = residues_kernel_check(P, N, 2, 2, k, table, WORDS, x, N);
    return accepted("kernel_check", checked) && residues_value(checked) == 1 ? k : 0;
}

/* Column k by those before it, in words. The corner sends x to zeros and x(k) is 1, so each column has minus its x as factor. */
static void print_dependence(uint32_t k, const uint32_t *x)
{
    int terms = 0;
    printf("in the first %u rows column %u is", k, k);
    for (uint32_t j = 1; j < k; j++) {
        const int32_t factor = -near_zero(x[j - 1]);
        if (factor == 0) {
            continue;
        }
        printf("%s", factor < 0 ? " minus" : terms > 0 ? " plus" : "");
        if (factor < -1 || factor > 1) {
            printf(" %d times", factor < 0 ? -factor : factor);
        }
        printf(" column %u", j);
        terms++;
    }
    puts(terms > 0 ? "" : " all zeros");
}

/* Whether the motion bends no node that resists and moves no supported one, in whole numbers and without the table. */
static int is_free(const int *supported, const uint32_t *x)
{
    for (int k = 0; k < N; k++) {
        if (supported[k] && x[k] != 0) {
            return 0;
        }
        if (bends[k] && near_zero(x[k - 1]) + near_zero(x[k + 1]) != 2 * near_zero(x[k])) {
            return 0;
        }
    }
    return 1;
}

int main(void)
{
    int supported[N] = {0, 1, 0, 0, 0, 1, 0, 1, 0, 1}; /* nodes 2 and 6 of the first beam, both ends of the second */
    uint32_t table[WORDS], x[N];
    put_table(supported, table);
    if (holds(table)) {
        return 1;
    }
    const uint32_t k = find_dependence(table, x);
    if (k == 0) {
        return 1;
    }
    print_dependence(k, x);
    printf("the nodes move by");
    for (int j = 0; j < N; j++) {
        printf(" %d", near_zero(x[j]));
    }
    const int free_motion = is_free(supported, x);
    puts(free_motion ? ": nothing resists" : ": something resists");

    puts("\nwith one more support, at the hinge:");
    supported[3] = 1;
    put_table(supported, table);
    if (!holds(table)) {
        return 1;
    }
    puts("the bridge holds");
    return free_motion && find_dependence(table, x) == 0 ? 0 : 1;
}
