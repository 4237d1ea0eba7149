/* Five identities between the calls, on file M's table and another, modulo 7; then two tables that show why there are conditions.
 * Ends with 1 where two sides differ, or where a call is refused that should be accepted, or accepted that should be refused. */
#include <stdlib.h>
#include <string.h>

#include "refusal.h"
#include "residues.h"

#define P 7
#define N 3
#define WORDS (N * 17) /* of the largest table here, N rows of orders 2 and 2; words past what a call needs are not touched */

/* A table and what belongs to it. */
typedef struct {
    uint32_t n, r, s;
    uint32_t words[WORDS];
} table;

static void must_accept(const char *call, uint64_t reply)
{
    if (!accepted(call, reply)) {
        exit(1);
    }
}

static table product(table a, table b)
{
    table result = {a.n, a.r + b.r, a.s + b.s, {0}};
    must_accept("product", residues_product(P, a.n, a.r, a.s, b.r, b.s, a.words, WORDS, b.words, WORDS, result.words, WORDS));
    return result;
}

static table transpose(table t)
{
    table result = {t.n, t.s, t.r, {0}};
    must_accept("transpose", residues_transpose(P, t.n, t.r, t.s, t.words, WORDS, result.words, WORDS));
    return result;
}

static table inverse(table t)
{
    table result = {t.n, t.r, t.s, {0}};
    must_accept("inverse", residues_inverse(P, t.n, t.r, t.s, t.words, WORDS, result.words, WORDS));
    return result;
}

/* What inverse answers, a refusal or not. */
static uint64_t answer(table t)
{
    uint32_t ignored[WORDS];
    return residues_inverse(P, t.n, t.r, t.s, t.words, WORDS, ignored, WORDS);
}

static void solve(table t, const uint32_t *column, uint32_t *result)
{
    uint32_t work[N * 2];
    must_accept("solve", residues_solve(P, t.n, t.r, t.s, t.words, WORDS, column, N, work, N * 2, result, N));
}

/* Prints two sides beside each other; whether they agree. */
static int print_sides(const char *title, uint32_t rows, uint32_t width, const uint32_t *left, const uint32_t *right)
{
    puts(title);
    for (uint32_t row = 0; row < rows; row++) {
        for (uint32_t k = 0; k < width; k++) {
            printf("%u%s", left[row * width + k], k + 1 < width ? " " : "   ");
        }
        for (uint32_t k = 0; k < width; k++) {
            printf("%u%s", right[row * width + k], k + 1 < width ? " " : "\n");
        }
    }
    return memcmp(left, right, rows * width * sizeof *left) == 0;
}

static int print_matrices(const char *title, table a, table b)
{
    uint32_t left[N * N], right[N * N];
    must_accept("matrix", residues_matrix(P, a.n, a.r, a.s, a.words, WORDS, left, N * N));
    must_accept("matrix", residues_matrix(P, b.n, b.r, b.s, b.words, WORDS, right, N * N));
    return print_sides(title, a.n, a.n, left, right);
}

/* The answers for the table and for its transpose: number, buffer and row. */
static int print_answers(const char *title, table t)
{
    const uint64_t x = answer(t), y = answer(transpose(t));
    const uint32_t left[] = {residues_number(x), residues_buffer(x), residues_row(x)};
    const uint32_t right[] = {residues_number(y), residues_buffer(y), residues_row(y)};
    return print_sides(title, 1, 3, left, right);
}

static int said(int same)
{
    puts(same ? "they agree\n" : "they differ\n");
    return same;
}

/* Whether the call is refused, 7 beside the table and row 1. */
static int refused(const char *call, uint64_t reply)
{
    return !accepted(call, reply) && residues_number(reply) == RESIDUES_ZERO_PIVOT &&
           residues_buffer(reply) == RESIDUES_TABLE && residues_row(reply) == 1;
}

int main(void)
{
    /* rows of d, p, a, q, g, b, h; each 9 is a word that is never used */
    const table a = {N, 1, 1, {1, 9, 9, 2, 1, 9, 9,
                               3, 1, 2, 1, 2, 3, 1,
                               5, 3, 9, 9, 9, 9, 4}};
    /* rows of d, g, b, h */
    const table b = {N, 0, 1, {2, 1, 9, 9,
                               3, 1, 0, 1,
                               4, 9, 9, 1}};
    const table c = {2, 1, 1, {1, 9, 9, 1, 1, 9, 9,
                               0, 1, 9, 9, 9, 9, 1}};
    const table ab = product(a, b);
    const table inverses = product(inverse(b), inverse(a)), transposes = product(transpose(b), transpose(a));
    const uint32_t column[N] = {4, 4, 5};
    uint32_t at_once[N], first[N], then[N];
    int fine = 1;
    print_matrices("A, which is file M's matrix, and B, modulo 7", a, b);
    fine &= said(print_matrices("\n1. the inverse of A B, and B's inverse times A's", inverse(ab), inverses));
    fine &= said(print_matrices("2. A, and the inverse of its inverse", a, inverse(inverse(a))));
    fine &= said(print_matrices("3. the transpose of A B, and B's transpose times A's", transpose(ab), transposes));
    fine &= said(print_answers("4. inverse's answers on A B and on its transpose: number, buffer, row", ab));
    fine &= said(print_answers("   the same on B A and on its transpose", product(b, a)));
    solve(ab, column, at_once);
    solve(a, column, first);
    solve(b, first, then);
    fine &= said(print_sides("5. the column 4 4 5 solved for with A B, and with A and then B", N, 1, at_once, then));
    print_matrices("A's inverse, and A A, which the library does not invert", inverse(a), product(a, a));
    fine &= refused("inverse of A A", answer(product(a, a)));
    print_matrices("\nC, and its inverse, which the library does not invert", c, inverse(c));
    fine &= refused("inverse of C's inverse", answer(inverse(c)));
    return fine ? 0 : 1;
}
