/* Whether a result's words mean what the call owes: by matrices where these are small, else by what a column is sent to. */
#include <stdio.h>

#include "fuzz.h"

static uint32_t dense[3][DENSE_SIZE * DENSE_SIZE];
static uint32_t columns[3][LARGEST_SIZE];

/* Whether every used word is a residue and every idle one 0. */
static int is_written_table(const table *t)
{
    const uint32_t words = row_words(t->of);
    uint32_t k, place;
    for (k = 1; k <= t->of.n; k++)
        for (place = 0; place < words; place++) {
            const uint32_t word = t->words[(size_t)(k - 1) * words + place];
            if (word >= (is_idle_word(t->of, k, place) ? 1 : t->of.p)) {
                printf("%s: row %u, word %u of the result is %u\n", doing, k, place, word);
                return 0;
            }
        }
    return 1;
}

/* Whether the first matrix times the second is the third, which is the identity where there is none. */
static int dense_product_is(const table *one, const table *two, const table *three)
{
    const uint32_t p = one->of.p, n = one->of.n;
    uint32_t i, j, k;
    matrix_of(one, dense[0]);
    matrix_of(two, dense[1]);
    for (i = 0; three == NULL && i < n * n; i++)
        dense[2][i] = i / n == i % n;
    if (three != NULL)
        matrix_of(three, dense[2]);
    for (i = 0; i < n; i++)
        for (j = 0; j < n; j++) {
            uint32_t sum = 0;
            for (k = 0; k < n; k++)
                sum = plus(p, sum, times(p, dense[0][i * n + k], dense[1][k * n + j]));
            if (sum != dense[2][i * n + j]) {
                printf("%s: the entry (%u, %u): %u and %u\n", doing, i + 1, j + 1, sum, dense[2][i * n + j]);
                return 0;
            }
        }
    return 1;
}

static int same_columns(const uint32_t *owed, const uint32_t *came, uint32_t n)
{
    uint32_t i;
    for (i = 0; i < n; i++)
        if (owed[i] != came[i]) {
            printf("%s: a column is sent to %u in row %u, not to %u\n", doing, came[i], i + 1, owed[i]);
            return 0;
        }
    return 1;
}

/* Some column of residues. */
static void some_column(uint32_t p, uint32_t n)
{
    uint32_t i;
    for (i = 0; i < n; i++)
        columns[0][i] = scramble(i + 1) % p;
}

static int product_is(const table *one, const table *two, const table *three)
{
    if (one->of.n <= DENSE_SIZE)
        return dense_product_is(one, two, three);
    some_column(one->of.p, one->of.n);
    sends(two, columns[0], columns[1]);
    sends(one, columns[1], columns[2]);
    if (three == NULL)
        return same_columns(columns[0], columns[2], one->of.n);
    sends(three, columns[0], columns[1]);
    return same_columns(columns[2], columns[1], one->of.n);
}

static int are_residues(uint32_t p, const uint32_t *words, uint32_t count)
{
    uint32_t k;
    for (k = 0; k < count; k++)
        if (words[k] >= p) {
            printf("%s: word %u of the result is %u\n", doing, k, words[k]);
            return 0;
        }
    return 1;
}

/* A large matrix: all of it by a column, and some entries. */
static int is_matrix(const table *t, const uint32_t *result)
{
    const uint32_t n = t->of.n;
    uint32_t k;
    some_column(t->of.p, n);
    sends(t, columns[0], columns[1]);
    for (k = 0; k < 8; k++) {
        const uint32_t i = scramble(2 * k + 1) % n, j = scramble(2 * k + 2) % n;
        if (entry(t, i + 1, j + 1) != result[(size_t)i * n + j]) {
            printf("%s: a wrong entry (%u, %u)\n", doing, i + 1, j + 1);
            return 0;
        }
    }
    dense_sends(result, t->of.p, n, columns[0], columns[2]);
    return same_columns(columns[1], columns[2], n);
}

/* The first singular corner's column: there is only one. */
static int is_kernel(const trial *t, const uint32_t *result)
{
    const uint32_t k = zero_pivot(t);
    if (!are_residues(t->first.p, result, k))
        return 0;
    if (!shows(t, k, result)) {
        printf("%s: the column does not show corner %u\n", doing, k);
        return 0;
    }
    return 1;
}

int judge(const trial *t, const uint32_t *result)
{
    const table one = table_in(t, TABLE), two = table_in(t, SECOND);
    table new;
    new.of = t->call == PRODUCT ? joined(one.of, two.of) : one.of;
    new.words = result;
    if (t->call == PRODUCT)
        return is_written_table(&new) && product_is(&one, &two, &new);
    if (t->call == INVERSE)
        return is_written_table(&new) && product_is(&new, &one, NULL);
    if (t->call == MATRIX)
        return are_residues(one.of.p, result, one.of.n * one.of.n) && is_matrix(&one, result);
    if (t->call == KERNEL)
        return is_kernel(t, result);
    if (!are_residues(one.of.p, result, one.of.n))
        return 0;
    sends(&one, result, columns[1]);
    return same_columns(t->before[COLUMN], columns[1], one.of.n);
}
