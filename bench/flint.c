/* FLINT's calls for the benchmark: a dense case holds the matrices a and b of a call and its result x, in FLINT's own form. */
#include <flint/fmpq.h>
#include <flint/fmpz.h>
#include <flint/nmod_mat.h>
#include <stdint.h>
#include <stdlib.h>

const char *dense_version(void)
{
    return FLINT_VERSION;
}

struct dense {
    nmod_mat_t a, b, x;
};

static void fill(nmod_mat_t matrix, const uint32_t *words)
{
    for (slong i = 0; i < nmod_mat_nrows(matrix); i++)
        for (slong j = 0; j < nmod_mat_ncols(matrix); j++)
            nmod_mat_entry(matrix, i, j) = *words++;
}

/* a is n by n; b and the result are n by columns. */
struct dense *dense_new(uint32_t p, uint32_t n, uint32_t columns, const uint32_t *a, const uint32_t *b)
{
    struct dense *dense = malloc(sizeof *dense);
    if (dense == NULL)
        abort();
    nmod_mat_init(dense->a, n, n, p);
    nmod_mat_init(dense->b, n, columns, p);
    nmod_mat_init(dense->x, n, columns, p);
    fill(dense->a, a);
    fill(dense->b, b);
    return dense;
}

void dense_free(struct dense *dense)
{
    nmod_mat_clear(dense->a);
    nmod_mat_clear(dense->b);
    nmod_mat_clear(dense->x);
    free(dense);
}

/* The result, row by row. */
void dense_words(const struct dense *dense, uint32_t *words)
{
    for (slong i = 0; i < nmod_mat_nrows(dense->x); i++)
        for (slong j = 0; j < nmod_mat_ncols(dense->x); j++)
            *words++ = (uint32_t) nmod_mat_entry(dense->x, i, j);
}

/* The calls; 0 where the matrix is singular. */
int dense_product(struct dense *dense)
{
    nmod_mat_mul(dense->x, dense->a, dense->b);
    return 1;
}

int dense_apply(struct dense *dense)
{
    nmod_mat_mul_nmod_vec(nmod_mat_entry_ptr(dense->x, 0, 0), dense->a, nmod_mat_entry_ptr(dense->b, 0, 0),
                          nmod_mat_nrows(dense->b));
    return 1;
}

int dense_solve(struct dense *dense)
{
    return nmod_mat_solve(dense->x, dense->a, dense->b);
}

int dense_inverse(struct dense *dense)
{
    return nmod_mat_inv(dense->x, dense->a);
}

/* The fractions of n pairs of residues, first under p and second under q; 0 where a place has none. */
int fractions_find(uint32_t p, uint32_t q, uint32_t n, const uint32_t *first, const uint32_t *second, int32_t *numerators,
                   uint32_t *denominators)
{
    int found = 1;
    fmpz_t modulus, product, bound, residue, joined;
    fmpq_t fraction;
    fmpz_init_set_ui(modulus, p);
    fmpz_init(product);
    fmpz_init(bound);
    fmpz_init(residue);
    fmpz_init(joined);
    fmpq_init(fraction);
    fmpz_mul_ui(product, modulus, q);
    fmpz_sub_ui(bound, product, 1);
    fmpz_fdiv_q_2exp(bound, bound, 1);
    fmpz_sqrt(bound, bound);
    for (uint32_t k = 0; k < n && found; k++) {
        fmpz_set_ui(residue, first[k]);
        fmpz_CRT_ui(joined, residue, modulus, second[k], q, 0);
        found = fmpq_reconstruct_fmpz_2(fraction, joined, product, bound, bound);
        numerators[k] = (int32_t) fmpz_get_si(fmpq_numref(fraction));
        denominators[k] = (uint32_t) fmpz_get_ui(fmpq_denref(fraction));
    }
    fmpz_clear(modulus);
    fmpz_clear(product);
    fmpz_clear(bound);
    fmpz_clear(residue);
    fmpz_clear(joined);
    fmpq_clear(fraction);
    return found;
}
