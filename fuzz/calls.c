/* The calls: the buffers of each, the refusals it may give, what it needs, and the library's function. */
#include "fuzz.h"
#include "residues.h"

const char *const call_names[CALLS] = {"entry", "matrix", "apply", "apply_transpose", "transpose", "multiple",
                                       "sum", "product", "solve", "inverse", "read_file", "write_file", "fractions",
                                       "solve_dense", "kernel", "kernel_check"};

/* t table, 2 second table, c column, w work, r result, f file. */
static const char *const buffers_of[CALLS] = {"t", "tr", "tcr", "tcr", "tr", "tr", "t2r", "t2r", "tcwr", "tr", "rf", "tf", "t2wr",
                                              "tcwr", "tr", "tc"};

int uses(int call, int buffer)
{
    const char *letter = buffers_of[call];
    while (*letter != 0 && *letter != "t2cwrf"[buffer])
        letter++;
    return *letter != 0;
}

int is_written(int call, int buffer)
{
    return uses(call, buffer) && (buffer == WORK || buffer == RESULT || (buffer == FILE_BYTES && call == WRITE_FILE));
}

/* Every call gives 0 to 5, but fractions have no orders. */
int refuses(int call, int number)
{
    switch (number) {
    case BAD_ORDER:
        return call != FRACTIONS;
    case BAD_ORDER_SUM:
        return call == SUM || call == PRODUCT;
    case ZERO_PIVOT:
        return call == SOLVE || call == INVERSE || call == SOLVE_DENSE;
    case BAD_PLACE:
        return call == ENTRY || call == KERNEL_CHECK;
    case BAD_LENGTH:
    case BAD_CHAIN:
        return call == READ_FILE;
    case EQUAL_PRIMES:
    case NO_FRACTION:
        return call == FRACTIONS;
    case REGULAR:
        return call == KERNEL;
    default:
        return 1;
    }
}

uint32_t largest_size(int call)
{
    return call == SOLVE_DENSE ? LARGEST_SQUARE : LARGEST_SIZE;
}

size_t unit(int buffer)
{
    return buffer == FILE_BYTES ? 1 : 4;
}

static size_t needed_result(const trial *t)
{
    switch (t->call) {
    case ENTRY:
    case WRITE_FILE:
        return 0;
    case MATRIX:
        return (size_t)t->first.n * t->first.n;
    case APPLY:
    case APPLY_TRANSPOSE:
    case SOLVE:
    case SOLVE_DENSE:
    case KERNEL:
        return t->first.n;
    case SUM:
    case PRODUCT:
        return table_words(joined(t->first, t->second));
    default:
        return table_words(t->first);
    }
}

static size_t needed_work(const trial *t)
{
    return (size_t)t->first.n * (t->call == FRACTIONS ? 1 : t->call == SOLVE_DENSE ? t->first.n : t->first.s);
}

/* The words or bytes of a buffer that the call needs; the numbers are within limits. */
size_t needed_units(const trial *t, int buffer)
{
    if (!uses(t->call, buffer))
        return 0;
    switch (buffer) {
    case TABLE:
        return table_words(t->first);
    case SECOND:
        return table_words(t->second);
    case COLUMN:
        return t->first.n;
    case WORK:
        return needed_work(t);
    case RESULT:
        return needed_result(t);
    default:
        return file_bytes(t->first);
    }
}

#define NUMBERS t->first.p, t->first.n, t->first.r, t->first.s
#define BOTH NUMBERS, t->second.r, t->second.s
#define LENT(buffer) lent[buffer], t->count[buffer]

uint64_t run_call(const trial *t, void *const *lent)
{
    switch (t->call) {
    case ENTRY:
        return residues_entry(NUMBERS, t->i, t->j, LENT(TABLE));
    case MATRIX:
        return residues_matrix(NUMBERS, LENT(TABLE), LENT(RESULT));
    case APPLY:
        return residues_apply(NUMBERS, LENT(TABLE), LENT(COLUMN), LENT(RESULT));
    case APPLY_TRANSPOSE:
        return residues_apply_transpose(NUMBERS, LENT(TABLE), LENT(COLUMN), LENT(RESULT));
    case TRANSPOSE:
        return residues_transpose(NUMBERS, LENT(TABLE), LENT(RESULT));
    case MULTIPLE:
        return residues_multiple(NUMBERS, t->c, LENT(TABLE), LENT(RESULT));
    case SUM:
        return residues_sum(BOTH, LENT(TABLE), LENT(SECOND), LENT(RESULT));
    case PRODUCT:
        return residues_product(BOTH, LENT(TABLE), LENT(SECOND), LENT(RESULT));
    case SOLVE:
        return residues_solve(NUMBERS, LENT(TABLE), LENT(COLUMN), LENT(WORK), LENT(RESULT));
    case INVERSE:
        return residues_inverse(NUMBERS, LENT(TABLE), LENT(RESULT));
    case READ_FILE:
        return residues_read_file(LENT(FILE_BYTES), LENT(RESULT));
    case WRITE_FILE:
        return residues_write_file(NUMBERS, LENT(TABLE), LENT(FILE_BYTES));
    case SOLVE_DENSE:
        return residues_solve_dense(NUMBERS, LENT(TABLE), LENT(COLUMN), LENT(WORK), LENT(RESULT));
    case KERNEL:
        return residues_kernel(NUMBERS, LENT(TABLE), LENT(RESULT));
    case KERNEL_CHECK:
        return residues_kernel_check(NUMBERS, t->i, LENT(TABLE), LENT(COLUMN));
    default:
        return residues_fractions(t->first.p, t->second.p, t->first.n, LENT(TABLE), LENT(SECOND), LENT(WORK), LENT(RESULT));
    }
}
