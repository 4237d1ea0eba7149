/* Every call on buffers that lie against pages which may not be touched: at their end, then at their beginning.
 * What is only read lies in pages that may not be written. Each buffer in turn is exact, too short, too long, and NULL.
 * A buffer is lent in units: words, but the bytes of a file. */
#define _DEFAULT_SOURCE
#include <signal.h>
#include <stdio.h>
#include <stdlib.h>
#include <string.h>
#include <sys/mman.h>
#include <unistd.h>

#include "residues.h"

#define SURPLUS 0xdeadbeefu
#define P 2147483647u
#define BUFFERS 6

/* The buffers of a case in their order, and their numbers in a reply. Fractions lend residues as both tables, numerators as work
 * and denominators as result, and the square of the dense solve is its work. */
enum { TABLE, SECOND, COLUMN, WORK, RESULT, FILE_BYTES };
static const uint32_t number_of[BUFFERS] = {RESIDUES_TABLE, RESIDUES_SECOND_TABLE, RESIDUES_COLUMN, RESIDUES_WORK,
                                            RESIDUES_RESULT, RESIDUES_FILE};

/* Words or bytes between two pages that may not be touched. */
typedef struct {
    unsigned char *pages;
    size_t bytes;
    uint32_t *words;
    uint8_t *file;
    size_t count;
} lent;

/* The numbers of a call; r2 and s2 are the second table's orders, p2 is the second prime. Of the kernel's check i is k. */
typedef struct {
    uint32_t p, n, r, s, i, j, c, r2, s2, p2;
} numbers;

typedef uint64_t caller(const numbers *x, const lent *b);

typedef struct {
    const char *name;
    caller *run;
    int uses[BUFFERS];
} call;

static char doing[300];
static unsigned long passed;

/* ---- the calls ---- */

static uint64_t run_entry(const numbers *x, const lent *b)
{
    return residues_entry(x->p, x->n, x->r, x->s, x->i, x->j, b[TABLE].words, b[TABLE].count);
}

static uint64_t run_matrix(const numbers *x, const lent *b)
{
    return residues_matrix(x->p, x->n, x->r, x->s, b[TABLE].words, b[TABLE].count, b[RESULT].words, b[RESULT].count);
}

static uint64_t run_apply(const numbers *x, const lent *b)
{
    return residues_apply(x->p, x->n, x->r, x->s, b[TABLE].words, b[TABLE].count, b[COLUMN].words, b[COLUMN].count,
                          b[RESULT].words, b[RESULT].count);
}

static uint64_t run_apply_transpose(const numbers *x, const lent *b)
{
    return residues_apply_transpose(x->p, x->n, x->r, x->s, b[TABLE].words, b[TABLE].count, b[COLUMN].words, b[COLUMN].count,
                                    b[RESULT].words, b[RESULT].count);
}

static uint64_t run_transpose(const numbers *x, const lent *b)
{
    return residues_transpose(x->p, x->n, x->r, x->s, b[TABLE].words, b[TABLE].count, b[RESULT].words, b[RESULT].count);
}

static uint64_t run_multiple(const numbers *x, const lent *b)
{
    return residues_multiple(x->p, x->n, x->r, x->s, x->c, b[TABLE].words, b[TABLE].count, b[RESULT].words, b[RESULT].count);
}

static uint64_t run_sum(const numbers *x, const lent *b)
{
    return residues_sum(x->p, x->n, x->r, x->s, x->r2, x->s2, b[TABLE].words, b[TABLE].count, b[SECOND].words, b[SECOND].count,
                        b[RESULT].words, b[RESULT].count);
}

static uint64_t run_product(const numbers *x, const lent *b)
{
    return residues_product(x->p, x->n, x->r, x->s, x->r2, x->s2, b[TABLE].words, b[TABLE].count, b[SECOND].words,
                            b[SECOND].count, b[RESULT].words, b[RESULT].count);
}

static uint64_t run_solve(const numbers *x, const lent *b)
{
    return residues_solve(x->p, x->n, x->r, x->s, b[TABLE].words, b[TABLE].count, b[COLUMN].words, b[COLUMN].count,
                          b[WORK].words, b[WORK].count, b[RESULT].words, b[RESULT].count);
}

static uint64_t run_solve_dense(const numbers *x, const lent *b)
{
    return residues_solve_dense(x->p, x->n, x->r, x->s, b[TABLE].words, b[TABLE].count, b[COLUMN].words, b[COLUMN].count,
                                b[WORK].words, b[WORK].count, b[RESULT].words, b[RESULT].count);
}

static uint64_t run_kernel(const numbers *x, const lent *b)
{
    return residues_kernel(x->p, x->n, x->r, x->s, b[TABLE].words, b[TABLE].count, b[RESULT].words, b[RESULT].count);
}

static uint64_t run_kernel_check(const numbers *x, const lent *b)
{
    return residues_kernel_check(x->p, x->n, x->r, x->s, x->i, b[TABLE].words, b[TABLE].count, b[COLUMN].words, b[COLUMN].count);
}

static uint64_t run_inverse(const numbers *x, const lent *b)
{
    return residues_inverse(x->p, x->n, x->r, x->s, b[TABLE].words, b[TABLE].count, b[RESULT].words, b[RESULT].count);
}

static uint64_t run_read_file(const numbers *x, const lent *b)
{
    (void)x;
    return residues_read_file(b[FILE_BYTES].file, b[FILE_BYTES].count, b[RESULT].words, b[RESULT].count);
}

static uint64_t run_write_file(const numbers *x, const lent *b)
{
    return residues_write_file(x->p, x->n, x->r, x->s, b[TABLE].words, b[TABLE].count, b[FILE_BYTES].file, b[FILE_BYTES].count);
}

static uint64_t run_fractions(const numbers *x, const lent *b)
{
    return residues_fractions(x->p, x->p2, x->n, b[TABLE].words, b[TABLE].count, b[SECOND].words, b[SECOND].count,
                              (int32_t *)b[WORK].words, b[WORK].count, b[RESULT].words, b[RESULT].count);
}

enum { ENTRY, MATRIX, APPLY, APPLY_TRANSPOSE, SOLVE, SOLVE_DENSE, KERNEL, KERNEL_CHECK, TRANSPOSE, MULTIPLE, INVERSE, SUM, PRODUCT,
       READ_FILE, WRITE_FILE, FRACTIONS, CALLS };
static const call calls[CALLS] = {
    {"residues_entry", run_entry, {1, 0, 0, 0, 0, 0}},
    {"residues_matrix", run_matrix, {1, 0, 0, 0, 1, 0}},
    {"residues_apply", run_apply, {1, 0, 1, 0, 1, 0}},
    {"residues_apply_transpose", run_apply_transpose, {1, 0, 1, 0, 1, 0}},
    {"residues_solve", run_solve, {1, 0, 1, 1, 1, 0}},
    {"residues_solve_dense", run_solve_dense, {1, 0, 1, 1, 1, 0}},
    {"residues_kernel", run_kernel, {1, 0, 0, 0, 1, 0}},
    {"residues_kernel_check", run_kernel_check, {1, 0, 1, 0, 0, 0}},
    {"residues_transpose", run_transpose, {1, 0, 0, 0, 1, 0}},
    {"residues_multiple", run_multiple, {1, 0, 0, 0, 1, 0}},
    {"residues_inverse", run_inverse, {1, 0, 0, 0, 1, 0}},
    {"residues_sum", run_sum, {1, 1, 0, 0, 1, 0}},
    {"residues_product", run_product, {1, 1, 0, 0, 1, 0}},
    {"residues_read_file", run_read_file, {0, 0, 0, 0, 1, 1}},
    {"residues_write_file", run_write_file, {1, 0, 0, 0, 0, 1}},
    {"residues_fractions", run_fractions, {1, 1, 0, 1, 1, 0}},
};

static int uses(const call *f, int buffer)
{
    return f->uses[buffer];
}

static inline int reads_file(const call *f)
{
    return f == &calls[READ_FILE];
}

static inline int has_two_primes(const call *f)
{
    return f == &calls[FRACTIONS];
}

static inline int has_square(const call *f)
{
    return f == &calls[SOLVE_DENSE];
}

static inline int is_written(const call *f, int buffer)
{
    return buffer == WORK || buffer == RESULT || (buffer == FILE_BYTES && !reads_file(f));
}

/* ---- failing ---- */

static void fail(const char *what)
{
    printf("%s: %s\n", doing, what);
    exit(1);
}

static void check(int holds, const char *what)
{
    if (!holds)
        fail(what);
}

/* A touch of a page that may not be touched ends here. */
static void touched(int signal_number)
{
    const char *what = signal_number == SIGABRT ? ": the library gave up\n" : ": memory was touched that may not be\n";
    if (write(1, doing, strlen(doing)) < 0 || write(1, what, strlen(what)) < 0)
        _exit(3);
    _exit(2);
}

/* ---- lent memory ---- */

static size_t page(void)
{
    return (size_t)sysconf(_SC_PAGESIZE);
}

static size_t unit(int buffer)
{
    return buffer == FILE_BYTES ? 1 : sizeof(uint32_t);
}

/* A buffer of so many words or bytes, its end or its beginning at a page that may not be touched. */
static lent lend(int buffer, size_t count, int at_end)
{
    lent b;
    size_t inside = (count * unit(buffer) + page() - 1) / page() * page();
    b.bytes = inside + 2 * page();
    b.pages = mmap(NULL, b.bytes, PROT_NONE, MAP_PRIVATE | MAP_ANONYMOUS, -1, 0);
    check(b.pages != MAP_FAILED, "no memory");
    check(inside == 0 || mprotect(b.pages + page(), inside, PROT_READ | PROT_WRITE) == 0, "no memory to write");
    b.file = b.pages + page() + (at_end ? inside - count * unit(buffer) : 0);
    b.words = buffer == FILE_BYTES ? NULL : (uint32_t *)(void *)b.file;
    b.count = count;
    return b;
}

static void only_read(const lent *b)
{
    size_t inside = b->bytes - 2 * page();
    check(inside == 0 || mprotect(b->pages + page(), inside, PROT_READ) == 0, "no memory to read");
}

static void give_back(lent *b)
{
    check(munmap(b->pages, b->bytes) == 0, "memory not given back");
}

/* ---- one case ---- */

/* What is handed in and owed: the units that are needed, and the words owed in what is written where the call accepts. A file is
 * given as words; the first four of one that is read are the numbers. */
typedef struct {
    numbers x;
    const uint32_t *words[BUFFERS];
    size_t needed[BUFFERS];
    uint32_t value;
} problem;

static uint32_t in_head(const numbers *x, size_t place)
{
    const uint32_t head[4] = {x->p, x->n, x->r, x->s};
    return head[place];
}

/* Unit k of the problem's buffer. */
static inline uint32_t given(const call *f, const problem *q, int buffer, size_t k)
{
    if (buffer != FILE_BYTES)
        return q->words[buffer][k];
    return (k < 16 && reads_file(f) ? in_head(&q->x, k / 4) : q->words[buffer][k / 4]) >> 8 * (k % 4) & 255;
}

static inline uint32_t surplus(int buffer)
{
    return buffer == FILE_BYTES ? SURPLUS & 255 : SURPLUS;
}

/* The units before the call: those of the problem, then surplus; what is written is all surplus. */
static inline uint32_t unit_before(const call *f, const problem *q, int buffer, size_t k)
{
    return !is_written(f, buffer) && k < q->needed[buffer] ? given(f, q, buffer, k) : surplus(buffer);
}

/* The units after an accepted call: what is written holds what is owed. */
static inline uint32_t unit_after(const call *f, const problem *q, int buffer, size_t k)
{
    return is_written(f, buffer) && k < q->needed[buffer] ? given(f, q, buffer, k) : unit_before(f, q, buffer, k);
}

static void check_units(const call *f, const problem *q, const lent *b, int buffer, int done)
{
    size_t k;
    for (k = 0; k < b->count; k++) {
        uint32_t owed = done ? unit_after(f, q, buffer, k) : unit_before(f, q, buffer, k);
        uint32_t came = buffer == FILE_BYTES ? b->file[k] : b->words[k];
        if (came != owed) {
            printf("buffer %u, word or byte %lu: owed %u, came %u\n", number_of[buffer], (unsigned long)k, owed, came);
            fail("a wrong word or byte");
        }
    }
}

/* Memory of so many units as they are before the call; what is only read may not be written. */
static lent prepare(const call *f, const problem *q, int buffer, size_t count, int at_end)
{
    lent b = lend(buffer, count, at_end);
    size_t k;
    for (k = 0; k < count; k++) {
        if (buffer == FILE_BYTES)
            b.file[k] = (uint8_t)unit_before(f, q, buffer, k);
        else
            b.words[k] = unit_before(f, q, buffer, k);
    }
    if (!is_written(f, buffer))
        only_read(&b);
    return b;
}

static void note(const call *f, const numbers *x, const lent *b, int at_end)
{
    snprintf(doing, sizeof doing,
             "%s, p %u n %u r %u s %u i %u j %u c %u r2 %u s2 %u p2 %u, counts %lu %lu %lu %lu %lu %lu, at the %s",
             f->name, x->p, x->n, x->r, x->s, x->i, x->j, x->c, x->r2, x->s2, x->p2, (unsigned long)b[TABLE].count,
             (unsigned long)b[SECOND].count, (unsigned long)b[COLUMN].count, (unsigned long)b[WORK].count,
             (unsigned long)b[RESULT].count, (unsigned long)b[FILE_BYTES].count, at_end ? "end" : "beginning");
}

static void check_reply(uint64_t reply, uint64_t owed)
{
    if (reply == owed)
        return;
    printf("owed %u %u %u %u, came %u %u %u %u\n", residues_number(owed), residues_buffer(owed), residues_row(owed),
           residues_value(owed), residues_number(reply), residues_buffer(reply), residues_row(reply), residues_value(reply));
    fail("a wrong reply");
}

/* Whether a buffer is as after an accepted call: a square is so too where the matrix is singular. */
static int is_done(const call *f, int buffer, uint64_t owed)
{
    const uint32_t number = residues_number(owed);
    return number == RESIDUES_OK || (number == RESIDUES_ZERO_PIVOT && has_square(f) && buffer == WORK);
}

/* Runs a call on counts of words and bytes; a count of 0 may be NULL. */
static void try_counts(const call *f, const problem *q, const size_t *counts, int as_null, int at_end, uint64_t owed)
{
    lent b[BUFFERS], handed[BUFFERS];
    int buffer;
    for (buffer = 0; buffer < BUFFERS; buffer++) {
        b[buffer] = prepare(f, q, buffer, uses(f, buffer) ? counts[buffer] : 0, at_end);
        handed[buffer] = b[buffer];
        if (as_null && b[buffer].count == 0) {
            handed[buffer].words = NULL;
            handed[buffer].file = NULL;
        }
    }
    note(f, &q->x, b, at_end);
    check_reply(f->run(&q->x, handed), owed);
    for (buffer = 0; buffer < BUFFERS; buffer++) {
        check_units(f, q, &b[buffer], buffer, is_done(f, buffer, owed));
        give_back(&b[buffer]);
    }
    passed++;
}

static uint64_t refusal(uint32_t number, uint32_t buffer, uint32_t row)
{
    return number + 256u * buffer + 65536u * row;
}

/* Too short where a count is below what is needed, the lowest buffer first; else accepted. A file that is read is exact. */
static uint64_t owed_for(const call *f, const problem *q, const size_t *counts)
{
    int buffer;
    if (reads_file(f) && counts[FILE_BYTES] != q->needed[FILE_BYTES])
        return refusal(RESIDUES_BAD_LENGTH, RESIDUES_FILE, 0);
    for (buffer = 0; buffer < BUFFERS; buffer++)
        if (uses(f, buffer) && counts[buffer] < q->needed[buffer])
            return refusal(RESIDUES_SHORT_BUFFER, number_of[buffer], 0);
    return (uint64_t)q->value << 32;
}

/* Each buffer exact, one unit short, empty and longer, in all combinations. */
static void try_all_counts(const call *f, const problem *q)
{
    int choice, buffer, as_null, at_end;
    for (choice = 0; choice < 4 * 4 * 4 * 4 * 4 * 4; choice++) {
        size_t counts[BUFFERS];
        int rest = choice, repeated = 0, empty = 0;
        for (buffer = 0; buffer < BUFFERS; buffer++, rest /= 4) {
            const size_t needed = q->needed[buffer];
            const size_t choices[4] = {needed, needed - 1, 0, needed + 3};
            const int short_of_none = needed == 0 && rest % 4 == 1;
            counts[buffer] = uses(f, buffer) && !short_of_none ? choices[rest % 4] : 0;
            repeated |= (!uses(f, buffer) && rest % 4 != 0) || short_of_none;
            empty |= uses(f, buffer) && counts[buffer] == 0;
        }
        for (as_null = 0; as_null < 1 + empty && !repeated; as_null++)
            for (at_end = 0; at_end < 2; at_end++)
                try_counts(f, q, counts, as_null, at_end, owed_for(f, q, counts));
    }
}

#define COUNT(list) (sizeof(list) / sizeof *(list))

/* A number out of limits, in buffers of the right counts and in empty ones. */
static void try_refused(const call *f, const problem *q, uint64_t owed)
{
    size_t empty[BUFFERS] = {0, 0, 0, 0, 0, 0};
    try_counts(f, q, q->needed, 1, 1, owed);
    if (reads_file(f))
        empty[FILE_BYTES] = 20;
    try_counts(f, q, empty, 1, 1, owed);
}

static void try_primes_and_sizes(const call *f, const problem *q)
{
    static const uint32_t wrong_p[] = {0, 1, 4, 9, 2047, 2147483648u, 4294967295u};
    static const uint32_t wrong_n[] = {257, 1024, 0, 1025, 65536, 1073741824u, 4294967295u};
    problem wrong = *q;
    size_t k;
    for (k = reads_file(f) ? 1 : 0; k < COUNT(wrong_p); k++, wrong = *q) {
        wrong.x.p = wrong_p[k];
        try_refused(f, &wrong, refusal(RESIDUES_BAD_PRIME, 0, 0));
    }
    for (k = 0; k < 2 * COUNT(wrong_p) && has_two_primes(f); k++, wrong = *q) {
        wrong.x.p2 = wrong_p[k / 2];
        wrong.x.p = k % 2 == 0 ? q->x.p : wrong.x.p2;
        try_refused(f, &wrong, refusal(RESIDUES_BAD_PRIME, 0, 0));
    }
    wrong.x.p2 = wrong.x.p;
    if (has_two_primes(f))
        try_refused(f, &wrong, refusal(RESIDUES_EQUAL_PRIMES, 0, 0));
    for (k = has_square(f) ? 0 : 2, wrong = *q; k < COUNT(wrong_n); k++, wrong = *q) {
        wrong.x.n = wrong_n[k];
        try_refused(f, &wrong, refusal(RESIDUES_BAD_SIZE, 0, 0));
    }
}

static void try_orders(const call *f, const problem *q)
{
    static const uint32_t wrong_order[] = {9, 65535, 65536, 2147483648u, 4294967295u};
    problem wrong = *q;
    size_t k;
    for (k = 0; k < 2 * COUNT(wrong_order); k++, wrong = *q) {
        *(k % 2 == 0 ? &wrong.x.r : &wrong.x.s) = wrong_order[k / 2];
        try_refused(f, &wrong, refusal(RESIDUES_BAD_ORDER, reads_file(f) ? RESIDUES_FILE : RESIDUES_TABLE, 0));
    }
    for (k = 0; k < 2 * COUNT(wrong_order) && uses(f, SECOND); k++, wrong = *q) {
        *(k % 2 == 0 ? &wrong.x.r2 : &wrong.x.s2) = wrong_order[k / 2];
        try_refused(f, &wrong, refusal(RESIDUES_BAD_ORDER, RESIDUES_SECOND_TABLE, 0));
    }
    for (k = 0; k < 2 * 8 && uses(f, SECOND); k++, wrong = *q) {
        *(k % 2 == 0 ? &wrong.x.r : &wrong.x.s) = 1 + (uint32_t)k / 2;
        *(k % 2 == 0 ? &wrong.x.r2 : &wrong.x.s2) = 8 - (uint32_t)k / 2;
        try_refused(f, &wrong, refusal(RESIDUES_BAD_ORDER_SUM, 0, 0));
    }
}

static void try_numbers(const call *f, const problem *q)
{
    problem wrong = *q;
    size_t k;
    try_primes_and_sizes(f, q);
    if (!has_two_primes(f))
        try_orders(f, q);
    for (k = 0; k < 4 && (f == &calls[ENTRY] || f == &calls[KERNEL_CHECK]); k++, wrong = *q) {
        *(k % 2 == 0 || f == &calls[KERNEL_CHECK] ? &wrong.x.i : &wrong.x.j) = k < 2 ? 0 : q->x.n + 1;
        try_refused(f, &wrong, refusal(RESIDUES_BAD_PLACE, 0, 0));
    }
}

static uint32_t *room(size_t count)
{
    uint32_t *words = calloc(count + 1, sizeof *words);
    check(words != NULL, "no memory");
    return words;
}

/* A word that is not below the prime: the last d of a table, the last of the column, and c. */
static void try_words(const call *f, const problem *q)
{
    problem wrong = *q;
    uint32_t *words;
    int buffer;
    for (buffer = TABLE; buffer <= COLUMN; buffer++) {
        if (!uses(f, buffer))
            continue;
        words = malloc(q->needed[buffer] * sizeof *words);
        check(words != NULL, "no memory");
        memcpy(words, q->words[buffer], q->needed[buffer] * sizeof *words);
        words[q->needed[buffer] / q->x.n * (q->x.n - 1)] = has_two_primes(f) && buffer == SECOND ? q->x.p2 : q->x.p;
        wrong.words[buffer] = words;
        try_counts(f, &wrong, q->needed, 0, 1, refusal(RESIDUES_BAD_WORD, number_of[buffer], q->x.n));
        wrong.words[buffer] = q->words[buffer];
        free(words);
    }
    wrong.x.c = q->x.p;
    if (f == &calls[MULTIPLE])
        try_counts(f, &wrong, q->needed, 0, 1, refusal(RESIDUES_BAD_WORD, 0, 0));
}

static void try_whole(const call *f, const problem *q)
{
    try_all_counts(f, q);
    try_numbers(f, q);
    try_words(f, q);
}

static problem problem_of(int which, numbers x, const uint32_t *table, const uint32_t *column, const uint32_t *work,
                          const uint32_t *result, uint32_t value)
{
    problem q;
    memset(&q, 0, sizeof q);
    q.x = x;
    q.words[TABLE] = table;
    q.words[COLUMN] = column;
    q.words[WORK] = work;
    q.words[RESULT] = result;
    q.needed[TABLE] = residues_table_words(x.n, x.r, x.s);
    q.needed[COLUMN] = x.n;
    q.needed[WORK] = (size_t)x.n * (which == SOLVE_DENSE ? x.n : x.s);
    q.needed[FILE_BYTES] = residues_file_bytes(x.n, x.r, x.s);
    q.needed[RESULT] = which == MATRIX ? (size_t)x.n * x.n : which < TRANSPOSE ? x.n : q.needed[TABLE];
    q.value = value;
    return q;
}

static void try_problem(int which, numbers x, const uint32_t *table, const uint32_t *column, const uint32_t *result,
                        uint32_t value)
{
    const problem q = problem_of(which, x, table, column, NULL, result, value);
    try_whole(&calls[which], &q);
}

/* Refused only after every word is known: neither work nor result is written, but for a square. */
static void try_late_refusal(const call *f, const problem *wrong, uint64_t owed)
{
    size_t longer[BUFFERS];
    int buffer, at_end;
    for (buffer = 0; buffer < BUFFERS; buffer++)
        longer[buffer] = wrong->needed[buffer] + 3;
    for (at_end = 0; at_end < 2; at_end++) {
        try_counts(f, wrong, wrong->needed, 0, at_end, owed);
        try_counts(f, wrong, longer, 0, at_end, owed);
    }
    try_counts(f, wrong, wrong->needed, 1, 1, owed);
}

/* The table's words with another d in a row. */
static uint32_t *with_d(numbers x, const uint32_t *table, uint32_t row, uint32_t d)
{
    const size_t width = residues_row_words(x.r, x.s);
    uint32_t *words = room(x.n * width);
    memcpy(words, table, x.n * width * sizeof *words);
    words[width * (row - 1)] = d;
    return words;
}

/* The table with another d in a row, whose pivot is then zero, and with it the whole matrix singular where there is a square. */
static void try_singular(const call *f, const problem *q, uint32_t row, uint32_t d)
{
    problem wrong = *q;
    uint32_t *words = with_d(q->x, q->words[TABLE], row, d);
    wrong.words[TABLE] = words;
    try_late_refusal(f, &wrong, refusal(RESIDUES_ZERO_PIVOT, RESIDUES_TABLE, has_square(f) ? 0 : row));
    free(words);
}

/* Solve or inverse of a table without zero pivots; last_d in the last row would make one. */
static void try_regular(int which, numbers x, const uint32_t *table, const uint32_t *column, const uint32_t *work,
                        const uint32_t *result, uint32_t last_d)
{
    const problem q = problem_of(which, x, table, column, work, result, 0);
    try_whole(&calls[which], &q);
    try_singular(&calls[which], &q, 1, 0);
    try_singular(&calls[which], &q, x.n, last_d);
}

/* A regular matrix, of which last_d in the last row makes a singular one. */
static void try_square(numbers x, const uint32_t *table, const uint32_t *column, const uint32_t *solution, uint32_t last_d)
{
    uint32_t *zeros = room((size_t)x.n * x.n);
    const problem q = problem_of(SOLVE_DENSE, x, table, column, zeros, solution, 0);
    try_whole(&calls[SOLVE_DENSE], &q);
    try_singular(&calls[SOLVE_DENSE], &q, x.n, last_d);
    free(zeros);
}

/* The check of corner k and the column, of which a word is another, gives 0. */
static void try_not_shown(problem q, const uint32_t *column, uint32_t place, uint32_t word)
{
    uint32_t *other = room(q.x.n);
    int at_end;
    memcpy(other, column, q.x.n * sizeof *other);
    other[place - 1] = word;
    q.words[COLUMN] = other;
    for (at_end = 0; at_end < 2; at_end++)
        try_counts(&calls[KERNEL_CHECK], &q, q.needed, 0, at_end, 0);
    free(other);
}

/* The first k words are written and the others stay; the check passes them with zeros behind, and with no other word in their
 * place. The words of the table are given up. */
static void try_kernel(numbers x, uint32_t *table, uint32_t k, const uint32_t *shown)
{
    uint32_t *result = room(x.n), *column = room(x.n), place;
    problem q = problem_of(KERNEL, x, table, NULL, NULL, result, k);
    for (place = 1; place <= x.n; place++)
        result[place - 1] = place <= k ? shown[place - 1] : SURPLUS;
    memcpy(column, shown, k * sizeof *column);
    try_whole(&calls[KERNEL], &q);
    x.i = k;
    q = problem_of(KERNEL_CHECK, x, table, column, NULL, NULL, 1);
    try_whole(&calls[KERNEL_CHECK], &q);
    try_not_shown(q, column, k, 0);
    try_not_shown(q, column, k, x.p - 1 > 1 ? x.p - 1 : 0);
    for (place = 1; place < k; place += 1 + k / 4)
        try_not_shown(q, column, place, column[place - 1] == 0);
    free(table);
    free(result);
    free(column);
}

/* No pivot is zero. */
static void try_no_kernel(numbers x, const uint32_t *table)
{
    const problem q = problem_of(KERNEL, x, table, NULL, NULL, NULL, 0);
    try_late_refusal(&calls[KERNEL], &q, refusal(RESIDUES_REGULAR, RESIDUES_NO_BUFFER, 0));
}

/* One buffer, which may not be written, as both tables. */
static void try_one_buffer_twice(const call *f, const problem *q, int at_end)
{
    lent b[BUFFERS];
    int buffer;
    for (buffer = 0; buffer < BUFFERS; buffer++)
        if (buffer != SECOND)
            b[buffer] = prepare(f, q, buffer, uses(f, buffer) ? q->needed[buffer] : 0, at_end);
    b[SECOND] = b[TABLE];
    note(f, &q->x, b, at_end);
    check_reply(f->run(&q->x, b), 0);
    check_units(f, q, &b[TABLE], TABLE, 1);
    check_units(f, q, &b[WORK], WORK, 1);
    check_units(f, q, &b[RESULT], RESULT, 1);
    for (buffer = 0; buffer < BUFFERS; buffer++)
        if (buffer != SECOND)
            give_back(&b[buffer]);
    passed++;
}

static void try_pair(int which, numbers x, const uint32_t *first, const uint32_t *second, const uint32_t *result)
{
    problem q;
    memset(&q, 0, sizeof q);
    q.x = x;
    q.words[TABLE] = first;
    q.words[SECOND] = second;
    q.words[RESULT] = result;
    q.needed[TABLE] = residues_table_words(x.n, x.r, x.s);
    q.needed[SECOND] = residues_table_words(x.n, x.r2, x.s2);
    q.needed[RESULT] = residues_table_words(x.n, x.r + x.r2, x.s + x.s2);
    try_whole(&calls[which], &q);
    if (first == second) {
        try_one_buffer_twice(&calls[which], &q, 0);
        try_one_buffer_twice(&calls[which], &q, 1);
    }
}

/* ---- row files ---- */

/* A file with one word changed is refused. */
static void try_file_with(const problem *q, size_t place, uint32_t word, uint64_t owed)
{
    const call *f = &calls[READ_FILE];
    problem wrong = *q;
    size_t longer[BUFFERS];
    uint32_t *words = malloc(q->needed[FILE_BYTES]);
    int at_end;
    check(words != NULL, "no memory");
    memcpy(words, q->words[FILE_BYTES], q->needed[FILE_BYTES]);
    words[place] = word;
    wrong.words[FILE_BYTES] = words;
    memcpy(longer, q->needed, sizeof longer);
    longer[RESULT] += 3;
    for (at_end = 0; at_end < 2; at_end++)
        try_counts(f, &wrong, at_end ? q->needed : longer, 0, at_end, owed);
    free(words);
}

/* Every count of bytes to 40 and around the file's own; the file is small. */
static void try_file_counts(const problem *q)
{
    const call *f = &calls[READ_FILE];
    const size_t own = q->needed[FILE_BYTES];
    size_t counts[BUFFERS], k;
    int at_end;
    memcpy(counts, q->needed, sizeof counts);
    for (k = 0; k <= 40 + 9; k++) {
        counts[FILE_BYTES] = k <= 40 ? k : own + k - 45;
        for (at_end = 0; at_end < 2; at_end++)
            try_counts(f, q, counts, 1, at_end, owed_for(f, q, counts));
    }
}

/* A file that is read as the result, its rows 1 and n in the records first and last, and the file that the table is written as. */
static void try_files(numbers x, const uint32_t *table, const uint32_t *result, const uint32_t *read, const uint32_t *written,
                      uint32_t first, uint32_t last)
{
    const size_t record = 1 + residues_row_words(x.r, x.s), start = 5 + (first - 1) * record, end = 5 + (last - 1) * record;
    const uint32_t p = x.p;
    problem q = problem_of(READ_FILE, x, table, NULL, NULL, result, p);
    q.words[FILE_BYTES] = read;
    try_all_counts(&calls[READ_FILE], &q);
    try_numbers(&calls[READ_FILE], &q);
    if (x.n < 1024)
        try_file_counts(&q);
    try_file_with(&q, 4, 0, refusal(RESIDUES_BAD_CHAIN, RESIDUES_FILE, 0));
    try_file_with(&q, 4, x.n + 1, refusal(RESIDUES_BAD_CHAIN, RESIDUES_FILE, 0));
    try_file_with(&q, 4, 4294967295u, refusal(RESIDUES_BAD_CHAIN, RESIDUES_FILE, 0));
    try_file_with(&q, end, first, refusal(RESIDUES_BAD_CHAIN, RESIDUES_FILE, x.n));
    try_file_with(&q, end, 2147483648u, refusal(RESIDUES_BAD_CHAIN, RESIDUES_FILE, x.n));
    if (x.n > 1) {
        try_file_with(&q, start, 0, refusal(RESIDUES_BAD_CHAIN, RESIDUES_FILE, 1));
        try_file_with(&q, start, x.n + 1, refusal(RESIDUES_BAD_CHAIN, RESIDUES_FILE, 1));
        try_file_with(&q, start, first, refusal(RESIDUES_BAD_CHAIN, RESIDUES_FILE, x.n));
    }
    try_file_with(&q, start + 1, p, refusal(RESIDUES_BAD_WORD, RESIDUES_FILE, 1));
    try_file_with(&q, end + 1, p, refusal(RESIDUES_BAD_WORD, RESIDUES_FILE, x.n));
    q.x.p = 0;
    q.value = P;
    try_counts(&calls[READ_FILE], &q, q.needed, 0, 1, (uint64_t)P << 32);
    q = problem_of(WRITE_FILE, x, table, NULL, NULL, NULL, 0);
    q.words[FILE_BYTES] = written;
    try_whole(&calls[WRITE_FILE], &q);
}

/* What the header says of a file's head. */
static void try_head(void)
{
    const uint8_t head[20] = {7, 0, 0, 0, 0xff, 3, 0, 0, 8, 0, 0, 0, 4, 3, 2, 0x81, 1, 0, 0, 0};
    snprintf(doing, sizeof doing, "the numbers in a file's head");
    check(residues_file_size(head) == 1023 && residues_file_lower(head) == 8, "a wrong n or r");
    check(residues_file_upper(head) == 0x81020304u, "a wrong s");
    check(residues_file_bytes(3, 1, 1) == 116 && residues_file_bytes(1024, 8, 8) == 663572, "a wrong count of bytes");
    passed++;
}

/* ---- file M's table ---- */

static void file_m(void)
{
    static const uint32_t table[] = {1, 9, 9, 2, 1, 9, 9, 3, 1, 2, 1, 2, 3, 1, 5, 3, 9, 9, 9, 9, 4};
    static const uint32_t column[] = {1, 2, 3};
    static const uint32_t matrix[] = {1, 1, 5, 2, 3, 1, 5, 3, 5};
    static const uint32_t applied[] = {4, 4, 5};
    static const uint32_t applied_transpose[] = {6, 2, 1};
    static const uint32_t transposed[] = {1, 0, 0, 1, 2, 0, 0, 3, 1, 3, 2, 1, 2, 1, 5, 4, 0, 0, 0, 0, 3};
    static const uint32_t tripled[] = {3, 0, 0, 2, 3, 0, 0, 2, 3, 2, 1, 6, 3, 1, 1, 2, 0, 0, 0, 0, 4};
    static const uint32_t twice[] = {2, 0, 0, 0, 0, 0, 0, 2, 2, 1, 1, 0, 0, 0, 0, 0, 0, /* row 1 */
                                     6, 1, 1, 2, 0, 0, 2, 1, 1, 2, 2, 3, 0, 0, 3, 1, 1, /* row 2 */
                                     3, 3, 3, 0, 0, 0, 0, 0, 0, 0, 0, 0, 0, 0, 0, 4, 4};
    static const uint32_t square[] = {0, 0, 0, 0, 0, 0, 0, 2, 2, 1, 1, 0, 0, 0, 0, 0, 0, /* row 1 */
                                      0, 1, 2, 2, 1, 0, 2, 0, 1, 2, 5, 3, 2, 0, 3, 4, 1, /* row 2 */
                                      4, 3, 1, 0, 0, 0, 0, 0, 0, 0, 0, 0, 0, 0, 0, 6, 4};
    static const uint32_t work[] = {1, 3, 0};
    static const uint32_t inverse[] = {3, 0, 0, 2, 1, 0, 0, 2, 2, 5, 4, 3, 0, 6, 2, 1, 0, 0, 0, 0, 6};
    static const uint32_t read[] = {7, 3, 1, 1, 2, 0, 5, 3, 9, 9, 9, 9, 4, 3, 1, 9, 9, 2, 1, 9, 9, 1, 3, 1, 2, 1, 2, 3, 1};
    static const uint32_t written[] = {7, 3, 1, 1, 1, 2, 1, 0, 0, 2, 1, 0, 0, 3, 3, 1, 2, 1, 2, 3, 1, 0, 5, 3, 0, 0, 0, 0, 4};
    static const uint32_t as_read[] = {1, 0, 0, 2, 1, 0, 0, 3, 1, 2, 1, 2, 3, 1, 5, 3, 0, 0, 0, 0, 4};
    static const uint32_t one[] = {1}, second[] = {6, 1}, third[] = {0, 2, 1};
    const numbers x = {7, 3, 1, 1, 3, 1, 3, 1, 1, 0};
    try_problem(ENTRY, x, table, column, NULL, 5);
    try_problem(MATRIX, x, table, column, matrix, 0);
    try_problem(APPLY, x, table, column, applied, 0);
    try_problem(APPLY_TRANSPOSE, x, table, column, applied_transpose, 0);
    try_problem(TRANSPOSE, x, table, column, transposed, 0);
    try_problem(MULTIPLE, x, table, column, tripled, 0);
    try_regular(SOLVE, x, table, applied, work, column, 1);
    try_square(x, table, applied, column, 1);
    try_no_kernel(x, table);
    try_kernel(x, with_d(x, table, 1, 0), 1, one);
    try_kernel(x, with_d(x, table, 2, 2), 2, second);
    try_kernel(x, with_d(x, table, 3, 1), 3, third);
    try_regular(INVERSE, x, table, NULL, NULL, inverse, 1);
    try_pair(SUM, x, table, table, twice);
    try_pair(PRODUCT, x, table, table, square);
    try_files(x, table, as_read, read, written, 2, 1);
}

/* ---- tables of any size whose matrix is known ---- */

static uint32_t *put(uint32_t *w, size_t count, uint32_t word)
{
    while (count-- > 0)
        *w++ = word;
    return w;
}

static uint32_t *put_identity(uint32_t *w, uint32_t order, int used, uint32_t idle)
{
    uint32_t x, y;
    for (x = 0; x < order; x++)
        for (y = 0; y < order; y++)
            *w++ = used ? x == y : idle;
    return w;
}

/* Of an order, d on the diagonal, order * p below it and order * g above it: q and h are 1, a and b the identity. */
static void fill(uint32_t *w, numbers x, uint32_t d, uint32_t p, uint32_t q, uint32_t g, uint32_t h, uint32_t idle)
{
    uint32_t k;
    for (k = 1; k <= x.n; k++) {
        const int first = k == 1, last = k == x.n;
        w = put(w, 1, d);
        w = put(w, x.r, first ? idle : p);
        w = put_identity(w, x.r, !first && !last, idle);
        w = put(w, x.r, last ? idle : q);
        w = put(w, x.s, last ? idle : g);
        w = put_identity(w, x.s, !first && !last, idle);
        w = put(w, x.s, first ? idle : h);
    }
}

static uint32_t entry_at(numbers x, uint32_t i, uint32_t j)
{
    return i == j ? 5 : i > j ? 2 * x.r : 3 * x.s;
}

static uint32_t times(uint32_t x, uint32_t y)
{
    return (uint32_t)((uint64_t)x * y % P);
}

static uint32_t minus(uint32_t x, uint32_t y)
{
    return x >= y ? x - y : P - y + x;
}

/* 1/x: x to the power P - 2. */
static uint32_t over(uint32_t x)
{
    uint32_t power = 1, left;
    check(x != 0, "a zero pivot in a known table");
    for (left = P - 2; left > 0; left /= 2, x = times(x, x))
        power = left % 2 == 0 ? power : times(power, x);
    return power;
}

/* What a row of such a table has, d 5, p 2, g 3: the pivot, and the residue of which its v, y and the inverse's p and h are full. */
typedef struct {
    uint32_t m, v, y, e, t, u;
} swept;

/* Every residue of f is the same, and every residue of z. */
static void sweep(swept *rows, numbers x)
{
    uint32_t f = 0, z = 0, k;
    for (k = 1; k <= x.n; k++) {
        swept *row = &rows[k - 1];
        const int last = k == x.n;
        const uint32_t pf = k == 1 ? 0 : times(2 * x.r, f);
        row->m = minus(5, times(pf, x.s));
        row->v = last ? 0 : times(minus(3, pf), over(row->m));
        row->y = last ? 0 : times(minus(1, times(x.s, f)), over(row->m));
        f = minus(f, minus(0, times(row->m, times(row->y, row->v))));
    }
    for (k = x.n; k >= 1; k--) {
        swept *row = &rows[k - 1];
        const uint32_t vz = times(times(row->v, x.s), z), zy = times(z, times(x.r, row->y));
        row->e = minus(over(row->m), minus(0, times(times(row->v, x.s), zy)));
        row->t = k == 1 ? 0 : minus(vz, times(2, row->e));
        row->u = k == 1 ? 0 : minus(zy, row->e);
        z = minus(minus(minus(z, times(2, row->u)), times(2, row->e)), row->t);
    }
}

/* v of the rows but the last, then zeros. */
static void fill_work(uint32_t *w, numbers x, const swept *rows)
{
    uint32_t k;
    for (k = 1; k <= x.n; k++)
        w = put(w, x.s, k == x.n ? 0 : rows[k - 1].v);
}

/* The identity less a block that is full of a residue. */
static uint32_t *put_less(uint32_t *w, uint32_t order, int used, uint32_t full)
{
    uint32_t x, y;
    for (x = 0; x < order; x++)
        for (y = 0; y < order; y++)
            *w++ = used ? minus(x == y, full) : 0;
    return w;
}

static void fill_inverse(uint32_t *w, numbers x, const swept *rows)
{
    uint32_t k;
    for (k = 1; k <= x.n; k++) {
        const swept *row = &rows[k - 1];
        const int between = k > 1 && k < x.n;
        w = put(w, 1, row->e);
        w = put(w, x.r, row->t);
        w = put_less(w, x.r, between, times(2, row->y));
        w = put(w, x.r, row->y);
        w = put(w, x.s, row->v);
        w = put_less(w, x.s, between, row->v);
        w = put(w, x.s, row->u);
    }
}

/* Solve, for the column that ones are sent to, and inverse. */
static void known_swept(numbers x, const uint32_t *table, const uint32_t *applied, const uint32_t *ones)
{
    uint32_t *work = room((size_t)x.n * x.s), *inverse = room(residues_table_words(x.n, x.r, x.s));
    swept *rows = calloc(x.n, sizeof *rows);
    check(rows != NULL, "no memory");
    sweep(rows, x);
    fill_work(work, x, rows);
    fill_inverse(inverse, x, rows);
    try_regular(SOLVE, x, table, applied, work, ones, minus(5, rows[x.n - 1].m));
    try_regular(INVERSE, x, table, NULL, NULL, inverse, minus(5, rows[x.n - 1].m));
    free(work);
    free(inverse);
    free(rows);
}

/* A file's words with the rows of a table, in order or backwards. */
static void fill_file(uint32_t *w, numbers x, const uint32_t *table, int backwards)
{
    const size_t words = residues_row_words(x.r, x.s);
    const uint32_t head[5] = {x.p, x.n, x.r, x.s, backwards ? x.n : 1};
    uint32_t m;
    memcpy(w, head, sizeof head);
    for (w += 5, m = 1; m <= x.n; m++, w += 1 + words) {
        w[0] = backwards ? m - 1 : m < x.n ? m + 1 : 0;
        memcpy(w + 1, table + (backwards ? x.n - m : m - 1) * words, words * sizeof *table);
    }
}

/* The table's file written, and read with its records backwards; no word but the idle ones tells. */
static void known_files(numbers x, const uint32_t *table)
{
    const size_t count = residues_file_bytes(x.n, x.r, x.s) / 4;
    uint32_t *result = room(residues_table_words(x.n, x.r, x.s)), *read = room(count), *written = room(count);
    fill(result, x, 5, 2, 1, 3, 1, 0);
    fill_file(read, x, table, 1);
    fill_file(written, x, result, 0);
    try_files(x, table, result, read, written, x.n, 1);
    free(result);
    free(read);
    free(written);
}

/* d 5, p 2, g 3, applied to ones, and solved for ones. */
static void known(uint32_t n, uint32_t r, uint32_t s)
{
    const numbers x = {P, n, r, s, n, 1, P - 1, 0, 0, 0};
    const size_t words = residues_table_words(n, r, s);
    uint32_t *table = room(words), *column = room(n), *square = room((size_t)n * n), *result = room(words);
    uint32_t i, j;
    fill(table, x, 5, 2, 1, 3, 1, 4294967295u);
    put(column, n, 1);
    try_problem(ENTRY, x, table, column, NULL, entry_at(x, n, 1));
    for (i = 1; i <= n; i++)
        for (j = 1; j <= n; j++)
            square[(size_t)(i - 1) * n + j - 1] = entry_at(x, i, j);
    try_problem(MATRIX, x, table, column, square, 0);
    for (i = 1; i <= n; i++)
        result[i - 1] = 5 + (i - 1) * 2 * r + (n - i) * 3 * s;
    try_problem(APPLY, x, table, column, result, 0);
    known_swept(x, table, result, column);
    known_files(x, table);
    for (i = 1; i <= n; i++)
        result[i - 1] = 5 + (i - 1) * 3 * s + (n - i) * 2 * r;
    try_problem(APPLY_TRANSPOSE, x, table, column, result, 0);
    {
        const numbers turned = {P, n, s, r, 1, 1, 1, 0, 0, 0};
        fill(result, turned, 5, 1, 3, 1, 2, 0);
        try_problem(TRANSPOSE, x, table, column, result, 0);
    }
    fill(result, x, P - 5, P - 2, 1, P - 3, 1, 0);
    try_problem(MULTIPLE, x, table, column, result, 0);
    free(table);
    free(column);
    free(square);
    free(result);
}

/* x then y, of so many words each. */
static uint32_t *put_two(uint32_t *w, uint32_t order1, uint32_t order2, int used, uint32_t x, uint32_t y)
{
    return put(put(w, order1, used ? x : 0), order2, used ? y : 0);
}

/* Identities along the diagonal, the corner at upper right, zeros at lower left. */
static uint32_t *put_joined(uint32_t *w, uint32_t order1, uint32_t order2, int used, uint32_t corner)
{
    uint32_t x, y, order = order1 + order2;
    for (x = 0; x < order; x++)
        for (y = 0; y < order; y++)
            *w++ = !used ? 0 : x < order1 && y >= order1 ? corner : x == y;
    return w;
}

/* The sum of a table with d 5, p 2, g 3 and one with d 7, p 4, g 6. */
static void fill_sum(uint32_t *w, numbers x)
{
    uint32_t k;
    for (k = 1; k <= x.n; k++) {
        const int first = k == 1, last = k == x.n;
        w = put(w, 1, 12);
        w = put_two(w, x.r, x.r2, !first, 2, 4);
        w = put_joined(w, x.r, x.r2, !first && !last, 0);
        w = put_two(w, x.r, x.r2, !last, 1, 1);
        w = put_two(w, x.s, x.s2, !last, 3, 6);
        w = put_joined(w, x.s, x.s2, !first && !last, 0);
        w = put_two(w, x.s, x.s2, !first, 1, 1);
    }
}

/* Their product: every residue of X is six times the rows above, every residue of Y four times the rows below. */
static void fill_product(uint32_t *w, numbers x)
{
    uint32_t k;
    for (k = 1; k <= x.n; k++) {
        const int first = k == 1, last = k == x.n;
        const uint32_t of_x = 6 * (k - 1), of_y = 4 * (x.n - k);
        w = put(w, 1, 2 * x.r * of_x * x.s2 + 35 + 3 * x.s * of_y * x.r2);
        w = put_two(w, x.r, x.r2, !first, 2, 20 + 3 * x.s * of_y);
        w = put_joined(w, x.r, x.r2, !first && !last, 4);
        w = put_two(w, x.r, x.r2, !last, of_x * x.s2 + 7, 1);
        w = put_two(w, x.s, x.s2, !last, 3, 2 * x.r * of_x + 30);
        w = put_joined(w, x.s, x.s2, !first && !last, 6);
        w = put_two(w, x.s, x.s2, !first, 7 + of_y * x.r2, 1);
    }
}

/* The sum and the product of two tables whose matrices are known. */
static void known_pair(uint32_t n, uint32_t r1, uint32_t s1, uint32_t r2, uint32_t s2)
{
    const numbers x = {P, n, r1, s1, 1, 1, 1, r2, s2, 0}, y = {P, n, r2, s2, 1, 1, 1, 0, 0, 0};
    uint32_t *first = room(residues_table_words(n, r1, s1)), *second = room(residues_table_words(n, r2, s2));
    uint32_t *result = room(residues_table_words(n, r1 + r2, s1 + s2));
    fill(first, x, 5, 2, 1, 3, 1, 4294967295u);
    fill(second, y, 7, 4, 1, 6, 1, 4294967294u);
    fill_sum(result, x);
    try_pair(SUM, x, first, second, result);
    fill_product(result, x);
    try_pair(PRODUCT, x, first, second, result);
    free(first);
    free(second);
    free(result);
}

/* ---- the dense solve ---- */

/* Row 3 on top of rows 1 and 2, whose first pivot only the last row has, modulo 2 and the largest prime; then zeros alone. */
static void small_squares(void)
{
    static const uint32_t rows[] = {0, 9, 9, 1, 1, 9, 9, 0, 0, 1, 0, 1, 0, 1, 0, 1, 9, 9, 9, 9, 1};
    static const uint32_t bits[] = {0, 1, 1}, solved_bits[] = {1, 0, 1}, column[] = {P - 1, 5, 3}, solution[] = {3, P - 1, 5};
    static const uint32_t zeros[9] = {0};
    const numbers shift = {2, 3, 1, 1, 1, 1, 1, 0, 0, 0}, none = {P, 3, 0, 0, 1, 1, 1, 0, 0, 0};
    const problem singular = problem_of(SOLVE_DENSE, none, zeros, column, zeros, solution, 0);
    problem q = problem_of(SOLVE_DENSE, shift, rows, bits, zeros, solved_bits, 0);
    try_whole(&calls[SOLVE_DENSE], &q);
    q.x.p = P;
    q.words[COLUMN] = column;
    q.words[RESULT] = solution;
    try_whole(&calls[SOLVE_DENSE], &q);
    try_late_refusal(&calls[SOLVE_DENSE], &singular, refusal(RESIDUES_ZERO_PIVOT, RESIDUES_TABLE, 0));
}

/* d 5, p 2, g 3, solved for ones. Then the first d is 0: the first corner is singular, the matrix only where it is triangular. */
static void known_square(uint32_t n, uint32_t r, uint32_t s)
{
    const numbers x = {P, n, r, s, 1, 1, 1, 0, 0, 0};
    uint32_t *table = room(residues_table_words(n, r, s)), *ones = room(n), *column = room(n), *zeros = room((size_t)n * n), i;
    const problem q = problem_of(SOLVE_DENSE, x, table, column, zeros, ones, 0);
    swept *rows = calloc(n, sizeof *rows);
    check(rows != NULL, "no memory");
    sweep(rows, x);
    fill(table, x, 5, 2, 1, 3, 1, 4294967295u);
    put(ones, n, 1);
    for (i = 1; i <= n; i++)
        column[i - 1] = 5 + (i - 1) * 2 * r + (n - i) * 3 * s;
    try_square(x, table, column, ones, minus(5, rows[n - 1].m));
    table[0] = 0;
    column[0] -= 5;
    if (n == 1 || r == 0 || s == 0)
        try_late_refusal(&calls[SOLVE_DENSE], &q, refusal(RESIDUES_ZERO_PIVOT, RESIDUES_TABLE, 0));
    else
        try_whole(&calls[SOLVE_DENSE], &q);
    free(table);
    free(ones);
    free(column);
    free(zeros);
    free(rows);
}

/* ---- the kernel ---- */

/* d 5, p 2, g 3, and another last d, so that the last pivot is zero: each word is -v times what the words after it add up to. */
static void known_kernel(uint32_t n, uint32_t r, uint32_t s)
{
    static const uint32_t one[] = {1};
    const numbers x = {P, n, r, s, 1, 1, 1, 0, 0, 0};
    uint32_t *table = room(residues_table_words(n, r, s)), *shown = room(n), sum = 0, k;
    swept *rows = calloc(n, sizeof *rows);
    check(rows != NULL, "no memory");
    sweep(rows, x);
    fill(table, x, 5, 2, 1, 3, 1, 4294967295u);
    for (k = n; k >= 1; k--) {
        shown[k - 1] = k == n ? 1 : minus(0, times(rows[k - 1].v, times(s, sum)));
        sum = minus(sum, minus(0, shown[k - 1]));
    }
    try_no_kernel(x, table);
    try_kernel(x, with_d(x, table, n, minus(5, rows[n - 1].m)), n, shown);
    try_kernel(x, with_d(x, table, 1, 0), 1, one);
    free(table);
    free(shown);
    free(rows);
}

/* ---- fractions ---- */

/* A place with the residues of the whole number bound + 1, which no fraction within the bound has. */
static void try_without(const problem *q, uint32_t place, uint32_t bound)
{
    problem wrong = *q;
    uint32_t *first = room(q->x.n), *second = room(q->x.n);
    memcpy(first, q->words[TABLE], q->x.n * sizeof *first);
    memcpy(second, q->words[SECOND], q->x.n * sizeof *second);
    first[place - 1] = (bound + 1) % q->x.p;
    second[place - 1] = (bound + 1) % q->x.p2;
    wrong.words[TABLE] = first;
    wrong.words[SECOND] = second;
    try_late_refusal(&calls[FRACTIONS], &wrong, refusal(RESIDUES_NO_FRACTION, 0, place));
    free(first);
    free(second);
}

static void try_fractions(numbers x, uint32_t bound, const uint32_t *first, const uint32_t *second, const uint32_t *numerators,
                          const uint32_t *denominators)
{
    const call *f = &calls[FRACTIONS];
    problem q;
    memset(&q, 0, sizeof q);
    q.x = x;
    q.words[TABLE] = first;
    q.words[SECOND] = second;
    q.words[WORK] = numerators;
    q.words[RESULT] = denominators;
    q.needed[TABLE] = q.needed[SECOND] = q.needed[WORK] = q.needed[RESULT] = x.n;
    try_whole(f, &q);
    try_without(&q, 1, bound);
    try_without(&q, x.n, bound);
    if (first == second) {
        try_one_buffer_twice(f, &q, 0);
        try_one_buffer_twice(f, &q, 1);
    }
}

/* 5/6, -6/5 and 0/1, then whole numbers, whose residues are the same under both primes. */
static void small_fractions(void)
{
    static const uint32_t first[] = {2, 3, 0}, second[] = {10, 1, 0};
    static const uint32_t numerators[] = {5, 4294967290u, 0}, denominators[] = {6, 5, 1};
    static const uint32_t whole[] = {6, 0, 5}, ones[] = {1, 1, 1};
    const numbers x = {7, 3, 0, 0, 0, 0, 0, 0, 0, 11};
    try_fractions(x, 6, first, second, numerators, denominators);
    try_fractions(x, 6, whole, whole, whole, ones);
}

/* k/2 under an odd prime, or -k/2. */
static uint32_t half(uint32_t p, uint32_t k, int negative)
{
    const uint32_t residue = (k % 2 == 0 ? k : k + p) / 2;
    return negative ? p - residue : residue;
}

/* 1/2, 1, -3/2, -2, 5/2, .. in lowest terms. */
static void halves(uint32_t p1, uint32_t p2, uint32_t n, uint32_t bound)
{
    const numbers x = {p1, n, 0, 0, 0, 0, 0, 0, 0, p2};
    uint32_t *first = room(n), *second = room(n), *numerators = room(n), *denominators = room(n), k;
    for (k = 1; k <= n; k++) {
        const int negative = k % 4 == 3 || k % 4 == 0;
        const uint32_t size = k % 2 == 0 ? k / 2 : k;
        first[k - 1] = half(p1, k, negative);
        second[k - 1] = half(p2, k, negative);
        numerators[k - 1] = negative ? 0 - size : size;
        denominators[k - 1] = k % 2 == 0 ? 1 : 2;
    }
    try_fractions(x, bound, first, second, numerators, denominators);
    free(first);
    free(second);
    free(numerators);
    free(denominators);
}

int main(void)
{
    signal(SIGSEGV, touched);
    signal(SIGBUS, touched);
    signal(SIGABRT, touched);
    try_head();
    file_m();
    known(1, 0, 0);
    known(1, 1, 2);
    known(1, 8, 8);
    known(2, 3, 1);
    known(3, 2, 0);
    known(3, 0, 2);
    known(9, 3, 8);
    known(1024, 1, 1);
    known(1024, 8, 8);
    known_pair(1, 0, 0, 0, 0);
    known_pair(1, 1, 2, 3, 1);
    known_pair(1, 4, 4, 4, 4);
    known_pair(2, 3, 1, 2, 2);
    known_pair(3, 8, 0, 0, 8);
    known_pair(3, 0, 8, 8, 0);
    known_pair(1024, 1, 1, 1, 1);
    known_pair(1024, 4, 4, 4, 4);
    known_pair(1024, 3, 6, 5, 2);
    small_squares();
    known_square(1, 0, 0);
    known_square(1, 1, 2);
    known_square(2, 3, 1);
    known_square(3, 2, 0);
    known_square(3, 0, 2);
    known_square(9, 3, 8);
    known_square(255, 1, 1);
    known_square(256, 8, 8);
    known_kernel(1, 0, 0);
    known_kernel(1, 8, 8);
    known_kernel(2, 3, 1);
    known_kernel(3, 2, 0);
    known_kernel(3, 0, 2);
    known_kernel(9, 3, 8);
    known_kernel(1024, 1, 1);
    known_kernel(1024, 8, 8);
    small_fractions();
    halves(5, 3, 1, 2);
    halves(101, 103, 2, 72);
    halves(103, 101, 9, 72);
    halves(P, 2147483629u, 1023, 1518500242u);
    halves(2147483629u, P, 1024, 1518500242u);
    printf("boundary: %lu calls passed\n", passed);
    return 0;
}
