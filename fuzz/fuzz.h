/* What the parts of the fuzzing program share: calls and buffers, the layout of a table, a trial, the model's answer. */
#ifndef FUZZ_H
#define FUZZ_H

#include <stddef.h>
#include <stdint.h>

#define LARGEST_PRIME 2147483647u
#define LARGEST_SIZE 1024u
#define LARGEST_SQUARE 256u
#define LARGEST_ORDER 8u

/* Up to this size everything is compared with dense matrices; up to this bound, too, every pair is tried as a fraction; up to so
 * many columns all are tried as solutions. */
#define DENSE_SIZE 16u
#define DENSE_BOUND 128u
#define DENSE_COLUMNS 4096u

/* The most bytes that a buffer is lent: a matrix of 1,024 rows and some words more. */
#define MOST_BYTES ((size_t)1 << 22 | 4096u)

/* The numbers of a refusal. */
enum { ACCEPTED, BAD_PRIME, BAD_SIZE, BAD_ORDER, SHORT_BUFFER, BAD_WORD, BAD_ORDER_SUM, ZERO_PIVOT, BAD_PLACE, BAD_LENGTH,
       BAD_CHAIN, EQUAL_PRIMES, NO_FRACTION, REGULAR, REPLIES };

enum { ENTRY, MATRIX, APPLY, APPLY_TRANSPOSE, TRANSPOSE, MULTIPLE, SUM, PRODUCT, SOLVE, INVERSE, READ_FILE, WRITE_FILE, FRACTIONS,
       SOLVE_DENSE, KERNEL, KERNEL_CHECK, CALLS };

/* The buffers; a reply names each by one number more. Of fractions both columns of residues are tables of orders 0, each with its
 * own prime, numerators are the work and denominators the result. The square of the dense solve is the work too. */
enum { TABLE, SECOND, COLUMN, WORK, RESULT, FILE_BYTES, BUFFERS };

/* The generators of a row in their order. */
enum { D, P, A, Q, G, B, H, KINDS };

/* The prime, the size and the orders of a table. */
typedef struct {
    uint32_t p, n, r, s;
} shape;

typedef struct {
    shape of;
    const uint32_t *words;
} table;

/* One call: its numbers, and each buffer's units, words or the bytes of a file, before it. Of the kernel's check i is k. */
typedef struct {
    int call;
    shape first, second;
    uint32_t i, j, c;
    int same, empty_is_null;
    size_t count[BUFFERS];
    void *before[BUFFERS];
} trial;

/* What is owed: the reply; of an accepted call the units that it needs; how many units of each buffer are written, and every one of
 * these afterwards. Where the result is judged, its words are not owed outright: judge says whether they do. */
typedef struct {
    uint64_t reply;
    size_t needed[BUFFERS], written[BUFFERS];
    int judged;
    void *after[BUFFERS];
} answer;

/* A numerator and a denominator. */
typedef struct {
    int64_t n, d;
} fraction;

/* decode.c, fill.c */
typedef struct {
    const uint8_t *at, *end;
} reader;
uint32_t next_byte(reader *in);
uint32_t next_word(reader *in);
uint32_t scramble(uint32_t x);
void decode(trial *t, const uint8_t *data, size_t size);
void fill_table(reader *in, shape of, uint32_t *words);
void fill_words(reader *in, uint32_t p, uint32_t *words, size_t count);
void aim_pivots(reader *in, shape of, uint32_t *words, int to_last);
void aim_exchanges(reader *in, shape of, uint32_t *words);
void aim_shown(reader *in, shape of, const uint32_t *words, uint32_t *column, uint32_t *k);
void aim_fractions(reader *in, shape one, shape two, uint32_t *first, uint32_t *second);
void fill_spots(reader *in, shape of, uint32_t count_of_spots, uint32_t *words, size_t count);
void fill_file(reader *in, trial *t);
shape within_limits(shape of);

/* layout.c */
uint32_t row_words(shape of);
size_t table_words(shape of);
size_t file_bytes(shape of);
uint32_t rows_of(shape of, int kind);
uint32_t columns_of(shape of, int kind);
uint32_t start_of(shape of, int kind);
int is_idle(shape of, uint32_t k, int kind);
int is_idle_word(shape of, uint32_t k, uint32_t place);
uint32_t at(const table *t, uint32_t k, int kind, uint32_t x, uint32_t y);
shape joined(shape x, shape y);
shape turned(shape x);

/* calls.c */
extern const char *const call_names[CALLS];
int uses(int call, int buffer);
int is_written(int call, int buffer);
int refuses(int call, int number);
uint32_t largest_size(int call);
size_t unit(int buffer);
size_t needed_units(const trial *t, int buffer);
uint64_t run_call(const trial *t, void *const *lent);

/* dense.c, sweeps.c */
uint32_t times(uint32_t p, uint32_t x, uint32_t y);
uint32_t plus(uint32_t p, uint32_t x, uint32_t y);
uint32_t minus(uint32_t p, uint32_t x, uint32_t y);
uint32_t over(uint32_t p, uint32_t x);
uint32_t entry(const table *t, uint32_t i, uint32_t j);
void matrix_of(const table *t, uint32_t *matrix);
void dense_sends(const uint32_t *matrix, uint32_t p, uint32_t n, const uint32_t *x, uint32_t *y);
uint32_t dense_solve(uint32_t *matrix, uint32_t p, uint32_t n, uint32_t *column);
uint32_t exchange_solve(uint32_t *matrix, uint32_t p, uint32_t n, uint32_t *column, uint32_t *exchanges);
void sends(const table *t, const uint32_t *x, uint32_t *y);
void column_of(const table *t, uint32_t j, uint32_t *y);
uint32_t first_zero(const table *t);
void kernel_of(const table *t, uint32_t row, uint32_t *x);

/* A sweep of pivots: f before a row, then the row's pivot m, its v and y. */
typedef struct {
    uint32_t f[LARGEST_ORDER][LARGEST_ORDER], m, v[LARGEST_ORDER], y[LARGEST_ORDER];
} sweep;
void meet_pivot(const table *t, uint32_t k, sweep *w);
void leave_row(const table *t, uint32_t k, sweep *w);

/* exchanges.c */
int has_few_columns(uint32_t p, uint32_t n);
int next_column(uint32_t p, uint32_t n, uint32_t *x);
uint32_t solve_whole(const trial *t, uint32_t *column, uint32_t *exchanges);
uint32_t column_without(const trial *t);

/* kernels.c */
int shows(const trial *t, uint32_t k, const uint32_t *x);
void dense_kernel(const trial *t, uint32_t k, uint32_t *x);

/* fractions.c */
uint32_t bound_of(uint32_t p1, uint32_t p2);
fraction shortest_at(const trial *t, uint32_t k);
uint32_t place_without(const trial *t);
void put_fractions(const trial *t, int32_t *numerators, uint32_t *denominators);

/* refusals.c, rowfile.c, answers.c, judge.c */
uint64_t packed(uint32_t number, uint32_t buffer, uint32_t row, uint32_t value);
int is_prime(uint32_t p);
table table_in(const trial *t, int buffer);
uint32_t bad_row(const table *in);
uint32_t bad_column_row(const trial *t);
uint64_t refusal(const trial *t);
uint64_t first_refusal(shape of, int buffer, uint32_t largest);
uint32_t file_word(const uint8_t *file, size_t place);
shape file_shape(const uint8_t *file);
uint32_t follow(shape of, const uint8_t *file, uint32_t *numbers);
uint64_t file_refusal(const trial *t);
void read_rows(shape of, const uint8_t *file, uint32_t *result);
void write_rows(const table *t, uint8_t *file);
uint32_t zero_pivot(const trial *t);
void work_out(const trial *t, answer *owed);
int judge(const trial *t, const uint32_t *result);

/* classes.c: a byte of seen for each class; those of the kernel, of the dense solve and of fractions are the last. */
#define CLASSES 22095u
#define KERNEL_CLASSES 339u
#define WHOLE_CLASSES 172u
#define FRACTION_CLASSES 864u
void mark_classes(const trial *t, const answer *owed, uint8_t *seen);

/* lent.c, check.c */
void open_arenas(void);
void *lend(int buffer, size_t bytes, int at_end);
void only_read(int buffer, size_t bytes, int at_end, int yes);
extern unsigned long tally[CALLS][REPLIES], shown[2];
extern char doing[300];
void check_input(const uint8_t *data, size_t size, uint8_t *seen);
void print_tally(void);

/* coverage.c */
void note_edges(void);
void print_edges(void);

#endif
