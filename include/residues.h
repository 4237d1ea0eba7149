/* residues: linear algebra modulo a prime on matrices given by generators, and fractions from residues under two primes.
 *
 * A table of N rows, lower order r and upper order s has N * w words, w = 1 + 2r + r*r + 2s + s*s, row by row; a row holds
 * d, p, a, q, g, b, h, blocks row by row. Never used, and of any value: p, a, b, h of row 1 and a, q, g, b of row N.
 * Row 1 is a row like the others: its d and q, g are used.
 *
 * A row file holds a table as bytes, which make little-endian 32-bit words: p (0 means 2147483647), n, r, s, the number of the
 * first record, then n records, numbered from 1, each one word "next" and a row. The chain starts at the first record and
 * follows next, and 0 ends it; the k-th record met is row k.
 *
 * Every call takes any numbers and any buffers, each as a pointer and a count of words, or of bytes for a file, which may lie at
 * any address. A buffer that is written may overlap no other; two that are only read may be the same. A refusal leaves every
 * buffer as it was, with one exception: 7 from residues_solve_dense leaves zeros in the square. Words and bytes past what a call
 * needs are neither read nor written, but a file that is read has its exact length. Calls share nothing, so they may run at the
 * same time. C99, or C++.
 */
#ifndef RESIDUES_H
#define RESIDUES_H

#include <stddef.h>
#include <stdint.h>

/* The version, MAJOR.MINOR.PATCH. MAJOR is in the shared library's name. */
#define RESIDUES_VERSION "1.3.2"
#define RESIDUES_VERSION_MAJOR 1
#define RESIDUES_VERSION_MINOR 3
#define RESIDUES_VERSION_PATCH 2

#ifdef __cplusplus
extern "C" {
#endif

/* The numbers of a reply. */
enum {
    RESIDUES_OK = 0,             /* accepted */
    RESIDUES_BAD_PRIME = 1,      /* p, or p1 or p2, is no prime from 2 to 2147483647 */
    RESIDUES_BAD_SIZE = 2,       /* n is not 1 to 1024, or for residues_solve_dense not 1 to 256 */
    RESIDUES_BAD_ORDER = 3,      /* an order above 8; beside it the table's buffer, or the file's */
    RESIDUES_SHORT_BUFFER = 4,   /* a buffer shorter than needed; beside it the lowest such buffer */
    RESIDUES_BAD_WORD = 5,       /* a word is not below its prime; beside it the lowest such buffer and its first such row; 0, 0: c */
    RESIDUES_BAD_ORDER_SUM = 6,  /* orders that add up to more than 8 */
    RESIDUES_ZERO_PIVOT = 7,     /* a leading corner is singular; beside it 1 and the least such row; 1, 0: the whole matrix is (solve_dense) */
    RESIDUES_BAD_PLACE = 8,      /* i or j, or k, is not 1 to n */
    RESIDUES_BAD_LENGTH = 9,     /* a file under 20 bytes, or of the wrong length; beside it 6 */
    RESIDUES_BAD_CHAIN = 10,     /* a file's chain is wrong; beside it 6 and the rows read so far */
    RESIDUES_EQUAL_PRIMES = 11,  /* p1 and p2 are the same prime */
    RESIDUES_NO_FRACTION = 12,   /* two residues have no fraction within the bound; beside it 0 and the first such place */
    RESIDUES_REGULAR = 13        /* no leading corner is singular (kernel) */
};

/* The buffers that a reply names. */
enum {
    RESIDUES_NO_BUFFER = 0,
    RESIDUES_TABLE = 1,
    RESIDUES_SECOND_TABLE = 2,
    RESIDUES_COLUMN = 3,
    RESIDUES_WORK = 4,
    RESIDUES_RESULT = 5,
    RESIDUES_FILE = 6
};

/* Those of residues_fractions. */
enum {
    RESIDUES_FIRST_RESIDUES = 1,
    RESIDUES_SECOND_RESIDUES = 2,
    RESIDUES_NUMERATORS = 4,
    RESIDUES_DENOMINATORS = 5
};

/* That of residues_solve_dense where residues_solve has work. */
enum {
    RESIDUES_SQUARE = 4
};

/* A reply taken apart. */
static inline uint32_t residues_number(uint64_t reply) { return (uint32_t)(reply & 255u); }
static inline uint32_t residues_buffer(uint64_t reply) { return (uint32_t)(reply >> 8 & 255u); }
static inline uint32_t residues_row(uint64_t reply) { return (uint32_t)(reply >> 16 & 65535u); }
static inline uint32_t residues_value(uint64_t reply) { return (uint32_t)(reply >> 32); }

/* The words of a row, and of a table of n rows. */
static inline size_t residues_row_words(uint32_t r, uint32_t s) { return 1 + 2 * (size_t)r + (size_t)r * r + 2 * (size_t)s + (size_t)s * s; }
static inline size_t residues_table_words(uint32_t n, uint32_t r, uint32_t s) { return (size_t)n * residues_row_words(r, s); }

/* The bytes of a row file. */
static inline size_t residues_file_bytes(uint32_t n, uint32_t r, uint32_t s) { return 4 * (5 + (size_t)n * (1 + residues_row_words(r, s))); }

/* The numbers n, r and s in the head of a file, of which at least 20 bytes are lent. They are as the file has them, within limits
 * or not: test them before you lend n * w words. residues_table_words(1024, 8, 8) words are enough for every file. */
static inline uint32_t residues_file_word(const uint8_t *file, size_t place)
{
    const uint8_t *b = file + 4 * place;
    return (uint32_t)b[0] | (uint32_t)b[1] << 8 | (uint32_t)b[2] << 16 | (uint32_t)b[3] << 24;
}
static inline uint32_t residues_file_size(const uint8_t *file) { return residues_file_word(file, 1); }
static inline uint32_t residues_file_lower(const uint8_t *file) { return residues_file_word(file, 2); }
static inline uint32_t residues_file_upper(const uint8_t *file) { return residues_file_word(file, 3); }

/* The entry at (i, j), from 1, as the reply's value. Reads the table. Refuses 1, 2, 3, 8, 4, 5. */
uint64_t residues_entry(uint32_t p, uint32_t n, uint32_t r, uint32_t s, uint32_t i, uint32_t j,
                        const uint32_t *table, size_t table_len);

/* The whole matrix, n * n words, row by row, to the result. Reads the table. Refuses 1, 2, 3, 4, 5. */
uint64_t residues_matrix(uint32_t p, uint32_t n, uint32_t r, uint32_t s,
                         const uint32_t *table, size_t table_len, uint32_t *result, size_t result_len);

/* The table times the column, n words, to the result. Reads the table and the column. Refuses 1, 2, 3, 4, 5. */
uint64_t residues_apply(uint32_t p, uint32_t n, uint32_t r, uint32_t s,
                        const uint32_t *table, size_t table_len, const uint32_t *column, size_t column_len,
                        uint32_t *result, size_t result_len);

/* The transposed table times the column, n words, to the result. Reads the table and the column. Refuses 1, 2, 3, 4, 5. */
uint64_t residues_apply_transpose(uint32_t p, uint32_t n, uint32_t r, uint32_t s,
                                  const uint32_t *table, size_t table_len, const uint32_t *column, size_t column_len,
                                  uint32_t *result, size_t result_len);

/* The transposed table, of orders s and r, to the result: as many words as the table has. Reads the table. Refuses 1, 2, 3, 4, 5. */
uint64_t residues_transpose(uint32_t p, uint32_t n, uint32_t r, uint32_t s,
                            const uint32_t *table, size_t table_len, uint32_t *result, size_t result_len);

/* The table of c times the matrix, of the same orders, to the result. Reads the table. Refuses 1, 2, 3, 4, 5 (c first: 0, 0). */
uint64_t residues_multiple(uint32_t p, uint32_t n, uint32_t r, uint32_t s, uint32_t c,
                           const uint32_t *table, size_t table_len, uint32_t *result, size_t result_len);

/* The table of the sum of two matrices, of orders r1 + r2 and s1 + s2, to the result. Reads both tables, which may be the same
 * buffer. Refuses 1, 2, 3, 6, 4, 5. */
uint64_t residues_sum(uint32_t p, uint32_t n, uint32_t r1, uint32_t s1, uint32_t r2, uint32_t s2,
                      const uint32_t *first, size_t first_len, const uint32_t *second, size_t second_len,
                      uint32_t *result, size_t result_len);

/* The table of the first matrix times the second, of orders r1 + r2 and s1 + s2, to the result. Reads both tables, which may be
 * the same buffer. Refuses 1, 2, 3, 6, 4, 5. */
uint64_t residues_product(uint32_t p, uint32_t n, uint32_t r1, uint32_t s1, uint32_t r2, uint32_t s2,
                          const uint32_t *first, size_t first_len, const uint32_t *second, size_t second_len,
                          uint32_t *result, size_t result_len);

/* The column that the table sends to the given column, n words, to the result. Reads the table and the column. Work lends n * s
 * words, so it may be NULL and empty where s is 0; it is not read, and holds v of rows 1 to n - 1 afterwards, then s zeros.
 * Refuses 1, 2, 3, 4, 5, 7: 7 where the leading k by k corner is singular for some k, beside it 1 and the least such k. Where that k is
 * below n the matrix may still have an inverse: for n to 256 ask residues_solve_dense then. residues_kernel shows the dependence. */
uint64_t residues_solve(uint32_t p, uint32_t n, uint32_t r, uint32_t s,
                        const uint32_t *table, size_t table_len, const uint32_t *column, size_t column_len,
                        uint32_t *work, size_t work_len, uint32_t *result, size_t result_len);

/* The only column that the table sends to the given column, n words, to the result, for n to 256, also where a leading corner is
 * singular and the whole matrix is not. Reads the table and the column. Square lends n * n words; it is not read, and holds n * n
 * zeros afterwards, on 7 as well, which is the one refusal that writes; every other leaves it, and each leaves the result. Refuses 1,
 * 2, 3, 4, 5, 7: 2 where n is not 1 to 256; 7 where the whole matrix is singular, that is, sends some column, not all zeros, to zeros,
 * beside it 1 and row 0. Where residues_solve accepts too, both results are equal. It takes about n * n * n / 3 multiplications. */
uint64_t residues_solve_dense(uint32_t p, uint32_t n, uint32_t r, uint32_t s,
                              const uint32_t *table, size_t table_len, const uint32_t *column, size_t column_len,
                              uint32_t *square, size_t square_len, uint32_t *result, size_t result_len);

/* The table of the inverse matrix, of the same orders, to the result: as many words as the table has. Reads the table.
 * Refuses 1, 2, 3, 4, 5, 7, and 7 as residues_solve: also some matrices that have an inverse, and some tables that this call has
 * written. */
uint64_t residues_inverse(uint32_t p, uint32_t n, uint32_t r, uint32_t s,
                          const uint32_t *table, size_t table_len, uint32_t *result, size_t result_len);

/* How the columns of a singular corner depend on each other. With k the least for which the leading k by k corner is singular, which is
 * the row beside 7 of residues_solve and residues_inverse: k residues, the last of them 1, which that corner sends to zeros, to the
 * result, and k as the reply's value. There is only one such column of residues. In the first k rows, column k of the matrix is minus
 * the sum of the columns before it, each times its residue. The result lends n words, and those after the k-th keep their contents:
 * clear it first, all n words, since residues_kernel_check looks at all n. Reads the table. Refuses 1, 2, 3, 4, 5, 13: 13 where no
 * leading corner is singular, beside it 0 and 0. */
uint64_t residues_kernel(uint32_t p, uint32_t n, uint32_t r, uint32_t s,
                         const uint32_t *table, size_t table_len, uint32_t *result, size_t result_len);

/* Whether word k of the column, from 1, is 1 and the leading k by k corner sends the first k words to zeros: the reply's value is 1 where
 * both hold, else 0. For any k from 1 to n and any column, whoever made it. 1 says that the corner is singular; 0 does not say that it is
 * not. Reads the table and the column, all n words of it, and writes nothing. Refuses 1, 2, 3, 8, 4, 5: 5 for words after the k-th too. */
uint64_t residues_kernel_check(uint32_t p, uint32_t n, uint32_t r, uint32_t s, uint32_t k,
                               const uint32_t *table, size_t table_len, const uint32_t *column, size_t column_len);

/* The table of a row file, n * w words of the file's own n, r and s, to the result, its idle words 0; the reply's value is p.
 * Reads the file, whose length is residues_file_bytes of its own n, r and s exactly. Refuses 9 (under 20 bytes), 1, 2, 3, 9
 * (another length), 4, 10, 5: 10 where a number of the chain is above n, 0 before n rows, or not 0 after n, beside it 6 and the
 * rows read so far; 5 beside 6 and the first such row in the order of the chain. */
uint64_t residues_read_file(const uint8_t *file, size_t file_len, uint32_t *result, size_t result_len);

/* The row file of the table, residues_file_bytes(n, r, s) bytes, to the file: p in full, first record 1, records in the order of
 * the rows, idle words 0. Reads the table. Refuses 1, 2, 3, 4, 5. */
uint64_t residues_write_file(uint32_t p, uint32_t n, uint32_t r, uint32_t s,
                             const uint32_t *table, size_t table_len, uint8_t *file, size_t file_len);

/* The fractions of n pairs of residues, first under p1 and second under p2, two different primes: n numerators and n denominators.
 * With M = p1 * p2 and B the largest whole number with 2 * B * B below M, a numerator is -B to B, its denominator 1 to B and
 * divisible by neither prime, they have no common divisor above 1, and under each prime the numerator is congruent to denominator
 * times residue. There is at most one such fraction; that of 0 and 0 is 0 / 1. The two largest primes, 2147483647 and
 * 2147483629, give the largest B, 1518500242. Reads first and second, which may be the same buffer. Refuses 1, 11, 2, 4, 5, 12:
 * 1 where p1 or p2 is no prime from 2 to 2147483647; 4 names 1 (first), 2 (second), 4 (numerators) or 5 (denominators); 5 names 1,
 * a word of first not below p1, or 2, one of second not below p2, and the first such place; 12 where some place has no such
 * fraction, beside it 0 and the first such place, from 1. A fraction is a problem's answer only where that answer is within the
 * bound; else 12 comes, or another fraction: put it into the problem's own equations. */
uint64_t residues_fractions(uint32_t p1, uint32_t p2, uint32_t n,
                            const uint32_t *first, size_t first_len, const uint32_t *second, size_t second_len,
                            int32_t *numerators, size_t numerators_len, uint32_t *denominators, size_t denominators_len);

#ifdef __cplusplus
}
#endif

#endif
