/* The library's answers on tables as printed, for dense_check to judge; they go to standard output as decimal words.
 *     answers matrix TABLE
 *     answers solution TABLE COLUMN
 *     answers dense TABLE COLUMN      the solution by the dense solve, for N to 256
 *     answers kernel TABLE            the column of the first singular corner, as many words as it has rows
 *     answers product FIRST SECOND FILE
 *     answers inverse TABLE FILE
 * A table that is written goes to FILE too, as bytes. A refusal prints "refused" and its three numbers. An option before the name
 * misreads each table on purpose: --heading takes row one for a heading, so that row two is the first and the last stands twice;
 * --file-order takes the records in the order of the file, not of the chain. */
#include <inttypes.h>
#include <stdio.h>
#include <stdlib.h>
#include <string.h>

#include "residues.h"

#define ROWS 1024
#define HEAD 5
#define WORDS ((size_t)ROWS * 161)
#define WORK ((size_t)256 * 256) /* as many as either solve may need */
#define FILE_WORDS (HEAD + (size_t)ROWS * 162)

typedef struct {
    uint32_t p, n, r, s;
    uint32_t words[WORDS];
} table;

static const char *misreading = "";

static int misread(const char *how)
{
    return strcmp(misreading, how) == 0;
}

static void fail(const char *what)
{
    fprintf(stderr, "answers: %s\n", what);
    exit(2);
}

/* A refusal is an answer too. */
static void owe_accepted(uint64_t reply)
{
    if (residues_number(reply) != RESIDUES_OK) {
        printf("refused %u %u %u\n", residues_number(reply), residues_buffer(reply), residues_row(reply));
        exit(0);
    }
}

/* ---- print and bytes ---- */

static size_t read_print(const char *path, uint32_t *words, size_t most)
{
    FILE *input = fopen(path, "r");
    size_t count = 0;
    if (input == NULL) {
        fail(path);
    }
    while (count < most && fscanf(input, " %" SCNu32 " ;", &words[count]) == 1) {
        count++;
    }
    if (!feof(input)) {
        fail("print that has more than decimal words");
    }
    fclose(input);
    return count;
}

static void put_bytes(const uint32_t *words, size_t count, uint8_t *bytes)
{
    for (size_t place = 0; place < 4 * count; place++) {
        bytes[place] = (uint8_t)(words[place / 4] >> 8 * (place % 4));
    }
}

/* The records chained one after the other, whatever the chain was. */
static void chain_in_file_order(uint32_t *words, uint32_t n, size_t row)
{
    words[HEAD - 1] = 1;
    for (uint32_t k = 1; k <= n; k++) {
        words[HEAD + (k - 1) * (1 + row)] = k < n ? k + 1 : 0;
    }
}

/* Reads a printed table by the library, from bytes. */
static void read_table(const char *path, table *t)
{
    static uint32_t words[FILE_WORDS];
    static uint8_t bytes[4 * FILE_WORDS];
    const size_t count = read_print(path, words, FILE_WORDS);
    t->n = words[1];
    t->r = words[2];
    t->s = words[3];
    if (4 * count != residues_file_bytes(t->n, t->r, t->s)) {
        fail("a table of another length");
    }
    const size_t row = residues_row_words(t->r, t->s);
    if (misread("--file-order")) {
        chain_in_file_order(words, t->n, row);
    }
    put_bytes(words, count, bytes);
    const uint64_t reply = residues_read_file(bytes, 4 * count, t->words, WORDS);
    owe_accepted(reply);
    t->p = residues_value(reply);
    if (misread("--heading")) {
        memmove(t->words, t->words + row, (t->n - 1) * row * sizeof(uint32_t));
    }
}

static void print_words(const uint32_t *words, size_t count, size_t line)
{
    for (size_t place = 0; place < count; place++) {
        printf("%u%c", words[place], (place + 1) % line == 0 ? '\n' : ' ');
    }
}

/* Writes the table by the library, to the file as bytes and to standard output as print. */
static void write_table(const char *path, const table *t)
{
    static uint32_t words[FILE_WORDS];
    static uint8_t bytes[4 * FILE_WORDS];
    const size_t count = residues_file_bytes(t->n, t->r, t->s);
    owe_accepted(residues_write_file(t->p, t->n, t->r, t->s, t->words, WORDS, bytes, count));
    FILE *output = fopen(path, "wb");
    if (output == NULL || fwrite(bytes, 1, count, output) != count || fclose(output) != 0) {
        fail(path);
    }
    for (size_t place = 0; place < count / 4; place++) {
        words[place] = residues_file_word(bytes, place);
    }
    print_words(words, HEAD, HEAD);
    print_words(words + HEAD, count / 4 - HEAD, 1 + residues_row_words(t->r, t->s));
}

/* ---- the answers ---- */

static table first, second, result;

static void answer_matrix(char **paths)
{
    static uint32_t matrix[ROWS * ROWS];
    read_table(paths[0], &first);
    owe_accepted(residues_matrix(first.p, first.n, first.r, first.s, first.words, WORDS, matrix, ROWS * ROWS));
    print_words(matrix, (size_t)first.n * first.n, first.n);
}

/* residues_solve, or another with the same parameters. */
typedef uint64_t solver(uint32_t p, uint32_t n, uint32_t r, uint32_t s, const uint32_t *table, size_t table_len,
                        const uint32_t *column, size_t column_len, uint32_t *work, size_t work_len, uint32_t *result,
                        size_t result_len);

/* The solution is applied to the same table, as a program that trusts its reader would: that check passes however the table was
 * misread. */
static void answer_by(solver *solve, char **paths)
{
    static uint32_t column[ROWS + 1], solution[ROWS], again[ROWS], work[WORK];
    const table *t = &first;
    read_table(paths[0], &first);
    if (read_print(paths[1], column, ROWS + 1) != t->n) {
        fail("a column of another length");
    }
    owe_accepted(solve(t->p, t->n, t->r, t->s, t->words, WORDS, column, t->n, work, WORK, solution, ROWS));
    owe_accepted(residues_apply(t->p, t->n, t->r, t->s, t->words, WORDS, solution, t->n, again, ROWS));
    if (memcmp(again, column, t->n * sizeof(uint32_t)) != 0) {
        fail("the table does not send the solution to the column");
    }
    print_words(solution, t->n, t->n);
}

static void answer_solution(char **paths)
{
    answer_by(residues_solve, paths);
}

static void answer_dense(char **paths)
{
    answer_by(residues_solve_dense, paths);
}

/* The column passes the library's own check on the same table, however that was misread. */
static void answer_kernel(char **paths)
{
    static uint32_t column[ROWS];
    const table *t = &first;
    read_table(paths[0], &first);
    const uint64_t reply = residues_kernel(t->p, t->n, t->r, t->s, t->words, WORDS, column, ROWS);
    owe_accepted(reply);
    const uint32_t k = residues_value(reply);
    const uint64_t shown = residues_kernel_check(t->p, t->n, t->r, t->s, k, t->words, WORDS, column, ROWS);
    owe_accepted(shown);
    if (residues_value(shown) != 1) {
        fail("the column does not pass the check");
    }
    print_words(column, k, k);
}

static void answer_product(char **paths)
{
    const table *a = &first, *b = &second;
    read_table(paths[0], &first);
    read_table(paths[1], &second);
    owe_accepted(residues_product(a->p, a->n, a->r, a->s, b->r, b->s, a->words, WORDS, b->words, WORDS, result.words, WORDS));
    result.p = a->p;
    result.n = a->n;
    result.r = a->r + b->r;
    result.s = a->s + b->s;
    write_table(paths[2], &result);
}

static void answer_inverse(char **paths)
{
    const table *t = &first;
    read_table(paths[0], &first);
    owe_accepted(residues_inverse(t->p, t->n, t->r, t->s, t->words, WORDS, result.words, WORDS));
    result.p = t->p;
    result.n = t->n;
    result.r = t->r;
    result.s = t->s;
    write_table(paths[1], &result);
}

int main(int count, char **arguments)
{
    static const struct {
        const char *name;
        int files;
        void (*answer)(char **paths);
    } answers[] = {{"matrix", 1, answer_matrix},
                   {"solution", 2, answer_solution},
                   {"dense", 2, answer_dense},
                   {"kernel", 1, answer_kernel},
                   {"product", 3, answer_product},
                   {"inverse", 2, answer_inverse}};
    if (count > 1 && strncmp(arguments[1], "--", 2) == 0) {
        misreading = arguments[1];
        count--;
        arguments++;
        if (!misread("--heading") && !misread("--file-order")) {
            fail("no such misreading");
        }
    }
    for (size_t a = 0; a < sizeof answers / sizeof *answers; a++) {
        if (count == 2 + answers[a].files && strcmp(arguments[1], answers[a].name) == 0) {
            answers[a].answer(arguments + 2);
            return 0;
        }
    }
    fail("answers [--heading|--file-order] matrix|solution|dense|kernel|product|inverse FILES");
}
