/* Prints the matrix of a row file and writes the row files of its transpose and of its inverse:
 * files TRANSPOSED INVERSE [FILE]; without FILE it reads standard input. */
#include <stdlib.h>

#include "refusal.h"
#include "residues.h"

/* The words and bytes of the largest table and file: N 1,024, orders 8 and 8. */
#define ROWS 1024
#define WORDS ((size_t)ROWS * 161)
#define BYTES (4 * (5 + (size_t)ROWS * 162))

/* A table and what belongs to it. */
typedef struct {
    uint32_t p, n, r, s;
    uint32_t words[WORDS];
} table;

/* Reads one byte more than any row file has, so that a longer one is refused for its length. */
static int read_table(const char *path, table *t)
{
    static uint8_t bytes[BYTES + 1];
    FILE *input = path == NULL ? stdin : fopen(path, "rb");
    if (input == NULL) {
        perror(path);
        return 0;
    }
    const size_t count = fread(bytes, 1, sizeof bytes, input);
    const int failed = ferror(input);
    if (failed) {
        perror(path == NULL ? "standard input" : path);
    }
    if (path != NULL) {
        fclose(input);
    }
    if (failed) {
        return 0;
    }
    const uint64_t reply = residues_read_file(bytes, count, t->words, WORDS);
    t->p = residues_value(reply);
    t->n = residues_file_size(bytes);
    t->r = residues_file_lower(bytes);
    t->s = residues_file_upper(bytes);
    return accepted("read_file", reply);
}

static int print_matrix(const table *t)
{
    static uint32_t matrix[ROWS * ROWS];
    if (!accepted("matrix", residues_matrix(t->p, t->n, t->r, t->s, t->words, WORDS, matrix, ROWS * ROWS))) {
        return 0;
    }
    printf("modulo %u, orders %u and %u\n", t->p, t->r, t->s);
    for (size_t place = 0; place < (size_t)t->n * t->n; place++) {
        printf("%u%c", matrix[place], (place + 1) % t->n == 0 ? '\n' : ' ');
    }
    if (fflush(stdout) != 0) {
        perror("standard output");
        return 0;
    }
    return 1;
}

static int write_table(const char *path, const table *t)
{
    static uint8_t bytes[BYTES];
    const size_t count = residues_file_bytes(t->n, t->r, t->s);
    if (!accepted("write_file", residues_write_file(t->p, t->n, t->r, t->s, t->words, WORDS, bytes, count))) {
        return 0;
    }
    FILE *output = fopen(path, "wb");
    const int opened = output != NULL;
    const int written = opened && fwrite(bytes, 1, count, output) == count;
    const int closed = opened && fclose(output) == 0;
    if (!written || !closed) {
        perror(path);
    }
    return written && closed;
}

/* The transpose has the orders of the other side; the inverse has the table's own. */
int main(int count, char **arguments)
{
    static table given, result;
    if (count != 3 && count != 4) {
        fputs("files TRANSPOSED INVERSE [FILE]\n", stderr);
        return 2;
    }
    if (!read_table(count == 4 ? arguments[3] : NULL, &given) || !print_matrix(&given)) {
        return 1;
    }
    const table *g = &given;
    result.p = g->p;
    result.n = g->n;
    result.r = g->s;
    result.s = g->r;
    if (!accepted("transpose", residues_transpose(g->p, g->n, g->r, g->s, g->words, WORDS, result.words, WORDS)) ||
        !write_table(arguments[1], &result)) {
        return 1;
    }
    result.r = g->r;
    result.s = g->s;
    if (!accepted("inverse", residues_inverse(g->p, g->n, g->r, g->s, g->words, WORDS, result.words, WORDS))) {
        return 1;
    }
    return write_table(arguments[2], &result) ? 0 : 1;
}
