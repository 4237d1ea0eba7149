/* Where a table's words lie, and which of them are idle. */
#include "fuzz.h"

uint32_t row_words(shape of)
{
    return 1 + 2 * of.r + of.r * of.r + 2 * of.s + of.s * of.s;
}

size_t table_words(shape of)
{
    return (size_t)of.n * row_words(of);
}

size_t file_bytes(shape of)
{
    return 4 * (5 + (size_t)of.n * (1 + row_words(of)));
}

uint32_t rows_of(shape of, int kind)
{
    return kind == A || kind == Q ? of.r : kind == B || kind == H ? of.s : 1;
}

uint32_t columns_of(shape of, int kind)
{
    return kind == P || kind == A ? of.r : kind == G || kind == B ? of.s : 1;
}

/* Where a generator starts in its row. */
uint32_t start_of(shape of, int kind)
{
    const uint32_t lower = 1 + of.r, upper = 1 + 2 * of.r + of.r * of.r;
    const uint32_t starts[KINDS] = {0, 1, lower, lower + of.r * of.r, upper, upper + of.s, upper + of.s + of.s * of.s};
    return starts[kind];
}

/* Idle are p, a, b, h of row 1 and a, q, g, b of row n. */
int is_idle(shape of, uint32_t k, int kind)
{
    if (k == 1 && (kind == P || kind == A || kind == B || kind == H))
        return 1;
    return k == of.n && (kind == A || kind == Q || kind == G || kind == B);
}

int is_idle_word(shape of, uint32_t k, uint32_t place)
{
    int kind = D;
    while (kind + 1 < KINDS && start_of(of, kind + 1) <= place)
        kind++;
    return is_idle(of, k, kind);
}

/* The residue at (x, y), from 0, of a generator of row k, from 1; idle ones are 0. */
uint32_t at(const table *t, uint32_t k, int kind, uint32_t x, uint32_t y)
{
    const size_t row = (size_t)(k - 1) * row_words(t->of);
    return is_idle(t->of, k, kind) ? 0 : t->words[row + start_of(t->of, kind) + x * columns_of(t->of, kind) + y];
}

shape joined(shape x, shape y)
{
    x.r += y.r;
    x.s += y.s;
    return x;
}

shape turned(shape x)
{
    const shape y = {x.p, x.n, x.s, x.r};
    return y;
}
