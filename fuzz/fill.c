/* The words of the buffers that are read: residues for the most part, some words above the prime, junk where words are idle. */
#include <string.h>

#include "fuzz.h"

/* The words of a mode: from the input itself, from a seed, or all alike. */
static void fill_plain(reader *in, uint32_t mode, uint32_t p, uint32_t *words, size_t count)
{
    const uint32_t seed = mode % 8 == 1 || mode % 8 == 2 || mode % 8 == 7 ? next_word(in) : 0;
    size_t k;
    for (k = 0; k < count; k++) {
        const uint32_t drawn = scramble(seed + (uint32_t)k);
        switch (mode % 8) {
        case 0:
            words[k] = next_byte(in) % p;
            break;
        case 3:
            words[k] = next_word(in) % p;
            break;
        case 6:
            words[k] = next_word(in);
            break;
        case 1:
            words[k] = drawn % p;
            break;
        case 2:
            words[k] = drawn % (p < 3 ? p : 3);
            break;
        case 7:
            words[k] = p - 1 - drawn % (p < 3 ? p : 3);
            break;
        default:
            words[k] = mode % 8 == 4 ? p - 1 : 1;
        }
    }
}

/* A few words are set to values that are near limits, or to any. */
void fill_spots(reader *in, shape of, uint32_t count_of_spots, uint32_t *words, size_t count)
{
    while (count_of_spots-- > 0 && count > 0) {
        const size_t low = next_byte(in), place = (low + 256 * next_byte(in)) * (1 + count / 65536) % count;
        const uint32_t byte = next_byte(in);
        const uint32_t values[8] = {of.p, of.p - 1, 4294967295u, 0, of.n, of.n + 1, 1, byte / 8};
        words[place] = byte >= 224 ? next_word(in) : values[byte % 8];
    }
}

/* None for most modes. */
static uint32_t spots_of(uint32_t mode)
{
    return mode < 160 ? 0 : mode / 32 - 4;
}

void fill_words(reader *in, uint32_t p, uint32_t *words, size_t count)
{
    const uint32_t mode = next_byte(in);
    const shape of = {p == 0 ? LARGEST_PRIME : p, (uint32_t)count, 0, 0};
    fill_plain(in, mode, of.p, words, count);
    fill_spots(in, of, spots_of(mode), words, count);
}

/* A table; its idle words are as the others, or junk. */
void fill_table(reader *in, shape of, uint32_t *words)
{
    const uint32_t mode = next_byte(in), junk = mode / 8 % 4, width = row_words(of);
    uint32_t k, place;
    fill_plain(in, mode, of.p, words, table_words(of));
    for (k = 1; k <= of.n; k += of.n > 1 ? of.n - 1 : 1)
        for (place = 0; junk > 0 && place < width; place++)
            if (is_idle_word(of, k, place))
                words[(size_t)(k - 1) * width + place] = junk == 1 ? 4294967295u : junk == 2 ? of.p : scramble(place);
    fill_spots(in, of, spots_of(mode), words, table_words(of));
}

/* Sets d so that no pivot is 0, or the first zero pivot is that of a chosen row, of 255 the last where it may be; some tables are
 * left as they are. */
void aim_pivots(reader *in, shape of, uint32_t *words, int to_last)
{
    const uint32_t byte = next_byte(in), row = byte < 112 ? of.n + 1 : byte == 255 && to_last ? of.n : 1 + byte % of.n;
    const size_t width = row_words(of);
    table t;
    sweep w;
    uint32_t k;
    if ((byte >= 112 && byte < 160) || !is_prime(of.p))
        return;
    memset(&w, 0, sizeof w);
    t.of = of;
    t.words = words;
    for (k = 1; k <= of.n && k <= row; k++) {
        uint32_t *d = &words[(k - 1) * width];
        meet_pivot(&t, k, &w);
        if (k == row || w.m == 0)
            *d = plus(of.p, minus(of.p, *d % of.p, w.m), k != row);
        w.m = w.m == 0 ? 1 : w.m;
        leave_row(&t, k, &w);
    }
}

/* Takes the row of the first zero pivot as k, unless k is out of limits, and the column that shows it; or a multiple, or one with
 * another word; or takes the column alone. Some are left as they are. */
void aim_shown(reader *in, shape of, const uint32_t *words, uint32_t *column, uint32_t *k)
{
    const uint32_t how = next_byte(in) / 32, place = how == 4 || how == 5 ? next_byte(in) : 0;
    uint32_t row, x;
    table t;
    t.of = of;
    t.words = words;
    if (how < 2 || !is_prime(of.p) || bad_row(&t) != 0 || (row = first_zero(&t)) == 0)
        return;
    kernel_of(&t, row, column);
    for (x = 0; x < row && how == 6; x++)
        column[x] = plus(of.p, column[x], column[x]);
    if (how == 4 || how == 5)
        column[place % row] = plus(of.p, column[place % row], 1);
    if (how < 7 && *k >= 1 && *k <= of.n)
        *k = row;
}

/* The first word of a generator is set, its others are 0. */
static void put_corner(shape of, uint32_t *words, uint32_t k, int kind, uint32_t word)
{
    uint32_t *start = words + (size_t)(k - 1) * row_words(of) + start_of(of, kind);
    const uint32_t count = rows_of(of, kind) * columns_of(of, kind);
    memset(start, 0, count * sizeof *start);
    if (count > 0)
        *start = word;
}

/* Row k of the matrix, or its column k, is all zeros. */
static void put_zeros(shape of, uint32_t *words, uint32_t k, int as_row)
{
    put_corner(of, words, k, D, 0);
    put_corner(of, words, k, as_row ? P : Q, 0);
    put_corner(of, words, k, as_row ? G : H, 0);
}

/* Row n goes to the top, with some factor, and every other row down by one: only the last row has a pivot for column 1. */
static void put_shift(shape of, uint32_t *words)
{
    uint32_t k;
    for (k = 1; k <= of.n; k++) {
        put_corner(of, words, k, D, 0);
        put_corner(of, words, k, P, k == of.n);
        put_corner(of, words, k, A, 1);
        put_corner(of, words, k, Q, k == 1);
        put_corner(of, words, k, G, 1 + scramble(k) % (of.p - 1));
        put_corner(of, words, k, B, 0);
        put_corner(of, words, k, H, 1);
    }
}

/* Pivots as above, or zeros on the diagonal, or a shift; then a chosen row or column may be all zeros. */
void aim_exchanges(reader *in, shape of, uint32_t *words)
{
    const uint32_t how = next_byte(in), place = how / 4 % 4 < 2 ? 0 : next_byte(in);
    uint32_t k;
    if (how % 4 < 2)
        aim_pivots(in, of, words, 0);
    for (k = 1; k <= of.n && how % 4 == 2; k++)
        put_corner(of, words, k, D, 0);
    if (how % 4 == 3 && of.p > 1)
        put_shift(of, words);
    if (how / 4 % 4 >= 2)
        put_zeros(of, words, 1 + place % of.n, how / 4 % 4 == 2);
}

/* Up to the most, below 16, or at the most or next to it; a word decides. */
static uint32_t part_of(uint32_t word, uint32_t how, uint32_t most)
{
    const uint32_t parts[4] = {word % (most + 1), word % (most < 16 ? most + 1 : 16), most - word % 2, most + 1 - word % 3};
    return parts[how % 4];
}

/* Two residues are made into those of a fraction whose parts are within the bound, but for how 3, which may be one above it. */
static void put_residues(uint32_t how, uint32_t p1, uint32_t p2, uint32_t *x, uint32_t *y)
{
    const uint32_t bound = bound_of(p1, p2), drawn = scramble(*x + p1 * *y);
    const uint32_t size = part_of(drawn / 2, how / 4, bound);
    uint32_t d = part_of(scramble(drawn), how, bound);
    while (d > 1 && (d % p1 == 0 || d % p2 == 0))
        d--;
    d = d == 0 ? 1 : d;
    *x = times(p1, size % p1, over(p1, d % p1));
    *y = times(p2, size % p2, over(p2, d % p2));
    if (drawn % 2 == 1) {
        *x = minus(p1, 0, *x);
        *y = minus(p2, 0, *y);
    }
}

/* Sets residues so that each place has a fraction, then changes one of a chosen place; some columns are left as they are. */
void aim_fractions(reader *in, shape one, shape two, uint32_t *first, uint32_t *second)
{
    const uint32_t how = next_byte(in), byte = next_byte(in), place = byte * 5 % one.n;
    uint32_t k;
    if (!is_prime(one.p) || !is_prime(two.p) || one.p == two.p)
        return;
    for (k = 0; k < one.n && how < 192; k++)
        if (first[k] < one.p && second[k] < two.p)
            put_residues(how, one.p, two.p, &first[k], &second[k]);
    if (byte >= 208)
        second[place] = plus(two.p, second[place], 1);
    else if (byte >= 160)
        first[place] = plus(one.p, first[place], 1);
}

/* The numbers of the records of rows 1 to n: in order, backwards, or shuffled. */
static void draw_chain(reader *in, uint32_t n, uint32_t *numbers)
{
    const uint32_t byte = next_byte(in);
    uint32_t k;
    for (k = 0; k < n; k++)
        numbers[k] = byte == 1 ? n - k : k + 1;
    for (k = n; byte > 1 && k > 1; k--) {
        const uint32_t other = scramble(byte * 4096 + k) % k, kept = numbers[k - 1];
        numbers[k - 1] = numbers[other];
        numbers[other] = kept;
    }
}

/* The words of a file whose records are those of the rows; its head has the numbers as they were drawn. */
static void join_file(const trial *t, shape near, const uint32_t *rows, const uint32_t *numbers, uint32_t *file)
{
    const uint32_t width = row_words(near);
    const uint32_t head[5] = {t->empty_is_null && t->first.p == LARGEST_PRIME ? 0 : t->first.p, t->first.n, t->first.r,
                              t->first.s, numbers[0]};
    uint32_t k;
    memcpy(file, head, sizeof head);
    for (k = 0; k < near.n; k++) {
        uint32_t *record = file + 5 + (size_t)(numbers[k] - 1) * (1 + width);
        record[0] = k + 1 < near.n ? numbers[k + 1] : 0;
        memcpy(record + 1, rows + (size_t)k * width, width * sizeof *rows);
    }
}

/* One number of the chain, the head's or a record's, is another. */
static void damage_chain(reader *in, shape of, uint32_t *file)
{
    const uint32_t number = next_byte(in) % (of.n + 1), byte = next_byte(in);
    const uint32_t values[4] = {0, of.n + 1, 1 + byte / 8 % of.n, 4294967295u};
    file[number == 0 ? 4 : 5 + (size_t)(number - 1) * (1 + row_words(of))] = byte >= 224 ? next_word(in) : values[byte % 4];
}

/* The rest of the input as it is; the result is lent for its head. */
static void raw_file(reader *in, trial *t)
{
    uint8_t *file = t->before[FILE_BYTES];
    size_t count = 0;
    while (in->at < in->end && count < 4096)
        file[count++] = (uint8_t)next_byte(in);
    t->count[FILE_BYTES] = count;
    if (count >= 20)
        t->count[RESULT] = table_words(within_limits(file_shape(file)));
}

/* A file made of a table, with a few words or a number of its chain changed, or any bytes. */
void fill_file(reader *in, trial *t)
{
    const uint32_t mode = next_byte(in);
    const shape near = within_limits(t->first);
    uint32_t *rows = t->before[TABLE], *words = t->before[SECOND], numbers[LARGEST_SIZE];
    uint8_t *file = t->before[FILE_BYTES];
    size_t k;
    if (mode % 4 == 3) {
        raw_file(in, t);
        return;
    }
    fill_table(in, near, rows);
    draw_chain(in, near.n, numbers);
    join_file(t, near, rows, numbers, words);
    if (mode % 4 == 2)
        damage_chain(in, near, words);
    fill_spots(in, near, spots_of(mode), words, 5 + (size_t)near.n * (1 + row_words(near)));
    for (k = 0; k < file_bytes(near) && k < t->count[FILE_BYTES]; k++)
        file[k] = (uint8_t)(words[k / 4] >> 8 * (k % 4));
}
