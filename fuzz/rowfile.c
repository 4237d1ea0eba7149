/* Row files, byte by byte: the refusals of one that is read, its rows, and the file that is written. */
#include "fuzz.h"

uint32_t file_word(const uint8_t *file, size_t place)
{
    uint32_t word = 0;
    int k;
    for (k = 3; k >= 0; k--)
        word = 256 * word + file[4 * place + (size_t)k];
    return word;
}

/* The numbers in a head; p 0 means the house prime. */
shape file_shape(const uint8_t *file)
{
    const uint32_t p = file_word(file, 0);
    const shape of = {p == 0 ? LARGEST_PRIME : p, file_word(file, 1), file_word(file, 2), file_word(file, 3)};
    return of;
}

/* Where the record of a number starts, in words. */
static size_t record(shape of, uint32_t number)
{
    return 5 + (size_t)(number - 1) * (1 + row_words(of));
}

/* The numbers of the records of rows 1 to n; how many could be read, and n + 1 where the chain also ends there. */
uint32_t follow(shape of, const uint8_t *file, uint32_t *numbers)
{
    uint32_t number = file_word(file, 4), k;
    for (k = 0; k < of.n; k++) {
        if (number == 0 || number > of.n)
            return k;
        numbers[k] = number;
        number = file_word(file, record(of, number));
    }
    return number == 0 ? of.n + 1 : of.n;
}

static uint32_t bad_file_row(shape of, const uint8_t *file, const uint32_t *numbers)
{
    uint32_t k, place;
    for (k = 1; k <= of.n; k++)
        for (place = 0; place < row_words(of); place++)
            if (file_word(file, record(of, numbers[k - 1]) + 1 + place) >= of.p && !is_idle_word(of, k, place))
                return k;
    return 0;
}

/* 9 (under 20 bytes), 1, 2, 3, 9 (length), 4, 10, 5. */
uint64_t file_refusal(const trial *t)
{
    const uint8_t *file = t->before[FILE_BYTES];
    const size_t bytes = t->count[FILE_BYTES];
    uint32_t numbers[LARGEST_SIZE], rows;
    uint64_t found;
    shape of;
    if (bytes < 20)
        return packed(BAD_LENGTH, FILE_BYTES + 1, 0, 0);
    of = file_shape(file);
    found = first_refusal(of, FILE_BYTES, LARGEST_SIZE);
    if (found != 0)
        return found;
    if (bytes != file_bytes(of))
        return packed(BAD_LENGTH, FILE_BYTES + 1, 0, 0);
    if (t->count[RESULT] < table_words(of))
        return packed(SHORT_BUFFER, RESULT + 1, 0, 0);
    rows = follow(of, file, numbers);
    if (rows <= of.n)
        return packed(BAD_CHAIN, FILE_BYTES + 1, rows, 0);
    rows = bad_file_row(of, file, numbers);
    return rows == 0 ? 0 : packed(BAD_WORD, FILE_BYTES + 1, rows, 0);
}

/* The table of a file that is accepted. */
void read_rows(shape of, const uint8_t *file, uint32_t *result)
{
    const uint32_t words = row_words(of);
    uint32_t numbers[LARGEST_SIZE], k, place;
    follow(of, file, numbers);
    for (k = 1; k <= of.n; k++)
        for (place = 0; place < words; place++)
            *result++ = is_idle_word(of, k, place) ? 0 : file_word(file, record(of, numbers[k - 1]) + 1 + place);
}

static uint8_t *put(uint8_t *file, uint32_t word)
{
    int k;
    for (k = 0; k < 4; k++, word /= 256)
        *file++ = (uint8_t)(word % 256);
    return file;
}

/* The file of a table that is accepted. */
void write_rows(const table *t, uint8_t *file)
{
    const uint32_t words = row_words(t->of);
    uint32_t k, place;
    file = put(put(put(put(put(file, t->of.p), t->of.n), t->of.r), t->of.s), 1);
    for (k = 1; k <= t->of.n; k++) {
        file = put(file, k == t->of.n ? 0 : k + 1);
        for (place = 0; place < words; place++)
            file = put(file, is_idle_word(t->of, k, place) ? 0 : t->words[(size_t)(k - 1) * words + place]);
    }
}
