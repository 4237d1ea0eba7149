/* Classes of inputs that the fuzzer is led to, though they may run the same code: the first cause of a refusal, alone or with
 * another, what a reply names, surplus, sizes and orders, fractions at their bound, singular corners and matrices, columns that
 * show a corner. They lead the fuzzer and judge nothing. */
#include "fuzz.h"

/* Causes, told apart by buffer, in an order that is every call's. */
enum { UNDER_20, PRIME, SECOND_PRIME, EQUAL, SIZE, FIRST_ORDER, SECOND_ORDER, PLACE, ORDER_SUM, LENGTH, SHORT,
       CHAIN = SHORT + BUFFERS, FILE_WORD, FACTOR, WORD, PIVOT = WORD + 3, FRACTION, CAUSES };

static uint8_t *counters;

/* Marks the class that the numbers give, each below its limit, from a start on; where the next classes start. */
static unsigned mark(unsigned start, const unsigned *numbers, const unsigned *limits, int count)
{
    unsigned place = 0, size = 1;
    int k;
    for (k = 0; k < count; k++) {
        place = place * limits[k] + (numbers[k] < limits[k] ? numbers[k] : limits[k] - 1);
        size *= limits[k];
    }
    counters[(start + place) % CLASSES] = 1;
    return start + size;
}

static uint32_t add_if(int holds, int cause)
{
    return holds ? (uint32_t)1 << cause : 0;
}

static int is_above(shape of)
{
    return of.r > LARGEST_ORDER || of.s > LARGEST_ORDER;
}

static uint32_t causes_of_numbers(const trial *t, shape of)
{
    const int two = t->call == SUM || t->call == PRODUCT;
    const uint64_t r = (uint64_t)of.r + t->second.r, s = (uint64_t)of.s + t->second.s;
    const int bad_size = of.n < 1 || of.n > largest_size(t->call);
    return add_if(!is_prime(of.p), PRIME) | add_if(bad_size, SIZE) | add_if(is_above(of), FIRST_ORDER) |
           add_if(two && is_above(t->second), SECOND_ORDER) | add_if(two && (r > LARGEST_ORDER || s > LARGEST_ORDER), ORDER_SUM) |
           add_if(t->call == ENTRY && (t->i < 1 || t->i > of.n || t->j < 1 || t->j > of.n), PLACE) |
           add_if(t->call == KERNEL_CHECK && (t->i < 1 || t->i > of.n), PLACE);
}

/* Of a buffer that is lent for numbers within limits: too short, or with a bad word in a row before the first table's. */
static uint32_t causes_of_buffer(const trial *t, int buffer)
{
    const table in = table_in(t, buffer), one = table_in(t, TABLE);
    uint32_t row, first;
    if (!uses(t->call, buffer))
        return 0;
    if (t->count[buffer] < needed_units(t, buffer))
        return add_if(1, SHORT + buffer);
    if (buffer > COLUMN)
        return 0;
    row = buffer == COLUMN ? bad_column_row(t) : bad_row(&in);
    first = buffer == TABLE ? 0 : bad_row(&one);
    return add_if(row != 0 && (first == 0 || row < first), WORD + buffer);
}

static uint32_t causes_of_file(const trial *t)
{
    const uint8_t *file = t->before[FILE_BYTES];
    const size_t bytes = t->count[FILE_BYTES];
    uint32_t numbers[LARGEST_SIZE], causes;
    shape of;
    if (bytes < 20)
        return add_if(1, UNDER_20);
    of = file_shape(file);
    causes = causes_of_numbers(t, of);
    if ((causes & ~add_if(1, PRIME)) != 0)
        return causes;
    causes |= add_if(bytes != file_bytes(of), LENGTH) | add_if(t->count[RESULT] < table_words(of), SHORT + RESULT);
    if (bytes < file_bytes(of))
        return causes;
    return causes | add_if(follow(of, file, numbers) <= of.n, CHAIN) | add_if(file_word(file, 6) >= of.p, FILE_WORD);
}

/* A place without a fraction counts where no word up to it is bad. */
static uint32_t causes_of_fractions(const trial *t)
{
    const table one = table_in(t, TABLE), two = table_in(t, SECOND);
    uint32_t causes = causes_of_numbers(t, t->first), place, first, second;
    int buffer;
    causes |= add_if(!is_prime(two.of.p), SECOND_PRIME) | add_if(one.of.p == two.of.p, EQUAL);
    if ((causes & add_if(1, SIZE)) != 0)
        return causes;
    for (buffer = 0; buffer < BUFFERS; buffer++)
        causes |= causes_of_buffer(t, buffer);
    if ((causes & (add_if(1, PRIME) | add_if(1, SECOND_PRIME) | add_if(1, EQUAL))) != 0)
        return causes;
    place = place_without(t);
    first = bad_row(&one);
    second = bad_row(&two);
    return causes | add_if(place > 0 && (first == 0 || place < first) && (second == 0 || place < second), FRACTION);
}

/* Whether a pivot is zero, or of the kernel none; or of the dense solve the matrix is singular, where it is small: a larger one
 * would take time. */
static int has_no_pivot(const trial *t)
{
    if (t->call == KERNEL)
        return zero_pivot(t) == 0;
    if (t->call != SOLVE_DENSE)
        return zero_pivot(t) != 0;
    return t->first.n <= DENSE_SIZE && column_without(t) != 0;
}

/* The causes that leave no table to look at. */
static uint32_t no_table(void)
{
    return add_if(1, PRIME) | add_if(1, SHORT + TABLE) | add_if(1, WORD + TABLE);
}

static uint32_t all_causes(const trial *t)
{
    uint32_t causes;
    int buffer;
    if (t->call == READ_FILE)
        return causes_of_file(t);
    if (t->call == FRACTIONS)
        return causes_of_fractions(t);
    causes = causes_of_numbers(t, t->first);
    if ((causes & ~(add_if(1, PRIME) | add_if(1, PLACE) | add_if(1, ORDER_SUM))) != 0)
        return causes;
    for (buffer = 0; buffer < BUFFERS; buffer++)
        causes |= causes_of_buffer(t, buffer);
    if ((refuses(t->call, ZERO_PIVOT) || refuses(t->call, REGULAR)) && (causes & no_table()) == 0)
        causes |= add_if(has_no_pivot(t), PIVOT);
    return causes | add_if(t->call == MULTIPLE && t->c >= t->first.p, FACTOR);
}

/* Whether every used word of the first rows is close to the prime, so that sums of products are large. */
static int is_high(const table *in)
{
    const uint32_t words = row_words(in->of);
    uint32_t k, place;
    for (k = 1; k <= in->of.n && k <= 4; k++)
        for (place = 0; place < words; place++)
            if (in->words[(size_t)(k - 1) * words + place] < in->of.p - 3 && !is_idle_word(in->of, k, place))
                return 0;
    return in->of.p > LARGEST_PRIME / 2;
}

/* Whether most words of all that is read are not 0, so that a wrong row shows. */
static int is_rich(const trial *t, const answer *owed)
{
    int buffer;
    for (buffer = TABLE; buffer <= COLUMN; buffer++) {
        const uint32_t *words = t->before[buffer];
        size_t zeros = 0, k;
        for (k = 0; k < owed->needed[buffer]; k++)
            zeros += words[k] == 0;
        if (4 * zeros > 3 * owed->needed[buffer])
            return 0;
    }
    return 1;
}

/* 0 to 7, so that 1, 2, small, dense, larger and the largest two sizes are told apart. */
static unsigned kind_of_size(uint32_t n, uint32_t largest)
{
    return n <= 2 ? n - 1 : n <= 8 ? 2 : n <= DENSE_SIZE ? 3 : n <= 64 ? 4 : n + 1 < largest ? 5 : n + 7 - largest;
}

static unsigned kind_of_order(uint32_t order)
{
    return order < 2 ? order : order < 5 ? 2 : 3;
}

static void mark_accepted(const trial *t, const answer *owed, unsigned start)
{
    const unsigned call = (unsigned)t->call, null_limits[3] = {CALLS, 2, 2}, size_limits[4] = {CALLS, 8, 2, 2};
    const unsigned order_limits[5] = {CALLS, 2, 4, 4, 2}, surplus_limits[2] = {CALLS, BUFFERS};
    const shape of = t->call == READ_FILE ? file_shape(t->before[FILE_BYTES]) : t->first;
    const table in = table_in(t, TABLE);
    const unsigned high = uses(t->call, TABLE) && is_high(&in), large = of.p > 65537;
    const unsigned nulls[3] = {call, (unsigned)t->empty_is_null, (unsigned)t->same};
    const unsigned sizes[4] = {call, kind_of_size(of.n, largest_size(t->call)), large, (unsigned)is_rich(t, owed)};
    const unsigned orders[5] = {call, large, kind_of_order(of.r), kind_of_order(of.s), high};
    unsigned buffer;
    start = mark(start, nulls, null_limits, 3);
    start = mark(start, sizes, size_limits, 4);
    start = mark(start, orders, order_limits, 5);
    for (buffer = 0; buffer < BUFFERS; buffer++) {
        const unsigned surplus[2] = {call, buffer};
        if (t->count[buffer] > owed->needed[buffer])
            mark(start, surplus, surplus_limits, 2);
    }
}

/* 0, 1, between, the bound, one more, larger. */
static unsigned kind_of_part(int64_t part, int64_t bound)
{
    return part < 2 && part < bound ? (unsigned)part : part < bound ? 2 : part <= bound + 1 ? 3 + (unsigned)(part - bound) : 5;
}

/* Whether the primes are small, or one may divide a denominator, or neither; which is the larger. */
static unsigned kind_of_primes(uint32_t p1, uint32_t p2)
{
    const uint32_t bound = bound_of(p1, p2);
    return (bound <= DENSE_BOUND ? 0 : p1 <= bound || p2 <= bound ? 2 : 4) + (p1 > p2);
}

/* The fractions of an accepted call, or the shortest vector at the place that is refused. */
static void mark_fractions(const trial *t, const answer *owed)
{
    const unsigned limits[5] = {2, 2, 6, 6, 6}, accepted = (owed->reply & 255) == ACCEPTED;
    const uint32_t row = (uint32_t)(owed->reply >> 16 & 65535), bound = bound_of(t->first.p, t->second.p);
    uint32_t k;
    for (k = accepted ? 1 : row; k <= (accepted ? t->first.n : row); k++) {
        const fraction f = shortest_at(t, k);
        const unsigned kinds[5] = {accepted, f.n < 0, kind_of_part(f.n < 0 ? -f.n : f.n, bound), kind_of_part(f.d, bound),
                                   kind_of_primes(t->first.p, t->second.p)};
        mark(CLASSES - FRACTION_CLASSES, kinds, limits, 5);
    }
}

/* None, the first, the second, the last, another. */
static unsigned kind_of_column(uint32_t k, uint32_t n)
{
    return k < 3 ? k : k == n ? 3 : 4;
}

/* 2, another to 65537, larger. */
static unsigned kind_of_prime(uint32_t p)
{
    return p == 2 ? 0 : p <= 65537 ? 1 : 2;
}

/* Of a dense solve that is accepted or finds the matrix singular: its size, the first singular corner, surplus of the square; of a
 * small one the first column without a pivot, exchanges, and the prime. */
static void mark_whole(const trial *t, int accepted)
{
    const unsigned size_limits[3] = {2, 8, 2}, corner_limits[3] = {2, 5, 2}, small_limits[4] = {2, 5, 4, 3};
    const uint32_t n = t->first.n, p = t->first.p, corner = zero_pivot(t);
    const unsigned sizes[3] = {(unsigned)accepted, kind_of_size(n, LARGEST_SQUARE), corner != 0};
    const unsigned corners[3] = {(unsigned)accepted, kind_of_column(corner, n), t->count[WORK] > needed_units(t, WORK)};
    uint32_t zeros[DENSE_SIZE] = {0}, exchanges;
    unsigned start = mark(CLASSES - FRACTION_CLASSES - WHOLE_CLASSES, sizes, size_limits, 3);
    start = mark(start, corners, corner_limits, 3);
    if (n <= DENSE_SIZE) {
        const unsigned without = kind_of_column(solve_whole(t, zeros, &exchanges), n);
        const unsigned small[4] = {n > 8, without, exchanges, kind_of_prime(p)};
        mark(start, small, small_limits, 4);
    }
}

/* Of a kernel that is accepted or finds no zero pivot: its row beside its size and beside its prime. Of one whose result alone is
 * too short: whether there is room for the column. */
static void mark_kernel(const trial *t, const answer *owed, uint32_t causes)
{
    const unsigned size_limits[2] = {8, 5}, prime_limits[2] = {3, 5}, room_limits[2] = {2, 2};
    const uint32_t n = t->first.n, number = (uint32_t)(owed->reply & 255);
    const unsigned row = kind_of_column((uint32_t)(owed->reply >> 32), n);
    unsigned start = CLASSES - FRACTION_CLASSES - WHOLE_CLASSES - KERNEL_CLASSES;
    if (number == ACCEPTED || number == REGULAR) {
        const unsigned sizes[2] = {kind_of_size(n, LARGEST_SIZE), row}, primes[2] = {kind_of_prime(t->first.p), row};
        start = mark(start, sizes, size_limits, 2);
        mark(start, primes, prime_limits, 2);
    } else if ((causes & ~add_if(1, PIVOT)) == add_if(1, SHORT + RESULT)) {
        const uint32_t zero = zero_pivot(t);
        const unsigned rooms[2] = {zero != 0, zero <= t->count[RESULT]};
        mark(start + 8 * 5 + 3 * 5, rooms, room_limits, 2);
    }
}

/* Of a kernel's check that is accepted: its value beside its size, beside the prime and where the first zero pivot lies, and beside
 * that, k, word k, and whether more words follow. */
static void mark_shown(const trial *t, unsigned value)
{
    const unsigned size_limits[2] = {2, 8}, prime_limits[3] = {2, 4, 3}, word_limits[5] = {2, 4, 5, 3, 2};
    const uint32_t n = t->first.n, k = t->i, zero = zero_pivot(t), *x = t->before[COLUMN];
    const unsigned side = zero == 0 ? 0 : k < zero ? 1 : k == zero ? 2 : 3;
    const unsigned sizes[2] = {value, kind_of_size(n, LARGEST_SIZE)}, primes[3] = {value, side, kind_of_prime(t->first.p)};
    const unsigned words[5] = {value, side, kind_of_column(k, n), x[k - 1], k < n && x[n - 1] != 0};
    unsigned start = CLASSES - FRACTION_CLASSES - WHOLE_CLASSES - 2 * 8 - 2 * 4 * 3 - 2 * 4 * 5 * 3 * 2;
    start = mark(start, sizes, size_limits, 2);
    start = mark(start, primes, prime_limits, 3);
    mark(start, words, word_limits, 5);
}

/* A size out of limits: 0, one above the call's largest, within another call's, above. */
static unsigned kind_of_bad_size(uint32_t n, uint32_t largest)
{
    return n == 0 ? 0 : n == largest + 1 ? 1 : n <= LARGEST_SIZE ? 2 : 3;
}

/* An order of 9 alone, the lower or the upper, or others. */
static unsigned kind_of_bad_order(shape of)
{
    return of.r == LARGEST_ORDER + 1 && of.s <= LARGEST_ORDER ? 0 : of.s == LARGEST_ORDER + 1 && of.r <= LARGEST_ORDER ? 1 : 2;
}

/* Whether a buffer lacks one unit; of a row none, the first, the second, the last, one whose number takes two bytes, another. */
static unsigned kind_of_row(const trial *t, uint64_t reply)
{
    const uint32_t row = (uint32_t)(reply >> 16 & 65535);
    const int buffer = (int)(reply >> 8 & 255) - 1;
    if ((reply & 255) == SHORT_BUFFER)
        return t->count[buffer] + 1 == needed_units(t, buffer);
    if ((reply & 255) == BAD_SIZE)
        return kind_of_bad_size(t->first.n, largest_size(t->call));
    if ((reply & 255) == BAD_ORDER)
        return kind_of_bad_order(buffer == SECOND ? t->second : t->first);
    return row < 3 ? row : row == t->first.n ? 3 : row > 255 ? 4 : 5;
}

/* A prime, below 2, another number within the limit, above it, a prime above it. */
static unsigned kind_of_number(uint32_t p)
{
    return is_prime(p) ? 0 : p < 2 ? 1 : p <= LARGEST_PRIME ? 2 : p != 2147483659u && p != 4294967291u ? 3 : 4;
}

void mark_classes(const trial *t, const answer *owed, uint8_t *seen)
{
    const unsigned number = (unsigned)(owed->reply & 255), buffer = (unsigned)(owed->reply >> 8 & 255);
    const unsigned told[4] = {(unsigned)t->call, number, buffer, kind_of_row(t, owed->reply)};
    const unsigned primes[3] = {(unsigned)t->call, kind_of_number(t->first.p), kind_of_number(t->second.p)};
    const unsigned told_limits[4] = {CALLS, REPLIES, BUFFERS + 1, 6}, prime_limits[3] = {CALLS, 5, 5};
    const unsigned pair_limits[3] = {CALLS, CAUSES, CAUSES};
    const uint32_t causes = all_causes(t);
    unsigned start, first = 0, other;
    counters = seen;
    start = mark(0, told, told_limits, 4);
    start = mark(start, primes, prime_limits, 3);
    while (first < CAUSES && (causes >> first & 1) == 0)
        first++;
    for (other = first; other < CAUSES; other++) {
        const unsigned pair[3] = {(unsigned)t->call, first, other};
        if (other == first ? causes >> first == 1 : (causes >> other & 1) != 0)
            mark(start, pair, pair_limits, 3);
    }
    if (number == ACCEPTED)
        mark_accepted(t, owed, start + CALLS * CAUSES * CAUSES);
    if (t->call == FRACTIONS && (number == ACCEPTED || number == NO_FRACTION))
        mark_fractions(t, owed);
    if (t->call == SOLVE_DENSE && (number == ACCEPTED || number == ZERO_PIVOT))
        mark_whole(t, number == ACCEPTED);
    if (t->call == KERNEL)
        mark_kernel(t, owed, causes);
    if (t->call == KERNEL_CHECK && number == ACCEPTED)
        mark_shown(t, (unsigned)(owed->reply >> 32));
}
