/* From an input's bytes to a call, its numbers and its buffers. Every input stands for a trial: past its end all bytes are 0. */
#include <string.h>

#include "fuzz.h"

#define COUNT_OF(list) (sizeof(list) / sizeof *(list))

/* Bytes below this give numbers within limits and buffers of the exact length. */
#define HOSTILE 216u

uint32_t next_byte(reader *in)
{
    return in->at < in->end ? *in->at++ : 0;
}

uint32_t next_word(reader *in)
{
    uint32_t word = next_byte(in);
    word |= next_byte(in) << 8;
    word |= next_byte(in) << 16;
    return word | next_byte(in) << 24;
}

/* Numbers that look alike to nobody. */
uint32_t scramble(uint32_t x)
{
    x = (x ^ x >> 16) * 0x7feb352du;
    x = (x ^ x >> 15) * 0x846ca68bu;
    return x ^ x >> 16;
}

static uint32_t prime_or_not(reader *in)
{
    static const uint32_t primes[] = {7, 2147483647, 2, 3, 5, 13, 101, 251, 257, 65537, 1000003, 1073741827, 2147483629, 46337};
    static const uint32_t others[] = {0, 1, 9, 4, 25, 2047, 2147483646, 2147483648u, 2147483659u, 4294967295u, 2147117569, 65536,
                                      4294967291u, 1373653, 121, 49};
    const uint32_t byte = next_byte(in);
    if (byte < HOSTILE)
        return primes[byte % COUNT_OF(primes)];
    return byte < 240 ? others[byte % COUNT_OF(others)] : next_word(in);
}

/* Small sizes for the most part: larger ones take time. */
static uint32_t size_or_not(reader *in, int call)
{
    const uint32_t most = largest_size(call), other = call == SOLVE_DENSE ? LARGEST_SIZE : 0;
    const uint32_t sizes[] = {0, most + 1, 4294967295u, 65537, most, most - 1, 64, 33, 20, 16, 15, 12, 9, 10, 2147483648u, other};
    const uint32_t byte = next_byte(in);
    if (byte < HOSTILE)
        return 1 + (byte + 2) % 8;
    return byte < 248 ? sizes[byte % COUNT_OF(sizes)] : next_byte(in);
}

/* Below the most, or one that may be above 8. */
static uint32_t order_or_not(reader *in, uint32_t most)
{
    static const uint32_t orders[] = {8, 9, 16, 255, 256, 2147483648u, 4294967295u, 7, 4294967288u, 65536};
    const uint32_t byte = next_byte(in);
    if (byte < HOSTILE)
        return (byte + 1) % (most + 1);
    return byte < 248 ? orders[byte % COUNT_OF(orders)] : next_word(in);
}

static uint32_t place_or_not(reader *in, uint32_t n)
{
    const uint32_t byte = next_byte(in);
    if (byte < HOSTILE && n > 0)
        return 1 + (n > 128 ? byte * 5 : byte) % n;
    return byte < 228 ? 0 : byte < 240 ? n + 1 : next_word(in);
}

/* Numbers within limits for which buffers are lent: the same where they are, else small ones. */
shape within_limits(shape of)
{
    of.p = of.p == 0 ? LARGEST_PRIME : of.p;
    of.n = of.n >= 1 && of.n <= LARGEST_SIZE ? of.n : 1 + of.n % 4;
    of.r = of.r <= LARGEST_ORDER ? of.r : of.r % 4;
    of.s = of.s <= LARGEST_ORDER ? of.s : of.s % 4;
    return of;
}

/* The exact count, a few more or fewer, none, or any fewer. */
static size_t count_or_not(reader *in, size_t exact)
{
    const uint32_t byte = next_byte(in), few = 1 + byte % 8;
    if (byte < 200)
        return exact;
    if (byte < 216)
        return exact + few;
    if (byte < 240)
        return exact < few ? 0 : exact - few;
    return byte < 248 ? 0 : next_word(in) % (exact + 1);
}

static void decode_numbers(reader *in, trial *t)
{
    const int two = t->call == SUM || t->call == PRODUCT, none = t->call == FRACTIONS;
    t->first.p = prime_or_not(in);
    t->first.n = size_or_not(in, t->call);
    t->first.r = none ? 0 : order_or_not(in, two ? 4 : 8);
    t->first.s = none ? 0 : order_or_not(in, two ? 4 : 8);
    t->second = t->first;
    t->second.p = none ? prime_or_not(in) : t->first.p;
    t->second.r = two ? order_or_not(in, 4) : 0;
    t->second.s = two ? order_or_not(in, 4) : 0;
    t->i = t->call == ENTRY || t->call == KERNEL_CHECK ? place_or_not(in, t->first.n) : 0;
    t->j = t->call == ENTRY ? place_or_not(in, t->first.n) : 0;
    t->c = 0;
    if (t->call == MULTIPLE)
        fill_words(in, t->first.p, &t->c, 1);
}

/* Counts for numbers within limits; what no buffer holds yet is junk. */
static void decode_counts(reader *in, trial *t)
{
    trial near = *t;
    int buffer;
    near.first = within_limits(t->first);
    near.second = within_limits(t->second);
    for (buffer = 0; buffer < BUFFERS; buffer++) {
        size_t k;
        t->count[buffer] = uses(t->call, buffer) ? count_or_not(in, needed_units(&near, buffer)) : 0;
        for (k = 0; k < (t->count[buffer] * unit(buffer) + 3) / 4; k++)
            ((uint32_t *)t->before[buffer])[k] = 0xdeadbeefu + (uint32_t)k;
    }
}

static void decode_words(reader *in, trial *t)
{
    const shape one = within_limits(t->first), two = within_limits(t->second);
    fill_table(in, one, t->before[TABLE]);
    if (t->call == SOLVE || t->call == INVERSE || t->call == KERNEL || t->call == KERNEL_CHECK)
        aim_pivots(in, one, t->before[TABLE], t->call == KERNEL || t->call == KERNEL_CHECK);
    if (t->call == SOLVE_DENSE)
        aim_exchanges(in, one, t->before[TABLE]);
    if (uses(t->call, SECOND))
        fill_table(in, two, t->before[SECOND]);
    if (t->call == FRACTIONS)
        aim_fractions(in, one, two, t->before[TABLE], t->before[SECOND]);
    if (uses(t->call, COLUMN))
        fill_words(in, one.p, t->before[COLUMN], one.n);
    if (t->call == KERNEL_CHECK)
        aim_shown(in, one, t->before[TABLE], t->before[COLUMN], &t->i);
}

/* Both tables are the same memory, where the orders and counts allow it. */
static void decode_same(trial *t)
{
    t->same = t->same && uses(t->call, SECOND) && t->first.r == t->second.r && t->first.s == t->second.s;
    if (!t->same)
        return;
    t->count[SECOND] = t->count[TABLE];
    memcpy(t->before[SECOND], t->before[TABLE], t->count[TABLE] * 4);
}

void decode(trial *t, const uint8_t *data, size_t size)
{
    reader in;
    uint32_t flags;
    in.at = data;
    in.end = data + size;
    t->call = (int)(next_byte(&in) % CALLS);
    flags = next_byte(&in);
    t->empty_is_null = (flags & 1) != 0;
    t->same = (flags & 2) != 0;
    decode_numbers(&in, t);
    decode_counts(&in, t);
    if (t->call == READ_FILE)
        fill_file(&in, t);
    else
        decode_words(&in, t);
    decode_same(t);
}
