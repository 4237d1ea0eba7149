/* One input: the call that it stands for is run on fenced buffers, and its reply and every unit compared with the model's. */
#include <stdio.h>
#include <stdlib.h>
#include <string.h>

#include "fuzz.h"

/* Words that a call is not to read count as unset under valgrind. */
#ifdef MEMCHECK
#include <valgrind/memcheck.h>
#else
#define VALGRIND_MAKE_MEM_UNDEFINED(start, bytes) ((void)(start), (void)(bytes))
#define VALGRIND_MAKE_MEM_DEFINED(start, bytes) ((void)(start), (void)(bytes))
#endif

unsigned long tally[CALLS][REPLIES], shown[2];
char doing[300];
static trial now;
static answer owed;

static void set_up(void)
{
    int buffer;
    if (now.before[0] != NULL)
        return;
    open_arenas();
    for (buffer = 0; buffer < BUFFERS; buffer++) {
        now.before[buffer] = malloc(MOST_BYTES);
        owed.after[buffer] = malloc(MOST_BYTES);
        if (now.before[buffer] == NULL || owed.after[buffer] == NULL)
            exit(1);
    }
}

static void note(const trial *t, int at_end)
{
    snprintf(doing, sizeof doing,
             "%s, p %u n %u r %u s %u p2 %u r2 %u s2 %u i %u j %u c %u, counts %zu %zu %zu %zu %zu %zu, at the %s",
             call_names[t->call], t->first.p, t->first.n, t->first.r, t->first.s, t->second.p, t->second.r, t->second.s, t->i, t->j,
             t->c, t->count[TABLE], t->count[SECOND], t->count[COLUMN], t->count[WORK], t->count[RESULT], t->count[FILE_BYTES],
             at_end ? "end" : "beginning");
}

static size_t bytes_of(const trial *t, int buffer)
{
    return t->count[buffer] * unit(buffer);
}

/* The bytes of a buffer that the call has no business to read: what it writes, and the surplus. */
static size_t unread_from(int buffer)
{
    if (is_written(now.call, buffer))
        return 0;
    return owed.needed[buffer] > 0 ? owed.needed[buffer] * unit(buffer) : bytes_of(&now, buffer);
}

static void *prepare(int buffer, int at_end)
{
    const size_t bytes = bytes_of(&now, buffer), from = unread_from(buffer);
    unsigned char *lent = lend(buffer, bytes, at_end);
    memcpy(lent, now.before[buffer], bytes);
    VALGRIND_MAKE_MEM_UNDEFINED(lent + from, bytes - from);
    if (!is_written(now.call, buffer))
        only_read(buffer, bytes, at_end, 1);
    return lent;
}

static void check_reply(uint64_t came)
{
    const uint64_t o = owed.reply, c = came;
    if (o == c)
        return;
    printf("%s: owed %u %u %u %u, came %u %u %u %u\n", doing, (unsigned)(o & 255), (unsigned)(o >> 8 & 255),
           (unsigned)(o >> 16 & 65535), (unsigned)(o >> 32), (unsigned)(c & 255), (unsigned)(c >> 8 & 255),
           (unsigned)(c >> 16 & 65535), (unsigned)(c >> 32));
    abort();
}

/* The owed units, then those that were there before. */
static void check_units(int buffer, const unsigned char *lent)
{
    const size_t bytes = bytes_of(&now, buffer), changed = owed.written[buffer] * unit(buffer);
    const unsigned char *before = now.before[buffer], *after = owed.after[buffer];
    const int judged = changed > 0 && buffer == RESULT && owed.judged;
    size_t k;
    VALGRIND_MAKE_MEM_DEFINED(lent + changed, bytes - changed);
    if (judged && !judge(&now, (const uint32_t *)(const void *)lent))
        abort();
    if ((judged || memcmp(lent, after, changed) == 0) && memcmp(lent + changed, before + changed, bytes - changed) == 0)
        return;
    for (k = judged ? changed : 0; lent[k] == (k < changed ? after[k] : before[k]); k++)
        ;
    printf("%s: buffer %d, byte %zu: owed %u, came %u\n", doing, buffer + 1, k, k < changed ? after[k] : before[k], lent[k]);
    abort();
}

static void run_at(int at_end)
{
    void *lent[BUFFERS] = {NULL}, *handed[BUFFERS] = {NULL};
    int buffer;
    note(&now, at_end);
    for (buffer = 0; buffer < BUFFERS; buffer++)
        if (uses(now.call, buffer)) {
            lent[buffer] = prepare(buffer, at_end);
            handed[buffer] = now.empty_is_null && now.count[buffer] == 0 ? NULL : lent[buffer];
        }
    if (now.same)
        handed[SECOND] = handed[TABLE];
    check_reply(run_call(&now, handed));
    for (buffer = 0; buffer < BUFFERS; buffer++)
        if (uses(now.call, buffer)) {
            check_units(buffer, lent[buffer]);
            only_read(buffer, bytes_of(&now, buffer), at_end, 0);
        }
}

void check_input(const uint8_t *data, size_t size, uint8_t *seen)
{
    set_up();
    decode(&now, data, size);
    note(&now, 1);
    work_out(&now, &owed);
    tally[now.call][owed.reply & 255]++;
    if (now.call == KERNEL_CHECK && (owed.reply & 255) == ACCEPTED)
        shown[owed.reply >> 32]++;
    mark_classes(&now, &owed, seen);
    run_at(1);
    run_at(0);
}

void print_tally(void)
{
    int call, number;
    printf("%-16s accepted, then refusals 1 to 13\n", "call");
    for (call = 0; call < CALLS; call++) {
        printf("%-16s", call_names[call]);
        for (number = 0; number < REPLIES; number++)
            refuses(call, number) ? printf(" %9lu", tally[call][number]) : printf("         -");
        printf("\n");
    }
    printf("kernel_check gives 1 %lu times, 0 %lu times\n", shown[1], shown[0]);
}
