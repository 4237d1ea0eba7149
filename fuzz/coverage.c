/* Counts the library's edges that a replay takes; for an archive that fuzz/instrument has built. Untaken ones are printed. */
#include <inttypes.h>
#include <stdio.h>

#include "fuzz.h"

#define MOST_EDGES 65536

static uint8_t *counters, taken[MOST_EDGES];
static size_t edges;
static const uintptr_t *places;

/* The compiled code's own names: its counters, the places of its edges, and comparisons, which do not matter here. */
void __sanitizer_cov_8bit_counters_init(uint8_t *start, uint8_t *stop);
void __sanitizer_cov_pcs_init(const uintptr_t *start, const uintptr_t *stop);
void __sanitizer_cov_trace_cmp4(uint32_t x, uint32_t y);
void __sanitizer_cov_trace_cmp8(uint64_t x, uint64_t y);
void __sanitizer_cov_trace_const_cmp1(uint8_t x, uint8_t y);
void __sanitizer_cov_trace_const_cmp2(uint16_t x, uint16_t y);
void __sanitizer_cov_trace_const_cmp4(uint32_t x, uint32_t y);
void __sanitizer_cov_trace_const_cmp8(uint64_t x, uint64_t y);
void __sanitizer_cov_trace_switch(uint64_t x, const uint64_t *cases);

void __sanitizer_cov_8bit_counters_init(uint8_t *start, uint8_t *stop)
{
    counters = start;
    edges = (size_t)(stop - start);
}

void __sanitizer_cov_pcs_init(const uintptr_t *start, const uintptr_t *stop)
{
    places = start;
    (void)stop;
}

void __sanitizer_cov_trace_cmp4(uint32_t x, uint32_t y) { (void)x, (void)y; }
void __sanitizer_cov_trace_cmp8(uint64_t x, uint64_t y) { (void)x, (void)y; }
void __sanitizer_cov_trace_const_cmp1(uint8_t x, uint8_t y) { (void)x, (void)y; }
void __sanitizer_cov_trace_const_cmp2(uint16_t x, uint16_t y) { (void)x, (void)y; }
void __sanitizer_cov_trace_const_cmp4(uint32_t x, uint32_t y) { (void)x, (void)y; }
void __sanitizer_cov_trace_const_cmp8(uint64_t x, uint64_t y) { (void)x, (void)y; }
void __sanitizer_cov_trace_switch(uint64_t x, const uint64_t *cases) { (void)x, (void)cases; }

/* After each input, since a counter may come round to 0. */
void note_edges(void)
{
    size_t k;
    for (k = 0; k < edges && k < MOST_EDGES; k++) {
        taken[k] |= counters[k] != 0;
        counters[k] = 0;
    }
}

void print_edges(void)
{
    size_t count = 0, k;
    for (k = 0; k < edges && k < MOST_EDGES; k++) {
        count += taken[k];
        if (!taken[k])
            printf("untaken %" PRIxPTR "\n", places[2 * k]);
    }
    printf("coverage: %zu of the library's %zu edges\n", count, edges);
}
