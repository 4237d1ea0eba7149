/* The fuzzer's entry: libFuzzer hands in an input, and what ran is told at the end. */
#include <stdio.h>
#include <stdlib.h>

#include "fuzz.h"

int LLVMFuzzerTestOneInput(const uint8_t *data, size_t size);

/* Counters that libFuzzer reads beside those of the code: an input of a class not seen before is kept. */
__attribute__((section("__libfuzzer_extra_counters"), used)) static uint8_t seen[CLASSES];

int LLVMFuzzerTestOneInput(const uint8_t *data, size_t size)
{
    static int counting;
    if (!counting)
        counting = atexit(print_tally) == 0 && setvbuf(stdout, NULL, _IOLBF, 0) == 0;
    check_input(data, size, seen);
    return 0;
}
