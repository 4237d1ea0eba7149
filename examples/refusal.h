/* A refusal in words: what the examples print where a call is not accepted. */
#ifndef REFUSAL_H
#define REFUSAL_H

#include <stdio.h>
#include <string.h>

#include "residues.h"

/* Whether the call was accepted; where it was not, its refusal goes to standard error. */
static inline int accepted(const char *call, uint64_t reply)
{
    static const char *const causes[] = {
        "accepted",
        "p, or p1 or p2, is no prime from 2 to 2147483647",
        "n is not 1 to 1024, or for solve_dense not 1 to 256",
        "an order is above 8",
        "a buffer is too short",
        "a word is not below its prime",
        "the orders add up to more than 8",
        "a leading corner is singular",
        "i or j, or k, is not 1 to n",
        "the file is under 20 bytes, or of the wrong length",
        "the file's chain is wrong after this row",
        "p1 and p2 are the same prime",
        "two residues have no fraction within the bound",
        "no leading corner is singular",
    };
    static const char *const buffers[] = {
        "no buffer", "the table", "the second table", "the column", "work or the square", "the result", "the file",
    };
    /* Those of fractions, which has no third. */
    static const char *const fraction_buffers[] = {
        "no buffer", "the first residues", "the second residues", "", "the numerators", "the denominators",
    };
    const char *const *named = strcmp(call, "fractions") == 0 ? fraction_buffers : buffers;
    const uint32_t number = residues_number(reply);
    const int whole = number == RESIDUES_ZERO_PIVOT && residues_row(reply) == 0;
    if (number == RESIDUES_OK) {
        return 1;
    }
    fflush(stdout);
    fprintf(stderr, "%s: refused %u: %s (%s, row %u)\n", call, number, whole ? "the whole matrix is singular" : causes[number],
            named[residues_buffer(reply)], residues_row(reply));
    return 0;
}

#endif
