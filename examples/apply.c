/* Applies file M's table, modulo 7, to the column 1, 2, 3. */
#include <stdio.h>

#include "residues.h"

int main(void)
{
    const uint32_t table[] = {
        1, 9, 9, 2, 1, 9, 9, /* row 1: d, p, a, q, g, b, h; its p, a, b, h are never used */
        3, 1, 2, 1, 2, 3, 1, /* row 2 */
        5, 3, 9, 9, 9, 9, 4, /* row 3: its a, q, g, b are never used */
    };
    const uint32_t column[] = {1, 2, 3};
    uint32_t result[3];
    uint64_t reply = residues_apply(7, 3, 1, 1, table, 21, column, 3, result, 3);
    if (residues_number(reply) != RESIDUES_OK) {
        printf("refused %u, buffer %u, row %u\n", residues_number(reply), residues_buffer(reply), residues_row(reply));
        return 1;
    }
    printf("%u %u %u\n", result[0], result[1], result[2]);
    return 0;
}
