/* Prints the header's version: the text, and what the three numbers make. */
#include <stdio.h>

#include "residues.h"

int main(void)
{
    printf("%s %d.%d.%d\n", RESIDUES_VERSION, RESIDUES_VERSION_MAJOR, RESIDUES_VERSION_MINOR, RESIDUES_VERSION_PATCH);
    return 0;
}
