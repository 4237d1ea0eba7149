"""Solves one problem in whole numbers exactly: under two primes, then as fractions, which are checked without a prime."""

import sys

import residues

PRIMES = 2147483647, 2147483629

# Which answer does the matrix send to the right side? A row of the matrix's table is d, p, a, q, g, b, h.
MATRIX = [[4, -1, 0], [-1, 4, -1], [0, -1, 4]]
TABLE = [4, -1, 0, 1, -1, 0, 1] * 3
RIGHT_SIDE = [1, 2, -3]


def solved(p):
    """The residues of the answer under p."""
    return residues.solve(p, 3, 1, 1, [word % p for word in TABLE], [word % p for word in RIGHT_SIDE])


answer = residues.fractions(*PRIMES, *map(solved, PRIMES))
print(*answer)
# The problem's own equations, without the table or a prime: Python reckons with fractions exactly.
for row, right in zip(MATRIX, RIGHT_SIDE):
    if sum(entry * x for entry, x in zip(row, answer)) != right:
        sys.exit("this does not solve the problem")
print("this solves the problem")
