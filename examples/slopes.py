"""Finds heights from their slopes, by central differences. The matrix has a diagonal of zeros: solve refuses it, unless dense=True."""

import sys

import residues

PRIMES = 2147483647, 2147483629

# The height is 0 before the first point and after the last. What a height is above the one two places before it is twice the slope at
# the point between: the matrix has -1 before its diagonal, 1 after it, and 0 elsewhere. A row of its table is d, p, a, q, g, b, h.
ROW = [0, -1, 0, 1, 1, 0, 1]
TWICE_THE_SLOPES = [1, 1, 0, 1, 8, -3, -3, -2]


def heights(twice):
    """The heights at the points, as fractions."""
    n = len(twice)

    def solved(p):
        return residues.solve(p, n, 1, 1, [word % p for word in ROW] * n, [word % p for word in twice], dense=True)

    return residues.fractions(*PRIMES, *map(solved, PRIMES))


found = heights(TWICE_THE_SLOPES)
print(*found)
# The problem's own equations, without the table or a prime.
ends = [0, *found, 0]
if [after - before for before, after in zip(ends, ends[2:])] != TWICE_THE_SLOPES:
    sys.exit("these do not have the slopes")
print("these have the slopes")
# With an odd number of points the heights 1 0 1 .. 0 1 have slope 0 at each: no slopes have one answer only.
try:
    heights(TWICE_THE_SLOPES[:7])
except residues.Refused as refused:
    print(refused)
