"""Finds the weighing that tells nothing new: kernel shows how the rows depend on each other, as columns of the transposed table."""

import sys

import residues

P = residues.HOUSE_PRIME

# Which of five weights lay on the scales in each of five weighings, and what the scales said.
MATRIX = [[1, 1, 0, 0, 0],
          [0, 1, 1, 0, 0],
          [0, 0, 1, 1, 0],
          [1, 0, 0, 1, 0],
          [0, 0, 0, 1, 1]]
GRAMS = [8, 12, 11, 7, 9]

# The matrix's table: a row is d, p, a, q, g, b, h. The transposed table has the same shape, since both orders are 1.
SHAPE = P, 5, 1, 1
TABLE = [1, 0, 0, 1, 1, 0, 0,
         1, 0, 1, 0, 1, 0, 1,
         1, 0, 1, 0, 1, 0, 1,
         1, 1, 0, 1, 0, 0, 1,
         1, 1, 0, 0, 0, 0, 1]


def near_zero(word):
    """A residue as a whole number near 0."""
    return word - P if word > P // 2 else word


def combined(factors, words):
    return sum(factor * word for factor, word in zip(factors, words))


def in_words(factors):
    """The weighings, each times its factor."""
    said = ""
    for number, factor in enumerate(factors, 1):
        if factor:
            said += " minus" if factor < 0 else " plus" if said else ""
            said += " %d times" % abs(factor) if abs(factor) > 1 else ""
            said += " weighing %d" % number
    return said or " nothing"


try:
    residues.solve(*SHAPE, TABLE, GRAMS)
    sys.exit("each weighing tells something new")
except residues.Refused as refused:
    print(refused)
turned = residues.transpose(*SHAPE, TABLE)
found = residues.kernel(*SHAPE, turned)
k = len(found)
if not residues.kernel_check(*SHAPE, k, turned, found):
    sys.exit("kernel_check says no")
# The weighings, each times its word, add up to zeros, and the last word is 1: so each of the others has minus its word as factor.
factors = [-near_zero(word) for word in found[:-1]]
print("weighing %d is%s" % (k, in_words(factors)))
# Without the table or a prime, and for all weights: those after the k-th are not in the corner.
if [combined(factors, column) for column in zip(*MATRIX)] != MATRIX[k - 1]:
    sys.exit("this is not so for every weight")
print("by the others it is %d grams, by the scales %d" % (combined(factors, GRAMS), GRAMS[k - 1]))
