"""Solves for a column with the table of a row file: python3 solve.py FILE WORD WORD .. prints the solution."""

import sys

import residues


def main():
    if len(sys.argv) < 3:
        sys.exit(__doc__)
    with open(sys.argv[1], "rb") as file:
        p, n, r, s, table = residues.read_file(file.read())
    column = [int(word) for word in sys.argv[2:]]
    if len(column) > n:
        sys.exit("%d words, where the table has %d rows" % (len(column), n))
    solution = residues.solve(p, n, r, s, table, column)
    print("modulo", p, "solution", *solution)
    print("applied", *residues.apply(p, n, r, s, table, solution))


# A file that cannot be read, a word that is no number, and a refusal, which is a ValueError too.
try:
    main()
except (OSError, ValueError) as error:
    sys.exit(str(error))
