"""Calls the library residues from Python: exact linear algebra modulo a prime on matrices given by generators, and fractions from
residues under two primes.

One function a call, by the names of the header residues.h. Numbers are whole numbers from 0 to 4294967295; tables and columns are
sequences of such numbers, files are bytes. A table of n rows, lower order r and upper order s has n * row_words(r, s) words; a row
holds d, p, a, q, g, b, h, and row 1 is a row like the others. What is returned is fresh; what is handed in stays as it was.

A refusal of the library is raised as Refused, an argument that cannot be handed over as BadArgument. The shared library is looked
for when it is first needed: by the name given to load, by the environment variable RESIDUES_LIBRARY, under the prefix in which this
file is installed, and by the system's loader.
"""

import array
import collections
import ctypes
import operator
import os
import struct
from fractions import Fraction

# The library's version, which `set-version` puts here. The shared library's name has its first number.
__version__ = "1.3.2"

HOUSE_PRIME = 2147483647
LARGEST_SIZE = 1024
LARGEST_DENSE_SIZE = 256
LARGEST_ORDER = 8
HEAD_BYTES = 20

# The names of a refusal's number, as in the header, and what they mean.
CAUSES = (
    ("OK", "accepted"),
    ("BAD_PRIME", "p, or p1 or p2, is no prime from 2 to 2147483647"),
    ("BAD_SIZE", "n is not 1 to 1024, or for solve_dense not 1 to 256"),
    ("BAD_ORDER", "an order is above 8"),
    ("SHORT_BUFFER", "a buffer is too short"),
    ("BAD_WORD", "a word is not below its prime"),
    ("BAD_ORDER_SUM", "the orders add up to more than 8"),
    ("ZERO_PIVOT", "a leading corner is singular"),
    ("BAD_PLACE", "i or j, or k, is not 1 to n"),
    ("BAD_LENGTH", "the file is under 20 bytes, or of the wrong length"),
    ("BAD_CHAIN", "the file's chain is wrong after this row"),
    ("EQUAL_PRIMES", "p1 and p2 are the same prime"),
    ("NO_FRACTION", "two residues have no fraction within the bound"),
    ("REGULAR", "no leading corner is singular"),
)
WHOLE_SINGULAR = "the whole matrix is singular"  # what 7 means beside row 0
BUFFERS = ("no buffer", "the table", "the second table", "the column", "work or the square", "the result", "the file")
FRACTION_BUFFERS = {0: "no buffer", 1: "the first residues", 2: "the second residues", 4: "the numerators", 5: "the denominators"}

_CALLS = ("entry", "matrix", "apply", "apply_transpose", "transpose", "multiple", "sum", "product", "solve", "solve_dense",
          "inverse", "kernel", "kernel_check", "read_file", "write_file", "fractions")

Table = collections.namedtuple("Table", "p n r s words")
Head = collections.namedtuple("Head", "p n r s first")


class Refused(ValueError):
    """A refusal of the library: its number and name, the buffer and the row beside it. The row of fractions is the place, from 1."""

    def __init__(self, number, buffer, row, buffers=BUFFERS):
        self.number, self.buffer, self.row, self._buffers = number, buffer, row, buffers
        self.name, cause = CAUSES[number]
        if (self.name, row) == ("ZERO_PIVOT", 0):
            cause = WHOLE_SINGULAR
        super().__init__("refused %d, %s: %s (%s, row %d)" % (number, self.name, cause, buffers[buffer], row))

    def __reduce__(self):
        return Refused, (self.number, self.buffer, self.row, self._buffers)


class BadArgument(ValueError):
    """An argument that cannot be handed to the library: no whole number from 0 to 4294967295, no sequence of such, no bytes,
    or two sequences of different lengths for fractions."""


# ---- the shared library ----

_library = None


def load(path=None):
    """Loads the shared library from the path, or from the first place where it is found. Later calls go to it."""
    global _library
    library = ctypes.CDLL(path or _found())
    for name in _CALLS:
        getattr(library, "residues_" + name).restype = ctypes.c_uint64
    _library = library


def _found():
    here = os.path.dirname(os.path.abspath(__file__))
    library = "libresidues.so." + __version__.split(".")[0]
    installed = os.path.join(here, "..", "..", "..", "lib", library)
    named = os.environ.get("RESIDUES_LIBRARY")
    if named:
        return named
    return installed if os.path.exists(installed) else library


def _run(call, numbers, *buffers):
    """Hands the numbers and then the buffers over; returns the reply's value."""
    arguments = [ctypes.c_uint32(number) for number in numbers]
    for buffer in buffers:
        arguments += [buffer, ctypes.c_size_t(len(buffer))]
    if _library is None:
        load()
    reply = getattr(_library, "residues_" + call)(*arguments)
    if reply & 255:
        named = FRACTION_BUFFERS if call == "fractions" else BUFFERS
        raise Refused(reply & 255, reply >> 8 & 255, reply >> 16 & 65535, named)
    return reply >> 32


# ---- arguments ----


def _number(name, number):
    try:
        word = operator.index(number)
    except TypeError:
        word = -1
    if not 0 <= word <= 0xFFFFFFFF:
        raise BadArgument("%s is %r, no whole number from 0 to 4294967295" % (name, number))
    return word


def _numbers(**named):
    return [_number(name, number) for name, number in named.items()]


def _words(name, words):
    """The words as a buffer for the library. The first that is none is named."""
    try:
        words = iter(words)
    except TypeError:
        raise BadArgument("%s is %r, no sequence of words" % (name, words)) from None
    listed = list(words)
    try:
        checked = array.array("I", map(operator.index, listed))
    except (TypeError, OverflowError):
        checked = array.array("I", [_number("%s[%d]" % (name, place), word) for place, word in enumerate(listed)])
    return (ctypes.c_uint32 * len(checked)).from_buffer(checked)


def _lent(**named):
    return [_words(name, words) for name, words in named.items()]


def _bytes(name, data):
    if not isinstance(data, (bytes, bytearray, memoryview)):
        raise BadArgument("%s is %r, no bytes" % (name, type(data)))
    data = bytes(data)
    return (ctypes.c_uint8 * len(data)).from_buffer_copy(data)


def _blank(count, word=ctypes.c_uint32):
    return (word * count)()


def _limited(n, r, s):
    """For the lengths of what is written: a number above its limit is refused before any length is looked at."""
    return min(n, LARGEST_SIZE), min(r, LARGEST_ORDER), min(s, LARGEST_ORDER)


# ---- lengths, and the head of a file ----


def row_words(r, s):
    """The words of a row."""
    return 1 + 2 * r + r * r + 2 * s + s * s


def table_words(n, r, s):
    """The words of a table of n rows."""
    return n * row_words(r, s)


def file_bytes(n, r, s):
    """The bytes of a row file of n rows."""
    return 4 * (5 + n * (1 + row_words(r, s)))


def file_head(file):
    """The head of a row file: p (2147483647 where the file has 0), n, r, s and the first record's number, within limits or not."""
    if len(_bytes("file", file)) < HEAD_BYTES:
        raise Refused(9, 6, 0)
    p, n, r, s, first = struct.unpack_from("<5I", bytes(file))
    return Head(p or HOUSE_PRIME, n, r, s, first)


# ---- the calls ----


def entry(p, n, r, s, i, j, table):
    """The entry at (i, j), from 1."""
    return _run("entry", _numbers(p=p, n=n, r=r, s=s, i=i, j=j), _words("table", table))


def matrix(p, n, r, s, table):
    """The whole matrix, as a list of n rows."""
    numbers = _numbers(p=p, n=n, r=r, s=s)
    rows = min(numbers[1], LARGEST_SIZE)
    result = _blank(rows * rows)
    _run("matrix", numbers, _words("table", table), result)
    return [result[k * rows:(k + 1) * rows] for k in range(rows)]


def apply(p, n, r, s, table, column):
    """The table times the column."""
    return _column_call("apply", _numbers(p=p, n=n, r=r, s=s), *_lent(table=table, column=column))


def apply_transpose(p, n, r, s, table, column):
    """The transposed table times the column."""
    return _column_call("apply_transpose", _numbers(p=p, n=n, r=r, s=s), *_lent(table=table, column=column))


def transpose(p, n, r, s, table):
    """The transposed table, of orders s and r."""
    _, n, r, s = numbers = _numbers(p=p, n=n, r=r, s=s)
    return _table_call("transpose", numbers, (n, s, r), table=table)


def multiple(p, n, r, s, c, table):
    """The table of c times the matrix."""
    _, n, r, s, _ = numbers = _numbers(p=p, n=n, r=r, s=s, c=c)
    return _table_call("multiple", numbers, (n, r, s), table=table)


def sum(p, n, r1, s1, r2, s2, first, second):
    """The table of the sum, of orders r1 + r2 and s1 + s2."""
    _, n, r1, s1, r2, s2 = numbers = _numbers(p=p, n=n, r1=r1, s1=s1, r2=r2, s2=s2)
    return _table_call("sum", numbers, (n, r1 + r2, s1 + s2), first=first, second=second)


def product(p, n, r1, s1, r2, s2, first, second):
    """The table of the first matrix times the second, of orders r1 + r2 and s1 + s2."""
    _, n, r1, s1, r2, s2 = numbers = _numbers(p=p, n=n, r1=r1, s1=s1, r2=r2, s2=s2)
    return _table_call("product", numbers, (n, r1 + r2, s1 + s2), first=first, second=second)


def solve(p, n, r, s, table, column, *, dense=False):
    """The column that the table sends to the given one. Refused 7 names the row where the least singular leading corner ends; where
    that is not the last row the matrix may have an inverse all the same. With dense=True and n to 256 solve_dense is asked then, and
    its answer or refusal is what comes: refused 7 with row 0 where the whole matrix is singular, the first refusal being its
    __context__. Above 256 the first refusal stands."""
    _, n, _, s = numbers = _numbers(p=p, n=n, r=r, s=s)
    lent = _lent(table=table, column=column)
    try:
        return _column_call("solve", numbers, *lent, _blank(min(n, LARGEST_SIZE) * min(s, LARGEST_ORDER)))
    except Refused as refused:
        if not dense or refused.name != "ZERO_PIVOT" or n > LARGEST_DENSE_SIZE:
            raise
        return _dense_call(numbers, lent)


def solve_dense(p, n, r, s, table, column):
    """The column that the table sends to the given one, for n to 256, also where a leading corner is singular. Refused 7, row 0, says
    that the whole matrix is singular: no column is sent to the given one, or more than one is. About n * n * n / 3 multiplications,
    in n * n words."""
    return _dense_call(_numbers(p=p, n=n, r=r, s=s), _lent(table=table, column=column))


def inverse(p, n, r, s, table):
    """The table of the inverse matrix, of the same orders."""
    _, n, r, s = numbers = _numbers(p=p, n=n, r=r, s=s)
    return _table_call("inverse", numbers, (n, r, s), table=table)


def kernel(p, n, r, s, table):
    """The k residues, the last of them 1, that the leading k by k corner sends to zeros, where k is the row that refused 7 of solve and
    inverse names; k is the length of what comes. In the first k rows, column k is minus the sum of the columns before it, each times its
    residue. There is only one such column of residues. Refused 13 says that no leading corner is singular."""
    numbers = _numbers(p=p, n=n, r=r, s=s)
    result = _blank(min(numbers[1], LARGEST_SIZE))
    k = _run("kernel", numbers, _words("table", table), result)
    return result[:k]


def kernel_check(p, n, r, s, k, table, column):
    """Whether word k of the column, from 1, is 1 and the leading k by k corner sends the first k words to zeros, for any k from 1 to n
    and any column. True says that the corner is singular; False does not say that it is not. All n words are looked at, and one that is
    not below p is refused with 5. A column of k words alone, such as kernel returns, is taken as if zeros followed it to the n-th word."""
    _, n, _, _, k = numbers = _numbers(p=p, n=n, r=r, s=s, k=k)
    lent, column = _lent(table=table, column=column)
    if len(column) == k:
        column = _words("column", [*column, *[0] * (min(n, LARGEST_SIZE) - k)])
    return _run("kernel_check", numbers, lent, column) == 1


def read_file(file):
    """The table of a row file, with its prime, size and orders."""
    lent = _bytes("file", file)
    head = file_head(file)
    result = _blank(table_words(*_limited(head.n, head.r, head.s)))
    p = _run("read_file", [], lent, result)
    return Table(p, head.n, head.r, head.s, list(result))


def write_file(p, n, r, s, table):
    """The row file of the table, as bytes."""
    _, n, r, s = numbers = _numbers(p=p, n=n, r=r, s=s)
    file = (ctypes.c_uint8 * file_bytes(*_limited(n, r, s)))()
    _run("write_file", numbers, _words("table", table), file)
    return bytes(file)


def fractions(p1, p2, xs, ys):
    """The fractions that have the residues xs under p1 and ys under p2, two different primes, as fractions.Fraction, place by place.
    xs and ys have one length. Each is the only one within the bound (see residues.h), which is not always the problem's answer: check it
    in the problem's own equations. Refused 12 names the first place without one."""
    numbers = _numbers(p1=p1, p2=p2)
    first, second = _words("xs", xs), _words("ys", ys)
    n = len(first)
    if len(second) != n:
        raise BadArgument("xs and ys have different lengths, %d and %d" % (n, len(second)))
    numerators, denominators = _blank(n, ctypes.c_int32), _blank(n)
    _run("fractions", numbers + _numbers(n=n), first, second, numerators, denominators)
    return [Fraction(*parts) for parts in zip(numerators, denominators)]


def _column_call(call, numbers, *lent):
    """A call that writes a column."""
    result = _blank(min(numbers[1], LARGEST_SIZE))
    _run(call, numbers, *lent, result)
    return list(result)


def _dense_call(numbers, lent):
    """The dense solve, with a square of its own."""
    side = min(numbers[1], LARGEST_DENSE_SIZE)
    return _column_call("solve_dense", numbers, *lent, _blank(side * side))


def _table_call(call, numbers, shape, **tables):
    """A call that writes a table of the shape: n, r, s."""
    result = _blank(table_words(*_limited(*shape)))
    _run(call, numbers, *_lent(**tables), result)
    return list(result)
