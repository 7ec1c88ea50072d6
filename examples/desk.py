"""The desk for Python, over target/examples/libdesk.so, which examples/run makes (or the library that DESK_LIBRARY names).

A polynomial is a list of at most TERMS whole numbers, constant term first; an answer has no zeros above its degree. A change
is (a, b). Where 01 or 02 refuses, Refused is raised. What is no request at all raises ValueError (a number that does not fit
its word, a list that is too long) or TypeError (what is no whole number, no bytes, no text).

A modulus m is a word: 2 to 2147483647, or 0, which means 2^32 (2**32 fits no word). The modulus in an answer is that word too.
At 2^32 every word is a coefficient; No. 5 is given for an even r and for chains of an even n, No. 8 only for an even a.
"""

import collections
import ctypes
import operator
import os
import pathlib

LIMIT = 126  # the highest degree
TERMS = LIMIT + 1  # coefficients of a polynomial
PARTS = LIMIT.bit_length() - 1  # parts of a chain at most: none has a degree below 2
WORDS = PARTS * TERMS  # words of a chain area that are used
BYTES = 4 * (1 + TERMS)  # bytes of a record: the modulus, then the coefficients
SHEET = PARTS * BYTES  # bytes of a chain sheet that are used: a record for each place of an area
TEXT_BYTES = 8192  # bytes of the longest text that is read
TEXT_MOST = 24 * TERMS  # bytes of an area in which every text fits that is written
TWO_TO_32 = 0  # the modulus word that means 2^32

REASONS = {
    1: "m is 1 or above 2147483647",
    2: "a coefficient is m or more",
    3: "the degree is below 2, or all is zero",
    4: "the leading coefficient is not 1",
    5: "r, or a chain's n, shares a factor with m",
    6: "r, or the degree of h, does not fit",
    7: "no pair; no left part",
    8: "a or b is m or more, or a has no inverse",
    9: "fewer bytes than a record has",
    10: f"the composed degree is too high, or a sum, product or power in a text has a nonzero coefficient above x^{LIMIT}",
    11: f"the area has fewer than {WORDS} words, or the sheet has fewer than {SHEET} bytes, or the text does not fit its area",
    12: "the used places are not the first ones, or none is used, or the moduli of a sheet differ",
    13: f"the text is misspelt, or a power in it is above {LIMIT}, or it has no byte or more than {TEXT_BYTES}",
    14: "a ninth bracket is opened inside eight",
    18: "j is not below the number of chains",
}


class Refused(Exception):
    """A refusal of 01 or 02: its number, the polynomial it concerns, and the power of x.

    The polynomial is "first", "second", "place 0", "place 1" and so on (of a sheet, or of the area that is written as one) or
    None.
    The power is the lowest whose coefficient offends for No. 2, and 0 for all others.
    """

    def __init__(self, number, polynomial, power):
        super().__init__(number, polynomial, power)
        self.number = number
        self.polynomial = polynomial
        self.power = power

    def __str__(self):
        concerned = ""
        if self.polynomial in ("first", "second"):
            concerned = f" ({self.polynomial} polynomial)"
        elif self.polynomial:
            concerned = f" (in {self.polynomial})"
        power = f", at x^{self.power}" if self.number == 2 else ""
        return f"No. {self.number}: {REASONS.get(self.number, 'refused')}{power}{concerned}"


Checked = collections.namedtuple("Checked", "modulus polynomial degree")
Quick = collections.namedtuple("Quick", "yes power")
Chain = collections.namedtuple("Chain", "parts tries price")
NthChain = collections.namedtuple("NthChain", "parts price")
Sheet = collections.namedtuple("Sheet", "modulus parts polynomial")


# The library.


_Word = ctypes.c_uint32
_Size = ctypes.c_size_t
_Words = ctypes.POINTER(_Word)
_Bytes = ctypes.POINTER(ctypes.c_uint8)
_Polynomial = _Word * TERMS
_Change = _Word * 2
_Numbers = _Size * 3
_NthNumbers = _Size * 2
_Quick = _Size * 2
_Place = _Size * 2
_Sheet = ctypes.c_uint8 * SHEET


class _Refused(ctypes.Structure):
    _fields_ = [("number", _Word), ("polynomial", _Word), ("power", _Word)]


_FUNCTIONS = {
    "check": (ctypes.c_char_p, _Size, _Words, _Polynomial, ctypes.POINTER(_Size)),
    "compose": (_Word, _Polynomial, _Polynomial, _Polynomial),
    "left_part": (_Word, _Polynomial, _Polynomial, _Polynomial),
    "split": (_Word, _Polynomial, _Size, _Polynomial, _Polynomial),
    "quick": (_Word, _Polynomial, _Size, _Quick),
    "change_polynomial": (_Word, _Polynomial, _Word, _Word, _Polynomial),
    "change_pair": (_Word, _Polynomial, _Polynomial, _Word, _Word, _Polynomial, _Polynomial),
    "combine": (_Word, _Word, _Word, _Word, _Word, _Change),
    "undo": (_Word, _Word, _Word, _Change),
    "chain": (_Word, _Polynomial, _Words, _Size, _Numbers),
    "count_chains": (_Word, _Polynomial, ctypes.POINTER(_Size)),
    "nth_chain": (_Word, _Polynomial, _Size, _Words, _Size, _NthNumbers),
    "part": (_Words, _Size, _Size, _Place),
    "write_sheet": (_Word, _Words, _Size, _Bytes, _Size),
    "read_sheet": (ctypes.c_char_p, _Size, _Words, _Size, _Words, _Polynomial),
    "read_text": (_Word, ctypes.c_char_p, _Size, _Polynomial),
    "write_text": (_Word, _Polynomial, _Bytes, _Size, ctypes.POINTER(_Size)),
}


def _library():
    usual = pathlib.Path(__file__).resolve().parents[1] / "target" / "examples" / "libdesk.so"
    path = os.environ.get("DESK_LIBRARY", str(usual))
    if not os.path.exists(path):
        raise ImportError(f"no {path}: run examples/run first, or name the library in DESK_LIBRARY")
    library = ctypes.CDLL(path)
    for name, parameters in _FUNCTIONS.items():
        function = getattr(library, f"desk_{name}")
        function.argtypes = parameters
        function.restype = None if name == "part" else _Refused
    return library


_desk = _library()

_CONCERNED = {0: None, 1: "first", 2: "second"}
_CONCERNED.update((16 + i, f"place {i}") for i in range(PARTS))


def _answered(refused):
    if refused.number != 0:
        raise Refused(refused.number, _CONCERNED[refused.polynomial], refused.power)


# What is given, and what comes back. ctypes alone would take any number modulo 2^32.


def _number(value, kind=_Word):
    number = operator.index(value)
    bits = 8 * ctypes.sizeof(kind)
    if not 0 <= number < 1 << bits:
        raise ValueError(f"{number} is no word of {bits} bits")
    return number


def _polynomial(f):
    words = [_number(c) for c in f]
    if len(words) > TERMS:
        raise ValueError(f"{len(words)} coefficients: a polynomial has at most {TERMS}")
    return _Polynomial(*words)


def _change(change):
    a, b = change
    return _number(a), _number(b)


def _area(area):
    words = [_number(word) for word in area]
    return (_Word * len(words))(*words)


def _trimmed(words):
    words = list(words)
    while words and words[-1] == 0:
        words.pop()
    return words


# The operations.


def check(record):
    """The modulus, polynomial and degree of the record that these bytes begin with."""
    data = memoryview(record).tobytes()
    modulus, f, degree = _Word(), _Polynomial(), _Size()
    _answered(_desk.desk_check(data, len(data), modulus, f, degree))
    return Checked(modulus.value, _trimmed(f), degree.value)


def compose(m, g, h):
    """g(h)."""
    f = _Polynomial()
    _answered(_desk.desk_compose(_number(m), _polynomial(g), _polynomial(h), f))
    return _trimmed(f)


def left_part(m, f, h):
    """The g with f = g(h)."""
    g = _Polynomial()
    _answered(_desk.desk_left_part(_number(m), _polynomial(f), _polynomial(h), g))
    return _trimmed(g)


def split(m, f, r):
    """The pair (g, h) with f = g(h), g of degree r and h(0) = 0."""
    g, h = _Polynomial(), _Polynomial()
    _answered(_desk.desk_split(_number(m), _polynomial(f), _number(r, _Size), g, h))
    return _trimmed(g), _trimmed(h)


def quick(m, f, r):
    """Whether f has a pair at r, and the highest power of x that differs, 0 with a yes.

    What differs are f and g(h), where h is the right part that f's leading terms force and g the monic one for which they agree
    at every power of x that the degree of h divides. Refused as split is; a no is an answer, and no No. 7.
    """
    answer = _Quick()
    _answered(_desk.desk_quick(_number(m), _polynomial(f), _number(r, _Size), answer))
    yes, power = answer
    return Quick(yes == 1, power)


def change_polynomial(m, f, change):
    """f changed by (a, b)."""
    changed = _Polynomial()
    _answered(_desk.desk_change_polynomial(_number(m), _polynomial(f), *_change(change), changed))
    return _trimmed(changed)


def change_pair(m, g, h, change):
    """The pair (g, h) changed by (a, b)."""
    left, right = _Polynomial(), _Polynomial()
    _answered(_desk.desk_change_pair(_number(m), _polynomial(g), _polynomial(h), *_change(change), left, right))
    return _trimmed(left), _trimmed(right)


def combine(m, first, second):
    """The one change that is the first and then the second."""
    made = _Change()
    _answered(_desk.desk_combine(_number(m), *_change(first), *_change(second), made))
    return tuple(made)


def undo(m, change):
    """The change that undoes (a, b)."""
    made = _Change()
    _answered(_desk.desk_undo(_number(m), *_change(change), made))
    return tuple(made)


def chain(m, f, area=None):
    """The parts of f's complete chain, left to right, its tries and its price.

    The price is the multiplications that the parts cost: n - 1 for one of degree n.
    A list of words given as the area is written as 01 says, after a refusal too.
    """
    words = _area([0] * WORDS if area is None else area)
    numbers = _Numbers()
    refused = _desk.desk_chain(_number(m), _polynomial(f), words, len(words), numbers)
    if area is not None:
        area[:] = words
    _answered(refused)
    parts, tries, price = numbers
    return Chain([part(words, i) for i in range(parts)], tries, price)


def count_chains(m, f):
    """The number of f's complete chains that are normal: no part splits, and all but the leftmost have constant term 0."""
    number = _Size()
    _answered(_desk.desk_count_chains(_number(m), _polynomial(f), number))
    return number.value


def nth_chain(m, f, j, area=None):
    """The parts of f's j-th complete chain, from 0, left to right, and its price.

    The chains are ordered by the degrees of their parts read from the right, the part next to x first: the smaller degree at
    the first difference comes first. The 0th has the parts and the price of chain(m, f).
    A list of words given as the area is written as 02 says, after a refusal too.
    """
    words = _area([0] * WORDS if area is None else area)
    numbers = _NthNumbers()
    refused = _desk.desk_nth_chain(_number(m), _polynomial(f), _number(j, _Size), words, len(words), numbers)
    if area is not None:
        area[:] = words
    _answered(refused)
    parts, price = numbers
    return NthChain([part(words, i) for i in range(parts)], price)


def chains(m, f):
    """All of f's complete chains, one at a time, in the order of nth_chain; a refusal comes with the call."""
    f = list(f)
    number = count_chains(m, f)
    return (nth_chain(m, f, j) for j in range(number))


def part(area, i):
    """Part i of a chain area, from 0; [] if it is empty."""
    words = _area(area)
    place = _Place()
    _desk.desk_part(words, len(words), _number(i, _Size), place)
    start, length = place
    return _trimmed(words[start : start + length])


def write_sheet(m, area):
    """The sheet of the modulus m and the parts of an area, a chain's or any others."""
    words = _area(area)
    sheet = _Sheet()
    _answered(_desk.desk_write_sheet(_number(m), words, len(words), sheet, SHEET))
    return bytes(sheet)


def read_sheet(sheet, area=None):
    """The modulus of the sheet that these bytes begin with, its parts, left to right, and what they compose to.

    A list of words given as the area is written as 02 says, after a refusal too.
    """
    data = memoryview(sheet).tobytes()
    words = _area([0] * WORDS if area is None else area)
    modulus, f = _Word(), _Polynomial()
    refused = _desk.desk_read_sheet(data, len(data), words, len(words), modulus, f)
    if area is not None:
        area[:] = words
    _answered(refused)
    parts = [part(words, i) for i in range(PARTS)]
    return Sheet(modulus.value, [p for p in parts if p], _trimmed(f))


def read_text(m, text):
    """The polynomial that a text means, a str or bytes, as (x^2+x)^2-3*x."""
    data = text.encode() if isinstance(text, str) else memoryview(text).tobytes()
    f = _Polynomial()
    _answered(_desk.desk_read_text(_number(m), data, len(data), f))
    return _trimmed(f)


def write_text(m, f, area=None):
    """f as a text that read_text reads back, as 1*x^2+1*x^1+3*x^0.

    A bytearray given as the area is written as 02 says.
    """
    area = bytearray(TEXT_MOST) if area is None else area
    places = (ctypes.c_uint8 * len(area)).from_buffer(area)
    length = _Size()
    _answered(_desk.desk_write_text(_number(m), _polynomial(f), places, len(area), length))
    return area[: length.value].decode()
