"""How each operation of desk.py is asked. The requests and their answers are those of samples/worked.cases, which says how they are
written. What is answered otherwise is printed, and at the end each function that answered all of its cases as it must, as worked.c does.
"""

import operator
import pathlib
import re
import struct

import desk

CASES = pathlib.Path(__file__).resolve().parents[1] / "samples" / "worked.cases"
LONG = desk.WORDS + 38  # an area that is longer than what is used
FIGURES = {"limit": desk.LIMIT, "terms": desk.TERMS, "parts": desk.PARTS}
FIGURES.update(words=desk.WORDS, bytes=desk.BYTES, sheet=desk.SHEET)
DO = {"+": operator.add, "-": operator.sub, "*": operator.mul, "/": operator.floordiv}


# What is asked, in the order of a line of cases; it gives what is answered, in that order too.


def check(record, count=desk.BYTES):
    modulus, f, degree = desk.check(record[:count])
    return modulus, degree, f


def quick(m, f, r):
    yes, power = desk.quick(m, f, r)
    return int(yes), power


def change_polynomial(m, f, a, b):
    return (desk.change_polynomial(m, f, (a, b)),)


def change_pair(m, g, h, a, b):
    return desk.change_pair(m, g, h, (a, b))


def combine(m, a, b, a2, b2):
    return desk.combine(m, (a, b), (a2, b2))


def undo(m, a, b):
    return desk.undo(m, (a, b))


def chain(m, f, count=LONG):
    found = desk.chain(m, f, lent(count))
    return len(found.parts), found.tries, found.price, found.parts


def nth_chain(m, f, j, count=LONG):
    found = desk.nth_chain(m, f, j, lent(count))
    return len(found.parts), found.price, found.parts


def part(parts, i, count=LONG):
    found = desk.part(area(parts)[:count], i)
    return (i * desk.TERMS, desk.TERMS) if found else (0, 0)


def write_sheet(m, parts, count=LONG, bytes=desk.SHEET):
    if bytes < desk.SHEET:  # it lends its own
        raise desk.Refused(11, None, 0)
    sheet = desk.write_sheet(m, area(parts)[:count])
    records = [sheet[i : i + desk.BYTES] for i in range(0, desk.SHEET, desk.BYTES)]
    while records and not any(records[-1]):
        records.pop()
    return (records,)


def read_sheet(records, count=LONG, bytes=desk.SHEET + 28):
    sheet = b"".join(records).ljust(desk.SHEET, b"\0").ljust(bytes, b"\xee")
    found = desk.read_sheet(sheet[:bytes], lent(count))
    return found.modulus, found.polynomial, found.parts


def write_text(m, f, count=desk.TEXT_MOST):
    text = desk.write_text(m, f, bytearray(count)).encode()
    return len(text), text


FUNCTIONS = {
    "check": check,
    "compose": lambda m, g, h: (desk.compose(m, g, h),),
    "left_part": lambda m, f, h: (desk.left_part(m, f, h),),
    "split": desk.split,
    "quick": quick,
    "change_polynomial": change_polynomial,
    "change_pair": change_pair,
    "combine": combine,
    "undo": undo,
    "chain": chain,
    "count_chains": lambda m, f: (desk.count_chains(m, f),),
    "nth_chain": nth_chain,
    "part": part,
    "write_sheet": write_sheet,
    "read_sheet": read_sheet,
    "read_text": lambda m, text=b"": (desk.read_text(m, text),),
    "write_text": write_text,
}


def lent(count):
    return count * [0xDEADBEEF]


def area(parts):
    words = [c for f in parts for c in f + (desk.TERMS - len(f)) * [0]]
    return words + (desk.WORDS - len(words)) * [0] + lent(desk.WORDS)


# The cases, word by word.


def figure(found):
    """{limit/2+1}, worked out."""
    name, doing = re.fullmatch(r"(\w+?)((?:[-+*/]\d+)*)", found[1]).groups()
    value = FIGURES[name]
    for do, number in re.findall(r"([-+*/])(\d+)", doing):
        value = DO[do](value, int(number))
    return str(value)


def polynomial(word, names):
    """[96,3,9], x^9+3*x^2+96, or a name."""
    if word in names:
        return names[word]
    if word.startswith("["):
        f = [int(c) for c in word[1:-1].split(",") if c]
    else:
        terms = [re.fullmatch(r"(?:(\d+)\*?)?(x?)(?:\^(\d+))?", term).groups() for term in word.split("+")]
        powers = {int(power or 1) if x else 0: int(c or 1) for c, x, power in terms}
        f = [powers.get(i, 0) for i in range(max(powers) + 1)]
    return f


def record(word, names):
    """m:polynomial, <the bytes>, or - for a place that is not used."""
    if word.startswith("<"):
        return bytes(int(byte) for byte in word[1:-1].split(",")).ljust(desk.BYTES, b"\0")
    m, f = word.split(":") if word != "-" else ("0", "[]")
    words = [int(m), *polynomial(f, names)]
    return struct.pack(f"<{len(words)}I", *words).ljust(desk.BYTES, b"\0")


def values(text, names):
    """What stands on one side of a line."""
    found, inside = [], None
    for word in re.sub(r"{(.*?)}", figure, text).split():
        if word in "()":
            inside = found if inside is None else None
            if inside is not None:
                found.append([])
            continue
        if word == "in":
            continue
        if word.startswith('"'):
            piece, times = re.fullmatch(r'"(.*)"(?:\*(\d+))?', word).groups()
            value = piece.encode().decode("unicode_escape").encode("latin-1") * int(times or 1)
            if found and isinstance(found[-1], bytes):
                value = found.pop() + value
        elif word[0] in "<-" or ":" in word:
            value = record(word, names)
        elif word.isdigit():
            value = int(word)
        else:
            value = polynomial(word, names)
        (found if inside is None else found[-1]).append(value)
    return found


def answered(name, request):
    """What it answers, or the refusal as a line of cases has it."""
    try:
        return [list(value) if isinstance(value, tuple) else value for value in FUNCTIONS[name](*request)]
    except desk.Refused as refused:
        concerned = "," + refused.polynomial.replace(" ", "") if refused.polynomial else ""
        power = f",{refused.power}" if refused.number == 2 else ""
        return f"No.{refused.number}{concerned}{power}"


def all_cases():
    names, right = {}, {}
    for line in CASES.read_text().splitlines():
        case = line.split("  # ")[0]
        if not case or case.startswith("#"):
            continue
        left, answer = case.split(" = ")
        name, _, request = left.partition(" ")
        if not request:
            names[name] = polynomial(answer, names)
            continue
        due = answer if answer.startswith("No.") else values(answer, names)
        holds = answered(name, values(request, names)) == due
        right[name] = right.get(name, True) and holds
        if not holds:
            print(f"not as it must be: {case}")
    for name in FUNCTIONS:
        if right.get(name):
            print(f"desk_{name}: as it must be")


# What is no request at all.


def no_request(error, ask, *request):
    """Raises a plain error of Python, and the desk is not asked."""
    try:
        answer = ask(*request)
    except error:
        return
    raise AssertionError(f"{request} is no request, and was answered: {answer}")


def no_requests():
    A = [10, 3, 6, 7, 6, 3, 1]
    for m, f, r in (101, [1 << 32, 0, 1], 2), (101, [-1, 0, 1], 2), (101, [0] * (desk.TERMS + 1), 2), (1 << 32, A, 2), (101, A, 1 << 64):
        no_request(ValueError, desk.split, m, f, r)
    no_request(ValueError, desk.quick, 101, A, 1 << 64)
    no_request(ValueError, desk.undo, 101, (1, 1 << 32))
    no_request(ValueError, desk.undo, 101, (1, 0, 0))
    no_request(ValueError, desk.chain, 101, A, [1 << 32])
    no_request(ValueError, desk.count_chains, 101, [-1, 0, 1])
    no_request(ValueError, desk.nth_chain, 101, A, -1)
    no_request(ValueError, desk.nth_chain, 101, A, 1 << 64)
    no_request(ValueError, desk.nth_chain, 101, A, 0, [1 << 32])
    no_request(TypeError, desk.nth_chain, 101, A, 0.0)
    no_request(TypeError, desk.chains, 101, 7)
    no_request(ValueError, desk.part, [], -1)
    no_request(TypeError, desk.split, 101, [0.5, 0, 1], 2)
    no_request(TypeError, desk.split, 101, 7, 2)
    no_request(TypeError, desk.check, desk.BYTES)
    no_request(ValueError, desk.write_sheet, 1 << 32, [])
    no_request(ValueError, desk.write_sheet, 101, [-1])
    no_request(ValueError, desk.read_sheet, b"", [1 << 32])
    no_request(TypeError, desk.read_sheet, desk.SHEET)
    no_request(ValueError, desk.read_text, 1 << 32, "x^2")
    no_request(TypeError, desk.read_text, 101, 7)
    no_request(ValueError, desk.write_text, 101, [-1, 0, 1])
    no_request(TypeError, desk.write_text, 101, A, bytes(desk.TEXT_MOST))


if __name__ == "__main__":
    all_cases()
    no_requests()
