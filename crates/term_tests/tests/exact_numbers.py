#!/usr/bin/env python3
"""Writes ../src/number_cases.rt: cases of every operation, each with the answer that the rules give.

The rules are computed here anew with Python's integers and regular expressions, from XSD 1.1 part 2
(sections 3.3.3 and 3.4.13 to 3.4.25) and the limits of the crate: 128 bits and 18 places.
Run it in this folder: python3 exact_numbers.py > ../src/number_cases.rt
"""
import re
from fractions import Fraction

LEAST, GREATEST = -2**127, 2**127 - 1
PLACES = 18

RANGES = {
    "integer": (None, None),
    "long": (-2**63, 2**63 - 1),
    "int": (-2**31, 2**31 - 1),
    "short": (-2**15, 2**15 - 1),
    "byte": (-2**7, 2**7 - 1),
    "nonNegativeInteger": (0, None),
    "positiveInteger": (1, None),
    "nonPositiveInteger": (None, 0),
    "negativeInteger": (None, -1),
    "unsignedLong": (0, 2**64 - 1),
    "unsignedInt": (0, 2**32 - 1),
    "unsignedShort": (0, 2**16 - 1),
    "unsignedByte": (0, 2**8 - 1),
}


def held(m):
    return LEAST <= m <= GREATEST


# A number is ("w", m) or ("d", m, s). Its value is a fraction.

def value(n):
    return Fraction(n[1], 1 if n[0] == "w" else 10 ** n[2])


def least(m, s):
    """The decimal m * 10^-s at its least scale, or None where it is past a limit."""
    while s > 0 and m % 10 == 0:
        m, s = m // 10, s - 1
    return ("d", m, s) if held(m) and s <= PLACES else None


def read(text, local):
    if local == "decimal":
        if not re.fullmatch(r"[+-]?([0-9]+(\.[0-9]*)?|\.[0-9]+)", text):
            return None
        whole, _, fraction = text.partition(".")
        digits = whole.lstrip("+-") + fraction
        m = int(digits)
        return least(-m if text.startswith("-") else m, len(fraction))
    if local not in RANGES or not re.fullmatch(r"[+-]?[0-9]+", text):
        return None
    m = int(text)
    low, high = RANGES[local]
    if (low is not None and m < low) or (high is not None and m > high) or not held(m):
        return None
    return ("w", m)


def scale(n):
    return 0 if n[0] == "w" else n[2]


def at(n, s):
    """The numerator at a scale."""
    m = value(n) * 10**s
    assert m.denominator == 1
    return m.numerator


def made(a, b, m, s):
    if not held(m):
        return None
    return ("w", m) if a[0] == b[0] == "w" else least(m, s)


def add(a, b, sign=1):
    s = max(scale(a), scale(b))
    x, y = at(a, s), at(b, s)
    if not held(x) or not held(y):
        return "Range"
    return made(a, b, x + sign * y, s) or "Range"


def mul(a, b):
    return made(a, b, a[1] * b[1], scale(a) + scale(b)) or "Range"


def div(a, b):
    if value(b) == 0:
        return "Zero"
    s = max(scale(a), scale(b))
    x, y = at(a, s), at(b, s)
    if not held(x) or not held(y) or abs(y) >= 10**37:
        return "Range"
    exact = value(a) / value(b) * 10**PLACES
    cut = abs(exact.numerator) // exact.denominator
    return least(-cut if exact < 0 else cut, PLACES) or "Range"


def with_numerator(n, m):
    return (n[0], m) + n[2:] if held(m) else "Range"


def compare(a, b):
    x, y = value(a), value(b)
    return "<" if x < y else ">" if x > y else "="


def lexical(n):
    if n[0] == "w":
        return str(n[1])
    digits = str(abs(n[1])).rjust(n[2] + 1, "0")
    front, behind = digits[: len(digits) - n[2]], digits[len(digits) - n[2]:]
    return ("-" if n[1] < 0 else "") + front + "." + (behind or "0")


def shown(n):
    if n is None:
        return "none"
    if isinstance(n, str):
        return n
    return str(n[1]) if n[0] == "w" else f"{n[1]}e-{n[2]}"


ROWS = []


def row(*fields):
    ROWS.append("|".join(fields))


def form(text, local):
    """Whether a text is a number of the type that is kept, one past the limits, none of the type, or of no type of numbers."""
    if read(text, local) is not None:
        return "exact"
    if local == "decimal":
        return "wide" if re.fullmatch(r"[+-]?([0-9]+(\.[0-9]*)?|\.[0-9]+)", text) else "outside"
    if local not in RANGES:
        return "other"
    if not re.fullmatch(r"[+-]?[0-9]+", text):
        return "outside"
    low, high = RANGES[local]
    m = int(text)
    return "outside" if (low is not None and m < low) or (high is not None and m > high) else "wide"


def reads(local, *texts):
    for text in texts:
        row("read", local, text, shown(read(text, local)))
        row("form", local, text, form(text, local))


W = lambda m: ("w", m)
D = lambda m, s: ("d", m, s)

reads("integer", "0", "+0", "-0", "00", "007", "-12", "+5", "", "+", "-", "+-1", "1.0", "1e3", " 1", "1 ", "0x1", "--1", "1a",
      str(GREATEST), str(GREATEST + 1), str(LEAST), str(LEAST - 1), "0" * 60 + "1", "9" * 45)
for name, (low, high) in RANGES.items():
    if name == "integer":
        continue
    reads(name, "0", "1", "-1", "")
    if low is not None:
        reads(name, str(low), str(low - 1))
    if high is not None:
        reads(name, str(high), str(high + 1))
reads("nonNegativeInteger", str(GREATEST), str(GREATEST + 1))
reads("negativeInteger", str(LEAST), str(LEAST - 1))
reads("decimal", "7.0", "7", ".5", "5.", ".", "", "+", "-", "-.5", "+.5", "-0", "-0.0", "0.0", "00.500", "1.2.3", "1.", "1..", "..1",
      "1e1", " 1.0", "1.0 ", "+ 1", "1.x", "x.1", "10", "100.0", "-2.50", "0.000000000000000001", "0.0000000000000000001",
      "1.0000000000000000010", "1.0000000000000000001", "0." + "0" * 40, "0.5" + "0" * 40, "12." + "0" * 40 + "1",
      str(GREATEST), str(GREATEST + 1), str(LEAST), str(LEAST - 1), str(GREATEST) + ".0", str(GREATEST)[:-18] + "." + str(GREATEST)[-18:],
      str(GREATEST + 1)[:-18] + "." + str(GREATEST + 1)[-18:], str(LEAST)[:-18] + "." + str(LEAST)[-18:], "0" * 50 + "1.50")
for name in RANGES:
    for text in [str(2**127), str(-(2**127) - 1), str(2**128), str(-(2**128)), "9" * 60, "-" + "9" * 60]:
        row("form", name, text, form(text, name))
for name in ["double", "string", "Integer", "integer2", "", "boolean"]:
    reads(name, "1")

SAMPLES = [W(0), W(1), W(-7), W(10), W(GREATEST), W(LEAST), D(0, 0), D(5, 1), D(-1, 18), D(GREATEST, 18), D(LEAST, 0)]
PAIRS = [(a, b) for a in SAMPLES for b in (W(1), W(-7), D(0, 0), D(5, 1), D(-1, 18))] + [
    (W(5), W(7)), (W(1), W(3)), (W(10), W(4)), (W(-7), W(2)), (W(2), W(-3)), (W(-2), W(-3)), (W(1), W(0)), (D(1, 0), D(0, 0)),
    (W(7), W(7)), (W(2), D(2, 0)), (D(70, 0), W(2)), (D(7, 0), W(2)),
    (W(GREATEST), W(GREATEST)), (W(LEAST), W(LEAST)), (W(LEAST), W(GREATEST)), (W(LEAST), W(-1)), (D(LEAST, 0), W(-1)),
    (W(170141183460469231731), D(1, 18)), (W(170141183460469231732), D(1, 18)), (W(170141183460469231731), D(687303715884105727, 18)),
    (W(170141183460469231731), D(687303715884105728 + 1, 18)),
    (W(10**25), W(1)), (W(10**37), W(10**36)), (W(10**38), W(10**37 - 1)), (W(10**38), W(10**37)), (W(1), W(-(10**37))), (W(1), W(1 - 10**37)),
    (W(1), D(1, 18)), (W(10**20), D(1, 18)), (W(2 * 10**20), D(1, 18)), (D(1, 18), W(10**18)), (D(1, 18), W(10**19)), (D(1, 18), W(10**20)),
    (W(10**19), D(3, 18)), (W(10**18), D(10**18 - 1, 18)), (W(GREATEST), D(25, 1)), (W(GREATEST), W(10)), (W(LEAST), W(3)), (W(LEAST), W(10)),
    (D(5, 1), D(2, 0)), (D(5, 10), D(2, 8)), (D(5, 10), D(2, 9)), (D(125, 18), W(8)), (D(5, 9), D(2, 10)), (D(3, 9), D(3, 9)), (D(3, 9), D(3, 10)),
    (D(2**100, 18), D(5**18, 18)), (W(2**64), W(2**63)), (W(2**64), W(-(2**63))), (D(2**64, 1), D(5**27, 0)), (W(10**19), W(10**19)), (W(10**20), D(10**20 + 1, 1)),
    (D(25, 2), D(26, 2)), (D(-25, 2), D(-26, 2)), (D(999999999999999999, 18), W(1)), (W(-1), D(-1000000000000000001, 18)), (D(15, 1), D(150001, 5)),
]
PAIRS = list(dict.fromkeys(PAIRS))
assert all(least(*n[1:]) == n for a, b in PAIRS for n in (a, b) if n[0] == "d")
for name, call in [("add", add), ("sub", lambda a, b: add(a, b, -1)), ("mul", mul), ("div", div)]:
    for a, b in PAIRS:
        row(name, shown(a), shown(b), shown(call(a, b)))
for a, b in PAIRS:
    row("cmp", shown(a), shown(b), compare(a, b))
for a in SAMPLES + [D(LEAST, 18), W(LEAST + 1), D(GREATEST, 0), D(-25, 1), D(-5, 1), D(2, 0), D(50001, 4)]:
    row("neg", shown(a), "", shown(with_numerator(a, -a[1])))
    row("abs", shown(a), "", shown(with_numerator(a, abs(a[1]))))
    row("write", shown(a), "integer" if a[0] == "w" else "decimal", lexical(a))

for a in [W(10), D(7, 0), D(70, 0), D(5, 18), D(-5, 1), D(70, 1), D(-10, 18), D(0, 1), D(5, 19), D(LEAST, 18)]:
    row("kept", shown(a), "", "yes" if a[0] == "w" or least(*a[1:]) == a else "no")

print("//! Cases with their answers, written by `tests/exact_numbers.py`, which computes them anew.")
print()
print("/// A case a line: the call, its two operands and the answer. `5e-1` is the decimal of numerator 5")
print("/// and scale 1, and `5` the integer.")
print('pub const CASES: &str = "' + "\n".join(ROWS) + '";')
