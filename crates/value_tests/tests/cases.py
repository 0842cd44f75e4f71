#!/usr/bin/env python3
"""Writes ../src/cases.rt: terms in the order of keys, each with what it is against each other.

The terms stand here in that order, with their classes and truths, by hand. What the rules give is
computed anew, with Python's fractions, dates and regular expressions, from SPARQL 1.1 (sections
15.1, 17.2.2 and 17.3), XSD 1.1 part 2 (sections 3.3.2, 3.3.3, 3.3.7, 3.3.9 and 3.4.13 to 3.4.25)
and the limits of numbers, 128 bits and 18 places; and it is compared with what stands here.
Run it in this folder: python3 cases.py > ../src/cases.rt
"""
import re
from datetime import date
from fractions import Fraction

XSD = "http://www.w3.org/2001/XMLSchema#"
LANG_STRING = "http://www.w3.org/1999/02/22-rdf-syntax-ns#langString"
LEAST, GREATEST = -2**127, 2**127 - 1
PLACES = 18

RANGES = {
    "integer": (None, None),
    "long": (-2**63, 2**63 - 1),
    "int": (-2**31, 2**31 - 1),
    "short": (-2**15, 2**15 - 1),
    "byte": (-2**7, 2**7 - 1),
    "nonNegativeInteger": (0, None),
    "positiveInteger": (1, None),
    "nonPositiveInteger": (None, 0),
    "negativeInteger": (None, -1),
    "unsignedLong": (0, 2**64 - 1),
    "unsignedInt": (0, 2**32 - 1),
    "unsignedShort": (0, 2**16 - 1),
    "unsignedByte": (0, 2**8 - 1),
}

# The kind, the text, the class and the truth of each term.
CASES = """blank|a|R|e
blank|b|R|e
iri|http://a/a|R|e
iri|http://a/true|R|e
integer|-170141183460469231731687303715884105728|N|t
long|-9223372036854775808|N|t
int|-2147483648|N|t
short|-32768|N|t
byte|-128|N|t
negativeInteger|-1|N|t
decimal|-0.000000000000000001|N|t
decimal|-0.0|N|f
nonPositiveInteger|0|N|f
nonNegativeInteger|0|N|f
unsignedByte|00|N|f
decimal|0.0000000000000000010|N|t
decimal|0.000000000000000002|N|t
decimal|.5|N|t
decimal|1.|N|t
positiveInteger|+01|N|t
byte|127|N|t
unsignedByte|255|N|t
short|32767|N|t
unsignedShort|65535|N|t
int|2147483647|N|t
unsignedInt|4294967295|N|t
long|9223372036854775807|N|t
unsignedLong|18446744073709551615|N|t
decimal|170141183460469231731.000000000000000000|N|t
integer|170141183460469231731687303715884105727|N|t
boolean|0|L|f
boolean|false|L|f
boolean|1|L|t
boolean|true|L|t
string||S|f
string|10|S|t
string|9|S|t
string|B|S|t
string|a|S|t
string|é|S|t
dateTime|0001-01-01T00:00:00+14:00|M|e
dateTime|1969-12-31T23:59:59.999999999Z|M|e
dateTime|1970-01-01T00:00:00-00:00|M|e
dateTime|1970-01-01T00:00:00Z|M|e
dateTime|2023-12-31T23:59:59Z|M|e
dateTime|2023-12-31T20:00:00-05:00|M|e
dateTime|2024-02-29T23:00:00-01:00|M|e
dateTime|2024-03-01T00:00:00Z|M|e
dateTime|9999-12-31T23:59:59.999999999-14:00|M|e
dateTime|1970-01-01T00:00:00|C|e
dateTime|2023-06-30T00:00:00|C|e
dateTime|2024-03-01T00:00:00|C|e
dateTime|2024-03-01T00:00:00.000|C|e
date|0001-01-01|D|e
date|1969-12-31|D|e
date|2024-01-01|D|e
date|9999-12-31|D|e
@en||T|f
boolean||I|f
decimal||I|f
decimal|+|I|f
nonNegativeInteger|-1|I|f
unsignedInt|-1|I|f
byte|-129|I|f
integer|-170141183460469231731687303715884105729|W|e
unsignedByte|-170141183460469231731687303715884105729|I|f
int|-2147483649|I|f
short|-32769|I|f
long|-9223372036854775809|I|f
negativeInteger|0|I|f
positiveInteger|0|I|f
decimal|0.0000000000000000001|W|e
http://a/x|1|O|e
nonPositiveInteger|1|I|f
unsignedByte|1 |I|f
double|1.0|O|e
integer|1.0|I|f
decimal|1.000000000000000000000000000001|W|e
byte|128|I|f
byte|170141183460469231731687303715884105728|I|f
integer|170141183460469231731687303715884105728|W|e
unsignedLong|18446744073709551616|I|f
decimal|1e0|I|f
date|2023-02-29|O|e
dateTime|2023-02-29T00:00:00Z|O|e
dateTime|2024-01-01|O|e
date|2024-01-01Z|O|e
int|2147483648|I|f
unsignedByte|256|I|f
byte|300|I|f
short|32768|I|f
unsignedInt|4294967296|I|f
unsignedShort|65536|I|f
long|9223372036854775808|I|f
boolean|TRUE|I|f
http://a/x|a|O|e
@en|a|T|t
@fr|a|T|t
@en|b|T|t
"""


def term(kind, text):
    """The place of a term's kind, and its texts."""
    if kind in ("blank", "iri"):
        return (("blank", "iri").index(kind), text, "", "")
    if kind.startswith("@"):
        return (2, text, LANG_STRING, kind[1:])
    return (2, text, kind if kind.startswith("http:") else XSD + kind, "")


def decimal_value(text):
    if not re.fullmatch(r"[+-]?([0-9]+(\.[0-9]*)?|\.[0-9]+)", text):
        return ("I", None)
    whole, _, fraction = text.lstrip("+-").partition(".")
    fraction = fraction.rstrip("0")
    m = int((whole + fraction) or "0") * (-1 if text.startswith("-") else 1)
    if len(fraction) > PLACES or not LEAST <= m <= GREATEST:
        return ("W", None)
    return ("N", Fraction(m, 10 ** len(fraction)))


def integer_value(text, low, high):
    if not re.fullmatch(r"[+-]?[0-9]+", text):
        return ("I", None)
    m = int(text)
    if (low is not None and m < low) or (high is not None and m > high):
        return ("I", None)
    return ("N", Fraction(m)) if LEAST <= m <= GREATEST else ("W", None)


def day_value(text):
    if not re.fullmatch(r"[0-9]{4}-[0-9]{2}-[0-9]{2}", text):
        return ("O", None)
    try:
        return ("D", date.fromisoformat(text).toordinal())
    except ValueError:
        return ("O", None)


def moment_value(text):
    form = r"([0-9]{4}-[0-9]{2}-[0-9]{2})T([0-9]{2}):([0-9]{2}):([0-9]{2})(\.[0-9]{1,9})?(Z|[+-][0-9]{2}:[0-9]{2})?"
    parts = re.fullmatch(form, text)
    day = day_value(parts[1])[1] if parts else None
    if day is None:
        return ("O", None)
    hour, minute, second = (int(parts[i]) for i in (2, 3, 4))
    zone = parts[6]
    ahead = 0 if zone in (None, "Z") else int(zone[0] + "1") * (int(zone[1:3]) * 60 + int(zone[4:6]))
    if hour > 23 or minute > 59 or second > 59 or abs(ahead) > 840 or (zone and zone[4:6] > "59"):
        return ("O", None)
    seconds = ((day * 24 + hour) * 60 + minute - ahead) * 60 + second
    return ("M" if zone else "C", seconds + Fraction(parts[5] and "0" + parts[5] or 0))


def value(kind, text):
    """The class of a term, and its place within a class that has an order."""
    if kind in ("blank", "iri"):
        return ("R", None)
    if kind.startswith("@"):
        return ("T", None)
    if kind == "string":
        return ("S", text.encode())
    if kind == "boolean":
        places = {"false": 0, "0": 0, "true": 1, "1": 1}
        return ("L", places[text]) if text in places else ("I", None)
    if kind == "decimal":
        return decimal_value(text)
    if kind == "dateTime":
        return moment_value(text)
    if kind == "date":
        return day_value(text)
    return integer_value(text, *RANGES[kind]) if kind in RANGES else ("O", None)


def truth(text, place):
    if place[0] in "NL":
        return "t" if place[1] else "f"
    if place[0] in "ST":
        return "t" if text else "f"
    return "f" if place[0] == "I" else "e"


def key(t, place):
    """What ORDER BY goes by: kinds, classes, and within them values or else terms."""
    rank = "NLSMCD".index(place[0]) if place[0] in "NLSMCD" else 6
    whole = (t[1].encode(), t[2].encode(), t[3].encode())
    return (t[0], rank, whole if place[1] is None else place[1])


def sign(a, b):
    (s, u), (t, v) = a, b
    if u[1] is not None and u[0] == v[0]:
        return "<" if u[1] < v[1] else "=" if u[1] == v[1] else ">"
    if s == t:
        return "s"
    return "e" if s[0] == 2 and t[0] == 2 else "x"


ROWS = [line.split("|") for line in CASES.splitlines()]
FOUND = [(term(kind, text), value(kind, text)) for kind, text, _, _ in ROWS]
KEYS = [key(*found) for found in FOUND]
SIGNS = ["".join(sign(a, b) for b in FOUND) for a in FOUND]
for (_, text, letter, wanted), (_, place) in zip(ROWS, FOUND):
    assert (letter, wanted) == (place[0], truth(text, place)), text
for i in range(1, len(ROWS)):
    assert KEYS[i - 1] <= KEYS[i], ROWS[i]
    assert (KEYS[i - 1] == KEYS[i]) == (SIGNS[i - 1][i] in "=s"), ROWS[i]
lines = ["|".join(row + [signs]) for row, signs in zip(ROWS, SIGNS)]
print("""//! Terms in the ascending order of keys, with what each is against each, written by `tests/cases.py`.

/// A term a line: its kind, its text, the class of its value, its truth, and what it is against the
/// term of each line in turn.
///
/// The kind is `blank`, `iri`, a tag behind `@`, the name of a datatype of XML Schema, or the IRI of
/// another datatype. Classes: `R` an IRI or a blank node, `N` a number, `W` a number past 128 bits or
/// 18 places, `L` a truth value, `I` an ill-formed number or truth value, `S` a string, `M` a moment
/// with a zone, `C` one without, by a clock alone, `D` a day, `T` a string with a tag, `O` another
/// literal. Truth: `t`, `f`, or `e` for the error. Against another term: `<`
/// it is less and not equal, `=` it is equal and not less, `>` the other is less; and where neither is
/// known to be less, `s` it is the same term, `x` it is not equal, `e` whether it is equal is not known
/// either.""")
print('pub const CASES: &str =\n    "' + "\n".join(lines).replace("\u00e9", r"\u{e9}") + '";')
