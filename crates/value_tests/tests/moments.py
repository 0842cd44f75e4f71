#!/usr/bin/env python3
"""Writes ../src/moment_cases.rt: texts of dates and moments, with what each reads as.

The texts stand here with the kind that each reads as, by hand, from XSD 1.1 part 2 (sections 3.3.7
and 3.3.9) and the limits of moments: years 0001 to 9999, hours of at most 23, at most nine digits
of a second's fraction, a zone of at most 14:00, and dates without a zone. The numbers are computed
with Python's datetime, which also judges each text anew; some that are well known stand by hand.
Run it in this folder: python3 moments.py > ../src/moment_cases.rt
"""
import re
from datetime import date, time

# The kind that each text reads as: I an instant, L a local moment, D a day, - none.
TEXTS = """date|1970-01-01|D
date|1969-12-31|D
date|0001-01-01|D
date|9999-12-31|D
date|0000-01-01|-
date|0000-12-31|-
date|10000-01-01|-
date|-0001-01-01|-
date|+2024-01-01|-
date|2024-02-28|D
date|2024-02-29|D
date|2024-02-30|-
date|2024-03-01|D
date|2023-02-28|D
date|2023-02-29|-
date|2023-03-01|D
date|0004-02-29|D
date|0100-02-28|D
date|0100-02-29|-
date|0100-03-01|D
date|0200-02-29|-
date|0300-02-29|-
date|0400-02-29|D
date|0400-03-01|D
date|1000-02-29|-
date|1200-02-29|D
date|1500-02-29|-
date|1600-02-29|D
date|1700-02-29|-
date|1800-02-29|-
date|1896-02-29|D
date|1900-02-28|D
date|1900-02-29|-
date|1900-03-01|D
date|1904-02-29|D
date|1999-12-31|D
date|2000-01-01|D
date|2000-02-29|D
date|2000-03-01|D
date|2100-02-28|D
date|2100-02-29|-
date|2100-03-01|D
date|2200-02-29|-
date|2300-02-29|-
date|2400-02-29|D
date|9996-02-29|D
date|9900-02-29|-
date|2024-01-31|D
date|2024-01-32|-
date|2024-03-31|D
date|2024-04-30|D
date|2024-04-31|-
date|2024-05-31|D
date|2024-06-30|D
date|2024-06-31|-
date|2024-07-31|D
date|2024-08-31|D
date|2024-09-30|D
date|2024-09-31|-
date|2024-10-31|D
date|2024-11-30|D
date|2024-11-31|-
date|2024-12-31|D
date|2024-12-32|-
date|2024-00-10|-
date|2024-13-01|-
date|2024-01-00|-
date|2024-1-01|-
date|2024-01-1|-
date|24-01-01|-
date|02024-01-01|-
date|20240101|-
date|2024/01/01|-
date|2024-01-01Z|-
date|2024-01-01+00:00|-
date|2024-01-01-05:00|-
date|2024-01-01 |-
date| 2024-01-01|-
date|2024-01-01T00:00:00|-
date|2024-0a-01|-
date||-
dateTime|1970-01-01T00:00:00|L
dateTime|1970-01-01T00:00:00Z|I
dateTime|1970-01-01T00:00:00+00:00|I
dateTime|1970-01-01T00:00:00-00:00|I
dateTime|1970-01-01T00:00:00.000000001Z|I
dateTime|1969-12-31T23:59:59.999999999Z|I
dateTime|1969-12-31T23:59:59.999999999|L
dateTime|0001-01-01T00:00:00Z|I
dateTime|0001-01-01T00:00:00+14:00|I
dateTime|9999-12-31T23:59:59.999999999-14:00|I
dateTime|9999-12-31T23:59:59.999999999|L
dateTime|0000-01-01T00:00:00Z|-
dateTime|10000-01-01T00:00:00Z|-
dateTime|-0044-03-15T00:00:00Z|-
dateTime|2024-02-29T12:30:45|L
dateTime|2024-02-29T12:30:45Z|I
dateTime|2024-02-29T12:30:45.5|L
dateTime|2024-02-29T12:30:45.50Z|I
dateTime|2024-02-29T12:30:45.123456789|L
dateTime|2024-02-29T12:30:45.123456789Z|I
dateTime|2024-02-29T12:30:45.000000000Z|I
dateTime|2024-02-29T12:30:45.1234567890Z|-
dateTime|2024-02-29T12:30:45.1234567891|-
dateTime|2024-02-29T12:30:45.|-
dateTime|2024-02-29T12:30:45.Z|-
dateTime|2024-02-29T12:30:45,5|-
dateTime|2024-02-29T12:30:45.5.5|-
dateTime|2024-02-29T12:30:45.-5|-
dateTime|2023-02-29T12:30:45Z|-
dateTime|1900-02-29T00:00:00Z|-
dateTime|2000-02-29T00:00:00Z|I
dateTime|2024-03-01T00:00:00Z|I
dateTime|2024-02-29T23:00:00-01:00|I
dateTime|2023-12-31T20:00:00-05:00|I
dateTime|2024-01-01T00:00:00+05:30|I
dateTime|2024-01-01T00:00:00+13:59|I
dateTime|2024-01-01T00:00:00-13:59|I
dateTime|2024-01-01T00:00:00+14:00|I
dateTime|2024-01-01T00:00:00-14:00|I
dateTime|2024-01-01T00:00:00+14:01|-
dateTime|2024-01-01T00:00:00-14:30|-
dateTime|2024-01-01T00:00:00+15:00|-
dateTime|2024-01-01T00:00:00-24:00|-
dateTime|2024-01-01T00:00:00+00:59|I
dateTime|2024-01-01T00:00:00+00:60|-
dateTime|2024-01-01T00:00:00+13:60|-
dateTime|2024-01-01T00:00:00.5+01:00|I
dateTime|2024-01-01T00:00:00+1:00|-
dateTime|2024-01-01T00:00:00+01|-
dateTime|2024-01-01T00:00:00+0100|-
dateTime|2024-01-01T00:00:00+01:00:00|-
dateTime|2024-01-01T00:00:00+|-
dateTime|2024-01-01T00:00:0001:00|-
dateTime|2024-01-01T00:00:00z|-
dateTime|2024-01-01T00:00:00ZZ|-
dateTime|2024-01-01T00:00:00Z |-
dateTime|2024-01-01T00:00:00 |-
dateTime| 2024-01-01T00:00:00|-
dateTime|2024-01-01T23:59:59Z|I
dateTime|2024-01-01T24:00:00|-
dateTime|2024-01-01T24:00:00Z|-
dateTime|2024-01-01T24:00:01Z|-
dateTime|2024-01-01T25:00:00Z|-
dateTime|2024-01-01T00:60:00Z|-
dateTime|2024-01-01T00:00:60Z|-
dateTime|2016-12-31T23:59:60Z|-
dateTime|2024-01-01T0:00:00Z|-
dateTime|2024-01-01T00:00|-
dateTime|2024-01-01T00|-
dateTime|2024-01-01T|-
dateTime|2024-01-01|-
dateTime|2024-01-01t00:00:00Z|-
dateTime|2024-01-01 00:00:00Z|-
dateTime|2024-01-0100:00:00Z|-
dateTime|20240101T000000Z|-
dateTime||-
time|12:30:45|-
gYear|2024|-
string|2024-01-01|-
dateTimeStamp|2024-01-01T00:00:00Z|-
"""

# Numbers that are well known.
KNOWN = {
    "date|1970-01-01": 0,
    "date|2000-03-01": 11017,
    "date|0001-01-01": -719162,
    "date|9999-12-31": 2932896,
    "dateTime|1970-01-01T00:00:00.000000001Z": 1,
    "dateTime|1969-12-31T23:59:59.999999999Z": -1,
    "dateTime|2000-02-29T00:00:00Z": 951782400 * 10**9,
    "dateTime|2024-02-29T23:00:00-01:00": 1709251200 * 10**9,
}

DATE = r"([0-9]{4}-[0-9]{2}-[0-9]{2})"
DATE_TIME = DATE + r"T([0-9]{2}:[0-9]{2}:[0-9]{2})(?:\.([0-9]{1,9}))?(?:(Z)|([+-])([0-9]{2}):([0-9]{2}))?"
EPOCH = date(1970, 1, 1).toordinal()


def day(text):
    return date.fromisoformat(text).toordinal() - EPOCH


def date_time(text):
    parts = re.fullmatch(DATE_TIME, text)
    clock = time.fromisoformat(parts[2])
    seconds = day(parts[1]) * 86400 + clock.hour * 3600 + clock.minute * 60 + clock.second
    nanos = seconds * 10**9 + int((parts[3] or "").ljust(9, "0"))
    if parts[4]:
        return ("I", nanos)
    if not parts[5]:
        return ("L", nanos)
    hours, minutes = int(parts[6]), int(parts[7])
    if minutes > 59 or hours * 60 + minutes > 14 * 60:
        raise ValueError
    sign = -1 if parts[5] == "-" else 1
    return ("I", nanos - sign * (hours * 60 + minutes) * 60 * 10**9)


def moment(kind, text):
    """The kind and the number that a text reads as."""
    form = {"date": DATE, "dateTime": DATE_TIME}.get(kind)
    if form is None or not re.fullmatch(form, text) or "T24" in text:
        return ("-", 0)
    try:
        return ("D", day(text)) if kind == "date" else date_time(text)
    except ValueError:
        return ("-", 0)


lines = []
for line in TEXTS.splitlines():
    kind, text, wanted = line.split("|")
    found, number = moment(kind, text)
    assert found == wanted, line
    assert KNOWN.get(kind + "|" + text, number) == number, line
    lines.append(f"{line}|{number}")
assert len(lines) >= 120 and len(set(lines)) == len(lines)
print("""//! Texts of dates and moments, with what each reads as, written by `tests/moments.py`.

/// A text a line: the name of its datatype of XML Schema, the text, the kind of moment that it reads
/// as, and its number. Kinds: `I` an instant and `L` a local moment, in nanoseconds, `D` a day, and `-`
/// none.""")
print('pub const TEXTS: &str =\n    "' + "\n".join(lines) + '";')
