#!/usr/bin/env python3
"""Times filters over a million rows, each of which binds ?n to an integer from 0 to 199.

Usage: bench/filters.py [--runs N]

What filters is `expr_eval::truth_of` in a small program, bench/filter_rows.txt, which building.py builds. The program makes the rows
and goes over them in so many rounds; the time of a row is the difference of six rounds and one, of the best of the runs, over five
million. The table has how often the filter is true in a round, and the nanoseconds of a row. A filter that is true otherwise often
than its rule says stops the benchmark. Where valgrind is installed, its count of allocations of a run with three rounds has to be
that of a run with one. Only Python's standard library is used.
"""

import argparse
import os
import re
import shutil
import subprocess
import sys
import tempfile

from building import built

STANDS_ON = [
    "term_core", "xsd_num", "xsd_time", "value_table", "sparql_tree", "sparql_value", "expr_value", "expr_eval",
    "sparql_lex", "sparql_symbol", "sparql_grammar", "sparql_scope", "sparql_read",
]

LIBRARIES = ["jiff_core"]

ROWS = 1_000_000
AIM = 150


def conjuncts(number):
    """So many conditions, of which the first two decide."""
    return " && ".join(["?n > 5", "?n < 100", *(f"?n < {200 + k}" for k in range(number - 2))])


# a filter, and how many of the numbers from 0 to 199 it holds for
FILTERS = [
    ("?n > 5 && ?n < 100", 94),
    (conjuncts(4), 94),
    (conjuncts(8), 94),
    (conjuncts(16), 94),
    ("?n < 5 || ?missing", 5),
    ("?n + 1 = 7", 1),
    ("?n IN (1, 2, 3)", 3),
    ('STRSTARTS(STR(?n), "1")', 111),
]


def told(program, path, text):
    """What the program tells of a text, and its processor seconds."""
    with open(path, "w", encoding="utf-8") as file:
        file.write(text)
    with open(path, "rb") as file:
        child = subprocess.Popen([program], stdin=file, stdout=subprocess.PIPE)
        line = child.stdout.read().decode(errors="replace").strip()
        _, status, usage = os.wait4(child.pid, 0)
    child.returncode = os.waitstatus_to_exitcode(status)
    if child.returncode != 0:
        sys.exit(f"{program} ended with {child.returncode} on {text}")
    return line, usage.ru_utime + usage.ru_stime


def text_of(rounds, condition):
    return f"{rounds}\nSELECT * {{ FILTER({condition}) }}"


def seconds(program, path, rounds, condition, share, runs):
    """The least processor seconds of so many rounds."""
    found = [told(program, path, text_of(rounds, condition)) for _ in range(runs)]
    wanted = str(rounds * ROWS // 200 * share)
    for line, _ in found:
        if line != wanted:
            sys.exit(f"{condition}: {line}, and not {wanted}")
    return min(spent for _, spent in found)


def table(program, path, runs):
    """Prints the rows of filters, and gives the nanoseconds of the first."""
    print("| Filter | True of | Nanoseconds a row |")
    print("|---|---:|---:|")
    spent = []
    for condition, share in FILTERS:
        once, often = (seconds(program, path, rounds, condition, share, runs) for rounds in (1, 6))
        spent.append((often - once) / 5 / ROWS * 1e9)
        print(f"| `{condition[:60]}` | {ROWS // 200 * share:,} | {spent[-1]:.0f} |", flush=True)
    return spent[0]


def allocations(program, path, rounds):
    """How often valgrind counts that memory is taken."""
    with open(path, "w", encoding="utf-8") as file:
        file.write(text_of(rounds, FILTERS[0][0]))
    with open(path, "rb") as file:
        done = subprocess.run(["valgrind", program], stdin=file, capture_output=True, check=True)
    return re.search(r"total heap usage: ([\d,]+) allocs", done.stderr.decode()).group(1)


def main():
    parser = argparse.ArgumentParser(description=__doc__.split("\n")[0])
    parser.add_argument("--runs", type=int, default=3)
    given = parser.parse_args()
    program = built("filter_rows", STANDS_ON, LIBRARIES, text=text_of(1, "?n < 5").encode())
    with tempfile.TemporaryDirectory() as scratch:
        path = os.path.join(scratch, "filter.rq")
        first = table(program, path, given.runs)
        if first > AIM:
            print(f"misses the aim of {AIM} ns: {FILTERS[0][0]}")
        if shutil.which("valgrind"):
            counts = [allocations(program, path, rounds) for rounds in (1, 3)]
            print(f"allocations with one round and with three: {counts[0]} and {counts[1]}")
            if counts[0] != counts[1]:
                sys.exit("a filter that compares numbers takes memory")


if __name__ == "__main__":
    main()
