#!/usr/bin/env python3
"""Times joins, left joins, differences and distinct rows of lists of solutions.

Usage: bench/joins.py [--runs N]

What joins is the crate `row_bag` in a small program, bench/join_rows.txt, which building.py builds. The program makes two lists of so
many rows of two names each; "shared" says that one name is on both sides, with as many matches as rows, and "apart" that none is.
The time is the processor time of the program less that of a run that makes the rows alone, each the best of the runs. The growth is
the ratio to the line above. A run that gives another number of rows than it should stops the benchmark. Only Python's standard
library is used.
"""

import argparse
import os
import sys
import tempfile

from building import built
from filters import told

STANDS_ON = ["term_core", "xsd_num", "xsd_time", "value_table", "sparql_tree", "sparql_value", "expr_value", "expr_eval", "row_bag"]
LIBRARIES = ["jiff_core"]

# the most seconds that a join of 100,000 by 100,000 rows with 100,000 matches is to take
AIM = 1.0

# an operator, a kind of rows, how many rows a side, and how many it gives
TASKS = [
    ("join", "shared", 10_000, 10_000),
    ("join", "shared", 100_000, 100_000),
    ("left_join", "shared", 10_000, 10_000),
    ("left_join", "shared", 100_000, 100_000),
    ("minus", "shared", 10_000, 0),
    ("minus", "shared", 100_000, 0),
    ("minus", "apart", 10_000, 10_000),
    ("minus", "apart", 100_000, 100_000),
    ("distinct", "shared", 10_000, 10_000),
    ("distinct", "shared", 100_000, 100_000),
    ("join", "apart", 1_000, 1_000_000),
]


def seconds(program, path, task, wanted, runs):
    """The least processor seconds of a task."""
    found = [told(program, path, task) for _ in range(runs)]
    for line, _ in found:
        if line != str(wanted):
            sys.exit(f"{task}: {line}, and not {wanted}")
    return min(spent for _, spent in found)


def table(program, path, runs):
    """Prints a row for each task, and gives the seconds of the largest join."""
    print("| Operator | Rows | A side | Given | Seconds | Growth |")
    print("|---|---|---:|---:|---:|---:|")
    aimed, before = None, None
    for operator, kind, rows, wanted in TASKS:
        whole = seconds(program, path, f"{operator} {kind} {rows}", wanted, runs)
        spent = whole - seconds(program, path, f"none {kind} {rows}", 0, runs)
        growth = f"{spent / before[1]:.1f}" if before and before[0] == (operator, kind) else ""
        print(f"| {operator} | {kind} | {rows:,} | {wanted:,} | {spent:.3f} | {growth} |", flush=True)
        before = ((operator, kind), spent)
        if (operator, kind, rows) == ("join", "shared", 100_000):
            aimed = spent
    return aimed


def main():
    parser = argparse.ArgumentParser(description=__doc__.split("\n")[0])
    parser.add_argument("--runs", type=int, default=3)
    given = parser.parse_args()
    program = built("join_rows", STANDS_ON, LIBRARIES, text=b"none apart 1")
    with tempfile.TemporaryDirectory() as scratch:
        spent = table(program, os.path.join(scratch, "task.txt"), given.runs)
        if spent > AIM:
            print(f"misses the aim of {AIM:g} s: the join of 100,000 by 100,000 rows")


if __name__ == "__main__":
    main()
