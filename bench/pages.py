#!/usr/bin/env python3
"""Times the reading and the writing of pages as JSON.

Usage: bench/pages.py [--runs N]

What writes and reads is `page_json` in a small program, bench/page_timer.txt, which times itself and which building.py builds. A page
has rows of four short terms, an IRI, a blank node, a literal with a datatype and one with a tag. In each run the program makes the
page, writes it nine times and reads what is written nine times; that must be the text that is made here by a fixed rule. The table
has the milliseconds of the best round at each number of rows, and the growth from one to the next (2 where the time is linear). Below
the table stand the aims that are missed: 10,000 rows are written in 10 ms and read in 100 ms. Only Python's standard library is used.
"""

import argparse
import json
import subprocess
import sys

from building import built

STANDS_ON = ["term_core", "page_json"]
LIBRARIES = ["serde_json", "json", "base64", "sha2"]

ROWS = [2_500, 5_000, 10_000, 20_000, 40_000]
AIMED_AT = 10_000
AIMS = {"written": 10.0, "read": 100.0}
ROUNDS = 9


def row(n):
    """A row of four short terms; members in the byte order of their names."""
    return {
        "a": {"type": "uri", "value": f"http://example.org/thing/{n}"},
        "b": {"type": "bnode", "value": f"b{n}"},
        "c": {"datatype": "http://www.w3.org/2001/XMLSchema#integer", "type": "literal", "value": str(n)},
        "d": {"type": "literal", "value": f"Thing {n}", "xml:lang": "en"},
    }


def page(rows):
    value = {"next": "Zm9vYmFyIGJheg", "rows": [row(n) for n in range(rows)], "steps": rows, "vars": ["a", "b", "c", "d"]}
    return json.dumps(value, separators=(",", ":")).encode()


def best_times(program, rows, text, runs):
    """The milliseconds of the best round of writing, and of reading."""
    writing, reading = [], []
    for _ in range(runs):
        done = subprocess.run([program, str(rows)], capture_output=True, check=False)
        *times, written = done.stdout.split(b"\n", 2 * ROUNDS)
        if done.returncode != 0 or written != text:
            sys.exit(f"{program} ended with {done.returncode}, or wrote another page of {rows} rows")
        writing += map(int, times[:ROUNDS])
        reading += map(int, times[ROUNDS:])
    return min(writing) / 1000, min(reading) / 1000


def growth(times, k):
    return "" if k == 0 else f"{times[k] / times[k - 1]:.1f}"


def table(program, runs):
    """Prints the rows of numbers of rows, and gives the best times at the number that is aimed at."""
    print("| Rows | MB | Written, ms | Growth | Read, ms | Growth |")
    print("|---:|---:|---:|---:|---:|---:|")
    writing, reading, aimed = [], [], []
    for k, rows in enumerate(ROWS):
        text = page(rows)
        written, read = best_times(program, rows, text, runs)
        writing.append(written)
        reading.append(read)
        cells = [f"{written:.1f}", growth(writing, k), f"{read:.1f}", growth(reading, k)]
        print(f"| {rows:,} | {len(text) / 1e6:.1f} | " + " | ".join(cells) + " |", flush=True)
        if rows == AIMED_AT:
            aimed = [written, read]
    return dict(zip(AIMS, aimed))


def main():
    parser = argparse.ArgumentParser(description=__doc__.split("\n")[0])
    parser.add_argument("--runs", type=int, default=3)
    given = parser.parse_args()
    for what, time in table(built("page_timer", STANDS_ON, LIBRARIES, words=["1"]), given.runs).items():
        if time > AIMS[what]:
            print(f"misses the aim: {AIMED_AT:,} rows are {what} in {time:.1f} ms, and not in {AIMS[what]:.0f} ms")


if __name__ == "__main__":
    main()
