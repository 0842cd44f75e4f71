#!/usr/bin/env python3
"""Times `sage try` over generated documents, beside other programs on the same files.

Usage: bench/first_path.py PROGRAM [--largest N] [--keep FOLDER]

PROGRAM is the built program `sage`. Documents of 10,000, 100,000 and 1,000,000 triples are made
from a fixed seed, of IRIs and plain strings. For each one the table has the seconds and the peak
memory of:

- `sage try` with a query that selects one subject's triples (reading, sorting, one short range);
- `sage try` with `SELECT * { ?s ?p ?o }` (every triple is a row);
- `rapper -q -c -i ntriples` and Python's rdflib, where they are installed.

The growth between two sizes is the ratio of the seconds. A second table compares the largest document
with one of as many lines that hold every kind of term: blank nodes, escapes in IRIs and strings, tags
and datatypes. A third follows the pages of one query over 100,000 triples, from one page of 10,000
steps to pages of one step, and compares them. Only Python's standard library is used.
"""

import argparse
import os
import random
import shutil
import subprocess
import sys
import tempfile
import time

SIZES = [10_000, 100_000, 1_000_000]
SEED = 20190513


def plain_value(dice, n, subjects, triples):
    """An IRI or a plain string."""
    if n % 2:
        return f"<http://bench.example/item/{dice.randrange(subjects)}>"
    return f'"value {dice.randrange(triples)} of the item"'


RICH_VALUES = [
    lambda number: f'"{number}"^^<http://www.w3.org/2001/XMLSchema#integer>',
    lambda number: f'"caf\\u00e9 {number}"@en-GB',
    lambda number: f'"line\\n{number}\\t\\"quoted\\" and \\\\ \\U0001F600"',
    lambda number: f"_:node{number % 1000}.x",
    lambda number: f"<http://bench.example/caf\\u00e9/{number}>",
    lambda number: f'"20{number % 100:02}-01-01"^^<http://www.w3.org/2001/XMLSchema#date>',
]


def rich_value(dice, n, subjects, triples):
    """Each kind of term and of escape in turn."""
    return RICH_VALUES[n % len(RICH_VALUES)](dice.randrange(triples))


def make_document(path, triples, value_of=plain_value):
    """Writes a document in which a subject has about five triples."""
    dice = random.Random(SEED)
    subjects = max(1, triples // 5)
    with open(path, "w", encoding="utf-8") as file:
        for n in range(triples):
            subject = dice.randrange(subjects)
            predicate = dice.randrange(10)
            value = value_of(dice, n, subjects, triples)
            file.write(f"<http://bench.example/item/{subject}> <http://bench.example/property/{predicate}> {value} .\n")


def measured(command):
    """Runs a command; gives its seconds, its peak memory in bytes, and what it wrote to errors."""
    begin = time.perf_counter()
    child = subprocess.Popen(command, stdout=subprocess.DEVNULL, stderr=subprocess.PIPE)
    errors = child.stderr.read()
    _, status, usage = os.wait4(child.pid, 0)
    seconds = time.perf_counter() - begin
    child.returncode = os.waitstatus_to_exitcode(status)
    if child.returncode != 0:
        sys.exit(f"{' '.join(command)} ended with {child.returncode}: {errors.decode(errors='replace')}")
    return seconds, usage.ru_maxrss * 1024, errors.decode(errors="replace").strip()


def has_rdflib():
    return subprocess.run([sys.executable, "-c", "import rdflib"], capture_output=True).returncode == 0


def peers():
    """The other programs at hand, as pairs of a name and a command over a document."""
    found = []
    if shutil.which("rapper"):
        found.append(("rapper -q -c", lambda path: ["rapper", "-q", "-c", "-i", "ntriples", path]))
    else:
        print("rapper is not installed: skipped")
    if has_rdflib():
        code = "import rdflib, sys; rdflib.Graph().parse(sys.argv[1], format='nt')"
        found.append(("rdflib", lambda path: [sys.executable, "-c", code, path]))
    else:
        print("rdflib is not installed: skipped")
    return found


def write(path, text):
    with open(path, "w", encoding="utf-8") as file:
        file.write(text)


def sizes_table(program, folder, largest):
    one = os.path.join(folder, "one.rq")
    every = os.path.join(folder, "every.rq")
    write(one, "SELECT * { <http://bench.example/item/7> ?property ?value }")
    write(every, "SELECT * { ?subject ?property ?value }")
    runs = [
        ("sage, one subject", lambda path: [program, "try", path, one]),
        ("sage, every triple", lambda path: [program, "try", path, every, "--quanta", "10000"]),
    ] + peers()
    print(f"{'program':<20} {'triples':>9} {'seconds':>9} {'growth':>7} {'MB':>8} {'bytes a triple':>15}")
    for name, command in runs:
        before = None
        for size in [n for n in SIZES if n <= largest]:
            path = os.path.join(folder, f"{size}.nt")
            if not os.path.exists(path):
                make_document(path, size)
            seconds, memory, _ = measured(command(path))
            growth = f"{seconds / before:.1f}" if before else ""
            before = seconds
            print(f"{name:<20} {size:>9} {seconds:>9.2f} {growth:>7} {memory / 1e6:>8.1f} {memory / size:>15.0f}")


def kinds_table(program, folder, size):
    """The largest document beside one of as many lines with every kind of term."""
    query = os.path.join(folder, "one.rq")
    plain, rich = os.path.join(folder, f"{size}.nt"), os.path.join(folder, f"{size}.rich.nt")
    make_document(rich, size, rich_value)
    runs = [("sage, one subject", lambda path: [program, "try", path, query])] + peers()
    print(f"\n{'program':<20} {'document':>9} {'MB':>7} {'seconds':>9} {'us a line':>10} {'MB':>8} {'memory to document':>19}")
    for name, command in runs:
        for kind, path in [("plain", plain), ("rich", rich)]:
            bytes_ = os.path.getsize(path)
            seconds, memory, _ = min(measured(command(path)) for _ in range(3))
            line = seconds / size * 1e6
            print(f"{name:<20} {kind:>9} {bytes_ / 1e6:>7.1f} {seconds:>9.2f} {line:>10.2f} {memory / 1e6:>8.1f} {memory / bytes_:>19.1f}")


def pages_table(program, folder):
    """The same answer of some 10,000 rows in one page and in pages of fewer steps, down to one."""
    path = os.path.join(folder, "100000.nt")
    if not os.path.exists(path):
        make_document(path, 100_000)
    query = os.path.join(folder, "property.rq")
    write(query, "SELECT ?subject ?value { ?subject <http://bench.example/property/3> ?value }")
    print(f"\n{'quantum':>8} {'seconds':>9} {'to one page':>12}  counts")
    whole = None
    for quantum in ["10000", "1000", "100", "10", "1"]:
        runs = [measured([program, "try", path, query, "--quanta", quantum]) for _ in range(5)]
        seconds, _, counts = min(runs)
        whole = whole or seconds
        print(f"{quantum:>8} {seconds:>9.3f} {seconds / whole:>12.2f}  {counts}")


def main():
    parser = argparse.ArgumentParser(description=__doc__.split("\n")[0])
    parser.add_argument("program")
    parser.add_argument("--largest", type=int, default=SIZES[-1])
    parser.add_argument("--keep", help="a folder for the documents, which are not removed then")
    given = parser.parse_args()
    program = os.path.abspath(given.program)
    with tempfile.TemporaryDirectory() as scratch:
        folder = given.keep or scratch
        os.makedirs(folder, exist_ok=True)
        sizes_table(program, folder, given.largest)
        kinds_table(program, folder, given.largest)
        pages_table(program, folder)


if __name__ == "__main__":
    main()
