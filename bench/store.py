#!/usr/bin/env python3
"""Times `sage build` and `sage info` over generated documents, beside other programs on the same files.

Usage: bench/store.py PROGRAM [--largest N] [--keep FOLDER]

PROGRAM is the built program `sage`. Documents of 10,000, 100,000 and 1,000,000 triples are those of
bench/first_path.py. For each one the table has the seconds and the peak memory of `sage build`, the bytes of the
store file, and the memory beside the sum of document and file; then the seconds of `sage info`, which reads one block.
`rapper -q -c -i ntriples` and `tdb2.tdbloader` of Jena stand beside it where they are installed. Only Python's
standard library is used.
"""

import argparse
import pathlib
import shutil
import tempfile

from first_path import SIZES, make_document, measured


def best(command, runs):
    """The least seconds of some runs, and the memory of that one."""
    return min(measured(command)[:2] for _ in range(runs))


def build_rows(program, folder, sizes, runs):
    """A row for each size: seconds, growth, peak memory, and bytes of document and file."""
    before = None
    for size in sizes:
        document, store = folder / f"plain-{size}.nt", folder / f"plain-{size}.sage"
        if not document.exists():
            make_document(document, size)
        seconds, memory = best([program, "build", str(document), str(store)], runs)
        both = document.stat().st_size + store.stat().st_size
        growth = "" if before is None else f"{seconds / before:.1f}"
        before = seconds
        print(f"| sage build | {size:,} | {seconds:.2f} | {growth} | {memory / 1e6:.1f} | {store.stat().st_size / 1e6:.1f} | {memory / both:.2f} |")
        seconds, memory = best([program, "info", str(store)], runs)
        print(f"| sage info | {size:,} | {seconds:.3f} | | {memory / 1e6:.1f} | | |", flush=True)


def peer_rows(folder, sizes, runs):
    """The rows of the programs that are installed."""
    for size in sizes:
        document = str(folder / f"plain-{size}.nt")
        if shutil.which("rapper"):
            seconds, memory = best(["rapper", "-q", "-c", "-i", "ntriples", document], runs)
            print(f"| rapper -q -c | {size:,} | {seconds:.2f} | | {memory / 1e6:.1f} | | |", flush=True)
        if shutil.which("tdb2.tdbloader"):
            target = tempfile.mkdtemp(dir=folder)
            seconds, memory = measured(["tdb2.tdbloader", "--loc", target, document])[:2]
            print(f"| tdb2.tdbloader | {size:,} | {seconds:.2f} | | {memory / 1e6:.1f} | | |", flush=True)


def main():
    parser = argparse.ArgumentParser(description=__doc__.split("\n")[0])
    parser.add_argument("program")
    parser.add_argument("--largest", type=int, default=SIZES[-1])
    parser.add_argument("--keep", type=pathlib.Path)
    words = parser.parse_args()
    sizes = [size for size in SIZES if size <= words.largest]
    with tempfile.TemporaryDirectory() as made:
        folder = words.keep or pathlib.Path(made)
        print("| Program | Triples | Seconds | Growth | Memory in MB | Store file in MB | Memory to document and file |")
        print("|---|---:|---:|---:|---:|---:|---:|")
        build_rows(words.program, folder, sizes, 3)
        peer_rows(folder, sizes, 3)


if __name__ == "__main__":
    main()
