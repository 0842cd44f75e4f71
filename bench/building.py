"""Builds the small program of a benchmark beside copies of the crates that it stands on.

The copies stand in the user's folder for caches, $XDG_CACHE_HOME or ~/.cache, in sage-bench: `rt ci` wants one crates.txt alone in the
repository. A library that another build on this machine made of the same files is taken from there; else it is proved first, which
takes some minutes. Only Python's standard library is used.
"""

import os
import pathlib
import shutil
import subprocess
import sys

ROOT = pathlib.Path(__file__).resolve().parent.parent
CACHE = pathlib.Path(os.environ.get("XDG_CACHE_HOME") or pathlib.Path.home() / ".cache") / "sage-bench"


def copied(crate, folder):
    """Copies what a crate is made of, with nothing left of an earlier copy."""
    for part in ["src", "specs", "proofs"]:
        source, target = ROOT / "crates" / crate / part, folder / "crates" / crate / part
        shutil.rmtree(target, ignore_errors=True)
        if source.is_dir():
            shutil.copytree(source, target)


def built(name, stands_on, libraries, words=(), text=b""):
    """The program that bench/NAME.txt is, built over crates of this repository and libraries of the toolchain.

    Once built it is run, with the words and with the text as its input.
    """
    folder = CACHE / name
    home = folder / "crates" / name
    (home / "src").mkdir(parents=True, exist_ok=True)
    for crate in stands_on:
        copied(crate, folder)
    shutil.copyfile(ROOT / "bench" / f"{name}.txt", home / "src" / "main.rt")
    lines = (ROOT / "crates.txt").read_text(encoding="utf-8").splitlines()
    kept = [line for line in lines if line.split(":")[0].split(" ")[0] in stands_on]
    own = f"{name}: {' '.join([*stands_on, *libraries])}"
    (folder / "crates.txt").write_text("\n".join([*kept, own]) + "\n", encoding="utf-8")
    done = subprocess.run(["rt", "run", "--", *words], cwd=home, input=text, capture_output=True, check=False)
    if done.returncode != 0:
        sys.exit(done.stdout.decode(errors="replace")[-2000:] + done.stderr.decode(errors="replace")[-2000:])
    return home / "out" / name
