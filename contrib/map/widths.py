#!/usr/bin/env python3
"""Counts the lines of the crates that are wider than 120 columns, by crate: of code (`.rt`), of `specs/` and of `proofs/`.

usage: widths.py [--check N] [FOLDER]
With --check it prints the sum, and the status is 1 where there are more than N. FOLDER is the checkout, by default this one.
"""
import argparse
import collections
import pathlib
import sys

TOP = pathlib.Path(__file__).resolve().parents[2]
WIDTH = 120
KINDS = ("code", "specs", "proofs")


def counted(top):
    """Of each crate and kind, how many lines are too wide."""
    found = collections.Counter()
    for path in (top / "crates").rglob("*"):
        crate, *folders = path.relative_to(top / "crates").parts
        if path.suffix in (".rt", ".antt") and "out" not in folders:
            kind = "code" if path.suffix == ".rt" else folders[0]
            found[crate, kind] += sum(len(line) > WIDTH for line in path.read_text(encoding="utf-8").split("\n"))
    return found


def main(words=None):
    parser = argparse.ArgumentParser(description=__doc__.splitlines()[0])
    parser.add_argument("--check", type=int, metavar="N", help="1 where there are more than N")
    parser.add_argument("folder", nargs="?", type=pathlib.Path, default=TOP)
    given = parser.parse_args(words)
    found = counted(given.folder)
    if given.check is None:
        for crate in sorted({crate for crate, _ in found}):
            numbers = [found[crate, kind] for kind in KINDS]
            if any(numbers):
                print(crate, *(f"{kind} {number}" for kind, number in zip(KINDS, numbers) if number))
    print(f"{sum(found.values())} lines are wider than {WIDTH} columns")
    return 1 if given.check is not None and sum(found.values()) > given.check else 0


if __name__ == "__main__":
    sys.exit(main())
