#!/usr/bin/env python3
"""Looks whether each edit of contrib/strength still stands in its crate: whether each text of a line `old:` is there once. It proves nothing.

    applies.py [NAME ...]      of the named crates, or of all

It prints a line for each edit that does not, and at the end how many do. Its status is 0 only where all do."""
import os
import sys

HERE = os.path.dirname(os.path.realpath(__file__))
CRATES = os.path.join(HERE, "..", "..", "crates")


def fault_of(edit, crate):
    """What keeps the edit from being applied to the crate, if something does."""
    path, old, texts, pairs = "", "", {}, 0
    with open(edit, encoding="utf-8") as lines:
        for line in lines.read().split("\n"):
            word, _, rest = line.partition(": ")
            if word == "file":
                path = rest.strip()
            elif word == "old":
                old = rest
            elif line.startswith("new:") and path and old:
                if path not in texts:
                    if not os.path.isfile(f"{crate}/{path}"):
                        return f"there is no {path}"
                    with open(f"{crate}/{path}", encoding="utf-8") as file:
                        texts[path] = file.read()
                found = texts[path].count(old)
                if found != 1:
                    return f"{path} has this {found} times: {old.strip()}"
                texts[path] = texts[path].replace(old, line[len("new:") :].removeprefix(" "))
                old, pairs = "", pairs + 1
    return None if pairs else "it has no lines `old:` and `new:`"


def main(names):
    every = sorted(name for name in os.listdir(HERE) if os.path.isdir(f"{HERE}/{name}"))
    unknown = [name for name in names if name not in every]
    for name in unknown:
        print(f"{name}: no edits of such a crate")
    count = faults = 0
    for name in names or every:
        folder = f"{HERE}/{name}"
        for edit in sorted(os.listdir(folder)) if name in every else []:
            fault = fault_of(f"{folder}/{edit}", f"{CRATES}/{name}")
            count += 1
            if fault:
                faults += 1
                print(f"{name}/{edit}: {fault}")
    print(f"{count - faults} of {count} edits stand in their crates")
    return 1 if faults or unknown else 0


sys.exit(main(sys.argv[1:]))
