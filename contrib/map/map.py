#!/usr/bin/env python3
"""Writes what crates.txt tells of each crate, in place: two columns of docs/MAP.md, and who stands on it at the end of its README.md.

usage: map.py [--check]
In each row of a table that begins with the column "Crate", "Stands on" is the crates of its line in crates.txt that no
other crate of that line stands on: what these stand on it may name too. Libraries of the kit count as crates. Behind it
stands whether the program `dirauth` stands on the crate. The last line of crates/NAME/README.md names the crates whose
"Stands on" names it. With --check nothing is written. Exit status 1 where a page differs with --check, 2 where a crate has no
row or two, or a row names no crate.
"""
import argparse
import collections
import pathlib
import re
import sys

TOP = pathlib.Path(__file__).resolve().parents[2]
PROGRAM = "dirauth"
HEAD = ["Stands on", f"In `{PROGRAM}`"]
USERS = "Stood on by: "


def read_crates(text):
    """The crates that each crate names, in the order of crates.txt."""
    named = {}
    for line in text.splitlines():
        head, colon, rest = line.partition("#")[0].partition(":")
        if colon:
            named[head.split()[0]] = rest.split()
    return named


def below(named, crate, known):
    """All that a crate stands on, itself left out."""
    if crate not in known:
        known[crate] = set()
        for each in named.get(crate, []):
            known[crate] |= {each} | below(named, each, known)
    return known[crate]


def stands_on(named, crate, known):
    """The crates that a crate names and no other of these stands on."""
    deps = named[crate]
    hidden = set().union(*(below(named, each, known) for each in deps))
    return [each for each in deps if each not in hidden]


def cells_of(line):
    return [cell.strip() for cell in line.strip().strip("|").split("|")]


def written_anew(page, named):
    """The page with its columns by crates.txt, and how often each crate has a row."""
    rows, known, lines, inside = collections.Counter(), {}, [], False
    program = {PROGRAM} | below(named, PROGRAM, known)
    for line in page.splitlines():
        cells = cells_of(line) if line.startswith("|") else []
        if not cells or cells[0] == "Crate":
            inside = cells[-2:] == HEAD
        name = re.fullmatch(r"`(\w+)`", cells[0]) if inside else None
        if name:
            rows[name[1]] += 1
            if name[1] in named:
                column = " ".join(f"`{each}`" for each in stands_on(named, name[1], known)) or "`std`"
                cells[-2:] = column, "yes" if name[1] in program else "-"
                line = f"| {' | '.join(cells)} |"
        lines.append(line)
    return "\n".join(lines) + "\n", rows


def users_lines(named):
    """Of each crate, who stands on it by the map's column, in the order of crates.txt."""
    users, known = {crate: [] for crate in named}, {}
    for crate in named:
        for each in stands_on(named, crate, known):
            if each in users:
                users[each].append(f"`{crate}`")
    return {crate: f"{USERS}{', '.join(them) or 'none'}." for crate, them in users.items()}


def with_users(readme, line):
    """A crate's README with who stands on it as its last line."""
    lines = readme.rstrip("\n").split("\n")
    if lines[-1].startswith(USERS):
        lines = lines[:-2]
    return "\n".join([*lines, "", line]) + "\n"


def pages(named):
    """Each page that is written, as it stands and as it has to be, and how often each crate has a row of the map."""
    path = TOP / "docs" / "MAP.md"
    page = path.read_text(encoding="utf-8")
    anew, rows = written_anew(page, named)
    found = [(path, page, anew)]
    for crate, line in users_lines(named).items():
        path = TOP / "crates" / crate / "README.md"
        readme = path.read_text(encoding="utf-8")
        found.append((path, readme, with_users(readme, line)))
    return found, rows


def main():
    parser = argparse.ArgumentParser(description=__doc__.splitlines()[0])
    parser.add_argument("--check", action="store_true", help="write nothing; 1 where the page differs")
    check = parser.parse_args().check
    named = read_crates((TOP / "crates.txt").read_text(encoding="utf-8"))
    found, rows = pages(named)
    wrong = [f"{each}: {rows[each]} rows" for each in named if rows[each] != 1]
    wrong += [f"{each}: no crate" for each in rows if each not in named]
    for each in wrong:
        print(each, file=sys.stderr)
    differs = [(path, anew) for path, old, anew in found if old != anew]
    for path, anew in differs:
        if check:
            print(f"differs: {path.relative_to(TOP)}", file=sys.stderr)
        else:
            path.write_text(anew, encoding="utf-8")
    return 2 if wrong else 1 if check and differs else 0


if __name__ == "__main__":
    sys.exit(main())
