#!/usr/bin/env python3
"""Counts what a reader of a promise has to believe: the definitions that it reaches, and their lines of code.

usage: reading.py [--list] [compute|serve|compute_says|serve_says|mirror]
       reading.py [--check]
With a name it prints the numbers of that promise; with --list each definition too, by its crate and file. Without one it writes the
rows of the table in docs/CLAIMS.md whose first column is "Promise"; with --check it writes nothing, and the status is 1 where one differs.

A line counts where it has code: comments, blank lines and imports do not. Counted are definitions of `specs/` and plain types; what the
kit defines is not. Of a command the clauses of the other commands are left out.
"""
import argparse
import pathlib
import re
import sys

import public
import scopes

TOP = pathlib.Path(__file__).resolve().parents[2]
PAGE = TOP / "docs" / "CLAIMS.md"
COMMANDS = set("Compute Check Show MakeVote Rehearse Report Serve".split())
# of each promise: the command that it is of, where it is one; its definitions; the calls whose clauses it is
ROOTS = {
    "compute": ("Compute", ["authority_daemon/World::IsRun"], []),
    "serve": ("Serve", ["authority_daemon/Served::IsServed"], []),
    "compute_says": ("Compute", ["headline/Headline::IsComputedAlone"], []),
    "serve_says": ("Serve", ["headline/Headline::ServesRightly"], []),
    "mirror": (
        None,
        ["mirror_core/Sound::IsSound", *(f"mirror_serve/{it}" for it in ("GivenTexts::IsSignedText", "GivenTexts::AreCheckedTexts"))],
        ["mirror_daemon::program::run_mirror"],
    ),
}


def leaves_all_but(command):
    """Whether a clause, or a variant of the type of all commands, is of another command than this."""
    others = COMMANDS - {command} if command else set()

    def leaves(definition, line):
        if definition.kind == "enum":
            return definition.name == "Command" and line.strip().partition("(")[0] in others
        left = re.split(r"\s=\s", line, maxsplit=1)[0]
        return any(re.search(rf"\bcommand\.{other}\b", left) for other in others)

    return leaves


def roots_of(house, top, definitions, calls):
    """The definitions that a promise names."""
    found = set()
    for it in definitions:
        crate, file, name = re.fullmatch(r"(\w+)/(\w+)::(\w+)", it).groups()
        found.add(house.scopes[f"Rattle.{crate}.specs.{file}"].own[name])
    if calls:
        for name, lines, where in public.functions(top):
            if f"{where}::{name}" in calls:
                words = scopes.tokens(" ".join(lines[1:]))
                found |= house.cited(house.scopes[where], words, scopes.binders(words))
    return found


def reached(house, roots, leaves):
    """All definitions that these name, and those that they name in turn."""
    found, rest = set(roots), list(roots)
    while rest:
        more = house.names(rest.pop(), leaves) - found
        found |= more
        rest += more
    return found


def read(house, top, name):
    """The definitions of a promise, and how many lines of each are of it."""
    command, definitions, calls = ROOTS[name]
    leaves = leaves_all_but(command)
    return {it: it.count(leaves) for it in reached(house, roots_of(house, top, definitions, calls), leaves)}


def numbers(found):
    """How many definitions, lines, files and crates these are; the head of a module is none."""
    files, crates = {it.scope.path for it in found}, {it.scope.crate for it in found}
    return [sum(bool(it.name) for it in found), sum(found.values()), len(files), len(crates)]


def written_anew(page, rows):
    """The page with the rows of its table."""
    lines, inside = [], False
    for line in page.split("\n"):
        cells = [cell.strip() for cell in line.strip("|").split("|")] if line.startswith("|") else []
        inside = bool(cells) and (inside or cells[0] == "Promise")
        name = re.match(r"`(\w+)`", cells[0]) if inside else None
        if name and name[1] in rows:
            line = f"| {' | '.join([cells[0], *(f'{it:,}' for it in rows[name[1]])])} |"
        lines.append(line)
    return "\n".join(lines)


def main():
    parser = argparse.ArgumentParser(description=__doc__.splitlines()[0])
    parser.add_argument("--check", action="store_true", help="write nothing; 1 where a row differs")
    parser.add_argument("--list", action="store_true", help="each definition, with its lines")
    parser.add_argument("promise", nargs="?", choices=sorted(ROOTS))
    words = parser.parse_args()
    house = scopes.House(TOP)
    if words.promise:
        found = read(house, TOP, words.promise)
        print("%d definitions, %d lines, in %d files of %d crates" % tuple(numbers(found)))
        for it in sorted(found, key=lambda it: (it.scope.crate, it.scope.path, it.name)) if words.list else []:
            print(f"{it.scope.path.relative_to(TOP)}: {it.name or it.head[0]}: {found[it]}")
        return 0
    page = PAGE.read_text(encoding="utf-8")
    anew = written_anew(page, {name: numbers(read(house, TOP, name)) for name in ROOTS})
    if anew != page and words.check:
        print(f"differs: {PAGE.relative_to(TOP)}", file=sys.stderr)
    elif anew != page:
        PAGE.write_text(anew, encoding="utf-8")
    return 1 if words.check and anew != page else 0


if __name__ == "__main__":
    sys.exit(main())
