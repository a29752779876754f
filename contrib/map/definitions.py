#!/usr/bin/env python3
"""Prints docs/REFERENCE.md: each public definition that a public clause cites, with the comment that stands above it.

usage: definitions.py [--check]
The crates stand in the order of crates.txt, their files and definitions in the order of the files. With --check nothing is
written, and the exit status is 1 where the page differs. A definition that has no comment stands by its name alone.
"""
import argparse
import pathlib
import re
import sys

import map as house
import public

TOP = pathlib.Path(__file__).resolve().parents[2]
PAGE = TOP / "docs" / "REFERENCE.md"
HEAD = """# Reference of definitions

`contrib/map/definitions.py` prints this page from the comments above the definitions; `DEFINITIONS.md` tells a reader where to begin.
It has each public definition that a clause of a public call cites, by crate and by file below `crates/CRATE/specs/`.
"""
DEFINED = re.compile(r"(?:\s*(?:abbrev|unfoldable) pub|\s*pub (?:record|data)|pub) (?P<name>«[^»]+»|[^\s:({]+)(?=[\s:({])")
NO_DEFINITION = {"mod", "use", "module"}


def cited(top):
    """The words of all public clauses."""
    words = set()
    for _, lines, _ in public.functions(top):
        for line in lines[1:]:
            words |= set(re.findall(r"[\w◌']+", line))
    return words


def definitions_of(text):
    """The file's own comment, and each public definition with the comment above it."""
    lines, found, comment, own = text.splitlines(), [], [], None
    for line in lines:
        told = re.match(r"\s*-- (?!---)(.*)", line)
        if told:
            comment.append(told[1].strip())
            continue
        if own is None:
            own, comment = " ".join(comment), []
        head = DEFINED.match(line)
        if head and head["name"] not in NO_DEFINITION:
            found.append((head["name"].strip("«»"), " ".join(comment)))
        comment = []
    return own or "", found


def shown(name, comment):
    """A definition's line: its name, and its comment as a sentence, if it has one."""
    return f"- `{name}`" + (f": {comment}" if comment else "") + ("" if not comment or comment.endswith((".", ":", "?")) else ".")


def page_of(top):
    """The page."""
    words, lines = cited(top), [HEAD]
    named = house.read_crates((top / "crates.txt").read_text(encoding="utf-8"))
    for crate in named:
        parts = []
        for path in sorted((top / "crates" / crate / "specs").glob("**/*.antt")):
            own, found = definitions_of(path.read_text(encoding="utf-8"))
            found = [each for each in dict(found).items() if each[0] in words]
            if found:
                parts += ["", f"**{path.stem}.** {own}", "", *[shown(*each) for each in found]]
        if parts:
            lines += ["", f"## {crate}", *parts]
    return "\n".join(lines).replace("\n\n\n", "\n\n") + "\n"


def main():
    parser = argparse.ArgumentParser(description=__doc__.splitlines()[0])
    parser.add_argument("--check", action="store_true", help="write nothing; 1 where the page differs")
    check = parser.parse_args().check
    page = page_of(TOP)
    differs = not PAGE.is_file() or PAGE.read_text(encoding="utf-8") != page
    if differs and check:
        print(f"differs: {PAGE.relative_to(TOP)}", file=sys.stderr)
    if not check:
        PAGE.write_text(page, encoding="utf-8")
    return 1 if check and differs else 0


if __name__ == "__main__":
    sys.exit(main())
