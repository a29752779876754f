#!/usr/bin/env python3
"""Packs the imports of all crates, in place: one `use` for what a file takes from one crate, on as few lines as 120 columns allow.

usage: pack.py [--check] [FOLDER]
In each run of `use` lines of an .antt file, and of `ghost use` lines of a .rt file, the names of one crate stand in one tree,
`use Rattle.vote_doc.specs.{Columns.{a, b}, Lines.c}`, in the order in which they first came. What it imports stays the same, name for
name and module for module. A line keeps its form where it brings a module (`use Rattle.vote_doc.proofs.Lines as law`), passes on
(`pub use`), names no crate (`use Prim.{..}`), or where the kit reads its path as text (a constant; a name that is spelled as a tactic).
With --check nothing is written, and the status is 1 where a file is not packed. FOLDER is the checkout, by default this one.
"""
import argparse
import pathlib
import re
import sys

TOP = pathlib.Path(__file__).resolve().parents[2]
WIDTH = 120
HEAD = re.compile(r"( *)((?:pub |unfoldable )*(?:ghost )?use) (?=\S)")
ALONE = re.compile(r"\b(TheConstants|TheStatics|syntax)\b|[*]\}$|--|//|\.\{\}")
TACTICS = set("assumption cc grind ground grw hlevel omega rw search simp".split())


def leaves(tree, above=()):
    """The names of a tree of imports such as `A.{b, C.{d, e as f}}`, each as the segments of its path."""
    found, start, depth = [], 0, 0
    for at, sign in enumerate(tree + ","):
        depth += {"{": 1, "}": -1}.get(sign, 0)
        if sign == "," and depth == 0:
            part, start = tree[start:at].strip(), at + 1
            path, brace, inner = part.partition(".{")
            segments = (*above, *(path.split(".") if brace else path.split(" as ")[0].split(".")))
            if brace:
                found += leaves(inner[:-1], segments)
            elif part:
                found.append((*segments[:-1], part[len(path.split(" as ")[0]) - len(segments[-1]) :]))
    return found


def branch(first, rests):
    """One segment and what stands below it, in braces where that is more than one path."""
    if len(rests) == 1:
        return ".".join((first, *rests[0]))
    if all(len(it) > 1 and it[0] == rests[0][0] for it in rests):
        return f"{first}.{branch(rests[0][0], [it[1:] for it in rests])}"
    parts = {}
    for it in rests:
        parts.setdefault((len(it) > 1, it[0]), []).append(it[1:])
    return f"{first}.{{{', '.join(branch(name, below) if deep else name for (deep, name), below in parts.items())}}}"


def line_of(head, paths, end):
    """The import of these paths, whose last names always stand in braces."""
    if len(paths) == 1:
        return f"{head} {'.'.join(paths[0][:-1])}.{{{paths[0][-1]}}}{end}"
    return f"{head} {branch(paths[0][0], [it[1:] for it in paths])}{end}"


def together(paths):
    """Paths without what stands twice, those of one module behind the first of them, at each depth."""
    place = {}
    for path in paths:
        for depth in range(1, len(path) + 1):
            place.setdefault((depth == len(path), path[:depth]), len(place))
    key = lambda path: [place[depth == len(path), path[:depth]] for depth in range(1, len(path) + 1)]
    return sorted(dict.fromkeys(paths), key=key)


def filled(head, paths, end):
    """As few lines as bring these paths in their order."""
    lines, taken = [], []
    for path in together(paths):
        if taken and len(line_of(head, [*taken, path], end)) > WIDTH:
            lines.append(line_of(head, taken, end))
            taken = []
        taken.append(path)
    return [*lines, line_of(head, taken, end)]


def packed_run(head, items, end):
    """The lines of a run of imports: those of a crate at the place of its first."""
    crates = {}
    for number, item in enumerate(items):
        tree = item[len(head) + 1 :].removesuffix(end)
        paths = leaves(tree) if tree.startswith("Rattle.") and "{" in tree and not ALONE.search(tree) else []
        if paths and not TACTICS & {it[-1].split()[-1] for it in paths} and item.startswith(f"{head} "):
            crates.setdefault(paths[0][:2], []).extend(paths)
        else:
            crates[number] = item
    return [line for key, it in crates.items() for line in ([it] if isinstance(it, str) else filled(head, it, end))]


def packed(text, is_source):
    """The text of a file with its imports packed."""
    end, word = (";", "ghost use") if is_source else ("", "use")
    out, run, head = [], [], ""
    lines = iter(text.split("\n"))
    for line in lines:
        found = HEAD.match(line)
        mine = found and found[2].endswith(word)
        if mine:
            while line.count("{") > line.count("}"):
                line = re.sub(r"(?<=\{) |,? (?=\})", "", f"{line} {next(lines).strip()}")
        if run and not (mine and found[1] + word == head):
            out += packed_run(head, run, end)
            run = []
        if mine:
            head = found[1] + word
            run.append(line)
        else:
            out.append(line)
    return "\n".join(out + (packed_run(head, run, end) if run else []))


def main(words=None):
    arguments = argparse.ArgumentParser(usage="pack.py [--check] [FOLDER]")
    arguments.add_argument("--check", action="store_true")
    arguments.add_argument("folder", nargs="?", type=pathlib.Path, default=TOP)
    given = arguments.parse_args(words)
    differ = 0
    for file in sorted((given.folder / "crates").rglob("*.*t*")):
        if file.suffix not in (".antt", ".rt") or "out" in file.relative_to(given.folder).parts:
            continue
        text = file.read_text()
        new = packed(text, file.suffix == ".rt")
        if new != text:
            differ += 1
            print(file.relative_to(given.folder))
            if not given.check:
                file.write_text(new)
    return 1 if given.check and differ else 0


if __name__ == "__main__":
    sys.exit(main())
