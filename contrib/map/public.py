#!/usr/bin/env python3
"""Lists the public functions of the crates of a checkout, each with its signature and its clauses.

usage: public.py [--where] [TOP]
A line is the function's name (with its type, or its type and trait, in front), a bar, and its signature or one clause, with blanks
made one. The functions stand by name, the clauses as they are written. Public is what `src/lib.rt` exports, methods of exported types
among them, and what types are seen as (`ghost` members). No line names a crate or a module, so that two lists differ only where a
name, a signature or a clause does:

    contrib/map/public.py A > a; contrib/map/public.py B > b; diff a b

With --where the crate and the module stand behind each name. Programs export nothing.
"""
import argparse
import pathlib
import re

TOP = pathlib.Path(__file__).resolve().parents[2]
CLAUSES = ("requires", "ensures")


def without_comments(text):
    """The text with a blank in the place of each comment."""
    pattern = re.compile(r"""//[^\n]*|/\*.*?\*/|"(?:\\.|[^"\\])*"|b?'(?:\\.[^']*|[^\\'\s])'""", re.S)
    return pattern.sub(lambda found: " " if found[0].startswith(("//", "/*")) else found[0], text)


def closing(text, at):
    """The place behind the bracket that closes the one at a place."""
    depth = 0
    for found in re.compile(r"""[{}]|"(?:\\.|[^"\\])*"|b?'(?:\\.[^']*|[^\\'\s])'""", re.S).finditer(text, at):
        depth += {"{": 1, "}": -1}.get(found[0], 0)
        if depth == 0:
            return found.end()
    raise ValueError("a bracket is not closed")


def one_line(text):
    text = re.sub(r"\s+", " ", text).strip()
    return re.sub(r",? ([)>])", r"\1", re.sub(r"([(<]) ", r"\1", text)) if "{" not in text else text


def exported(text):
    """The names that a use tells, last ones."""
    text = re.sub(r"\s+", " ", text)
    inner = text[text.index("{") + 1 : text.rindex("}")] if "{" in text else text.rpartition("::")[2]
    return {each.split(" as ")[-1].split("::")[-1].strip() for each in inner.split(",") if each.strip()}


def exports_of(folder):
    """The names that a library exports, and its public modules."""
    root = without_comments((folder / "src" / "lib.rt").read_text(encoding="utf-8"))
    names = set()
    for use in re.findall(r"(?m)^pub use ([^;]+);", root):
        names |= exported(use)
    return names, set(re.findall(r"(?m)^pub mod (\w+);", root))


def type_of(header):
    """What an impl is of: a type, or a type and a trait."""
    header = one_line(header)
    while re.search(r"<[^<>]*>", header.replace("->", "")):
        header = re.sub(r"<[^<>]*>", "", header.replace("->", ""))
    header = header.partition(" where ")[0].strip()
    trait, found, of = header.partition(" for ")
    name = lambda words: re.sub(r"^&?\s*('\w+ )?(mut )?", "", words.strip()).split("::")[-1]
    return (f"{name(of)} as {name(trait)}", name(of)) if found else (name(header), name(header))


ITEM = re.compile(
    r"(?P<test>#\[cfg\(test\)\]\s*(?:pub )?mod \w+\s*(?=\{))|(?P<macro>\bmacro_rules!\s*\w+\s*(?=\{))"
    r"|(?P<fn>\b(?P<pub>pub(?:\([^)]*\))?\s+)?(?:const\s+|unsafe\s+|async\s+)*fn\s+(?P<name>\w+))"
    r"|(?P<trait>\b(?:pub(?:\([^)]*\))?\s+)?(?:unsafe\s+)?trait\s+(?P<traitname>\w+))"
    r"|(?P<impl>\bimpl\b)|(?P<ghost>\bghost\s+(?!use\b)(?P<ghostname>\w+)\s*(?=[:=(]))|(?P<open>\{)"
)


class Reader:
    def __init__(self, names, all_of_it):
        self.names, self.all, self.found = names, all_of_it, []

    def is_public(self, name):
        return self.all or name in self.names

    def function(self, text, found, owner, public):
        """A function: its signature and clauses; the place behind it."""
        at, start, clauses = found.end(), found.start(), []
        stop = re.compile(r"\b(requires|ensures)\b|[{;]").search(text, at)
        signature = re.sub(r"^pub(\([^)]*\))?\s+", "", one_line(text[start : stop.start()]))
        while stop and stop[0] in CLAUSES:
            begin = text.index("{", stop.start())
            end = closing(text, begin)
            clauses.append(re.sub(r"\s+", " ", text[stop.start() : end]))
            stop = re.compile(r"\b(requires|ensures)\b|[{;]").search(text, end)
        if public:
            self.found.append(((f"{owner}::" if owner else "") + found["name"], [signature] + clauses))
        return closing(text, stop.start()) if stop[0] == "{" else stop.end()

    def read(self, text, owner=None, kind=None, shown=True):
        at = 0
        while found := ITEM.search(text, at):
            if found["fn"]:
                plain = (found["pub"] or "").strip() == "pub"
                public = shown and (kind in ("trait", "trait impl") or plain and (owner is not None or self.is_public(found["name"])))
                at = self.function(text, found, owner, public)
            elif found["trait"] or found["impl"]:
                begin = text.index("{", found.end())
                end = closing(text, begin)
                if found["trait"]:
                    self.read(text[begin + 1 : end - 1], found["traitname"], "trait", self.is_public(found["traitname"]))
                else:
                    head = re.sub(r"^impl\s*(<)?", r"\1", text[found.start() : begin])
                    of, name = type_of(head)
                    self.read(text[begin + 1 : end - 1], of, "trait impl" if " as " in of else "impl", self.is_public(name))
                at = end
            elif found["ghost"]:
                begin = re.compile(r"[{;]").search(text, found.end())
                end = closing(text, begin.start()) if begin[0] == "{" else begin.end()
                if shown and kind in ("trait", "trait impl"):
                    self.found.append((f"{owner}::{found['ghostname']}", [re.sub(r"\s+", " ", text[found.start() : end])]))
                at = end
            else:
                at = closing(text, text.index("{", found.start()))


def functions(top):
    for folder in sorted((top / "crates").iterdir()):
        if not (folder / "src" / "lib.rt").is_file():
            continue
        names, modules = exports_of(folder)
        for path in sorted((folder / "src").glob("**/*.rt")):
            reader = Reader(names, path.stem in modules)
            reader.read(without_comments(path.read_text(encoding="utf-8")))
            for name, lines in reader.found:
                yield name, lines, f"{folder.name}::{path.stem}"


def main():
    parser = argparse.ArgumentParser(description=__doc__.splitlines()[0])
    parser.add_argument("--where", action="store_true", help="the crate and the module behind each name")
    parser.add_argument("top", nargs="?", type=pathlib.Path, default=TOP, help="a checkout; this one, if none is given")
    words = parser.parse_args()
    for name, lines, where in sorted(functions(words.top)):
        for line in lines:
            print(f"{name} ({where}) | {line}" if words.where else f"{name} | {line}")


if __name__ == "__main__":
    main()
