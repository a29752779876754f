"""Reads what the crates of a checkout define, and what each definition names.

A `Definition` is one of `crates/NAME/specs/*.antt` (a signature with its clauses, a record, a data, the head of a module with
parameters), or a type of `src/**/*.rt` with its `impl Model`. Names are resolved as the files import them (`use` lines of any form,
packed ones too); names that a binder, a pattern or a field brings hide these.
"""
import re

import pack

NAME = r"[^\W\d][\w']*"
TOKEN = re.compile(rf"«[^»]*»|{NAME}|\d\w*|\"(?:[^\"\\]|\\.)*\"|'(?:[^'\\]|\\.)'|\S")
WORDS = set("where record data let in elim as pub abbrev unfoldable unfolding Type if then else λ Unit ℕ ℓ".split())
HEAD = re.compile(rf"(?P<pub>(?:(?:pub|abbrev|unfoldable) )*)(?P<kind>record |data )?(?P<name>«[^»]*»|{NAME})(?=[\s:({{]|$)")
FIELD = re.compile(rf"(?:pub )?({NAME}|«[^»]*»)\s*:")
ITEM = re.compile(rf"(?:pub(?:\([^)]*\))? )?(?:unsafe )?(?P<kind>struct|enum|trait|type|fn|impl|const|mod)\b\s*(?P<name>{NAME})?")
MODEL = re.compile(rf"\bModel for (?:&\s*)?({NAME})")


class Scope:
    """What a file's names mean: its own, the imported ones, and the modules that it calls by a name."""

    def __init__(self, crate, path):
        self.crate, self.path = crate, path
        self.own, self.names, self.modules, self.types = {}, {}, {}, {}

    def take_use(self, line):
        """Takes the names of a `use` line."""
        tree = line.split("use ", 1)[1].strip().removesuffix(";")
        if "{" not in tree:
            path, _, name = tree.partition(" as ")
            self.modules[name or path.rpartition(".")[2]] = path
            return
        for *above, last in pack.leaves(tree):
            name, _, new = last.partition(" as ")
            self.names[new or name] = ".".join(above), name

    def take_types(self, line):
        """Takes the types of a `use` line of Rust, each as the path of its segments."""
        tree = re.sub(r"^pub(\([^)]*\))? ", "", line).removeprefix("use ").removesuffix(";").replace("::", ".")
        for *above, last in pack.leaves(tree):
            name, _, new = last.partition(" as ")
            self.types[new or name] = (*above, name)


class Definition:
    """A definition: its lines of code, by clauses; the heads of the modules that it stands in."""

    def __init__(self, scope, name, kind, text, inside=()):
        self.scope, self.name, self.kind, self.inside = scope, name, kind, inside
        self.head, self.clauses, self.models = [text], [], []

    def part(self, leaves):
        """The lines of its head and its clauses, but for those of which `leaves` is true."""
        head = [line for line in self.head if not leaves(self, line)] if self.kind == "enum" else self.head
        return head, [clause for clause in self.clauses if not leaves(self, clause)]

    def count(self, leaves):
        """How many lines of code that part has."""
        head, clauses = self.part(leaves)
        return len(head) + sum(clause.count("\n") + 1 for clause in clauses) + sum(map(len, self.models))


def tokens(text):
    """The words and signs of a text; a full stop that nothing follows at once, as behind a λ's names, is `․`."""
    return TOKEN.findall(re.sub(r"\.(?=\s|$)", " ․ ", text))


def is_name(token):
    return re.fullmatch(NAME, token) is not None


def binders(words):
    """The names that words bind: (x y : A), {x : A}, λ x (y : A)․, let x."""
    bound = set()
    for at, word in enumerate(words):
        group = at + 1
        if word in "({":
            while group < len(words) and is_name(words[group]):
                group += 1
            if group < len(words) and words[group] == ":":
                bound |= set(words[at + 1 : group])
        elif word == "λ":
            while group < len(words) and words[group] != "․":
                if words[group - 1] != ":":
                    bound.add(words[group])
                group += 1
        elif word == "let" and group < len(words):
            bound.add(words[group])
    return bound


def code_of(line):
    """A line without its comment."""
    return re.sub(r"(^|\s)--(?=\s|-|$).*", "", line) if '"' not in line else line


class House:
    """The definitions of all crates of a checkout."""

    def __init__(self, top):
        self.scopes, self.types = {}, {}
        sources = []
        for crate in sorted((top / "crates").iterdir()):
            for path in sorted((crate / "specs").glob("*.antt")):
                if path.stem != "Lib":
                    self.read_specs(Scope(crate.name, path), path.read_text(encoding="utf-8"))
            sources += [(crate.name, path, crate / "src") for path in sorted((crate / "src").rglob("*.rt"))]
        models = [model for it in sources for model in self.read_source(*it)]
        for scope, name, lines in models:
            found = scope.own.get(name) or self.type_at(scope, name)
            if found:
                found.models.append(lines)

    @staticmethod
    def add(scope, definition):
        scope.own[definition.name] = definition
        return definition

    def read_specs(self, scope, text):
        """The definitions of a file of specs."""
        self.scopes[f"Rattle.{scope.crate}.specs.{scope.path.stem}"] = scope
        lines = iter([code for line in text.split("\n") if (code := code_of(line).rstrip())])
        now, inside = None, []
        for line in lines:
            indent, line = len(line) - len(line.lstrip()), line.strip()
            if re.match(r"(pub )?use ", line):
                while line.count("{") > line.count("}"):
                    line += " " + next(lines).strip()
                scope.take_use(line)
                now = None
            elif now and indent > now[0]:
                self.go_on(now[1], line)
            elif now and indent == now[0] and now[1].kind == "" and re.match(rf"{re.escape(now[1].name)}(?=\s|$)(?!\s*:)", line):
                now[1].clauses.append(line)
            elif now and line == "}":
                self.go_on(now[1], line)
            else:
                inside = [it for it in inside if it[0] < indent]
                above = [it[1] for it in inside]
                if line.startswith("module "):
                    while not line.endswith("where"):
                        line += "\n" + next(lines).strip()
                    head = Definition(scope, "", "module", line, above)
                    head.head = line.split("\n")
                    inside.append((indent, head))
                    now = None
                elif found := HEAD.match(line):
                    made = Definition(scope, found["name"], (found["kind"] or "").strip(), line, above)
                    now = indent, self.add(scope, made)
        for data in [it for it in scope.own.values() if it.kind == "data"]:
            for line in data.head[1:]:
                if found := FIELD.match(line):
                    scope.own.setdefault(found[1], data)

    @staticmethod
    def go_on(definition, line):
        if definition.clauses:
            definition.clauses[-1] += "\n" + line
        else:
            definition.head.append(line)

    def read_source(self, crate, path, folder):
        """Adds the types of a source; its `impl Model`s, with the lines of each."""
        scope, models = Scope(crate, path), []
        module = ".".join(path.relative_to(folder).with_suffix("").parts)
        self.scopes[f"{crate}::{module}"] = scope
        text = "\n".join(re.sub(r"//.*$", "", line).rstrip() for line in path.read_text(encoding="utf-8").split("\n"))
        for item in re.findall(r"(?m)^\S(?:[^\n]*\n(?![^\s})]))*[^\n]*", text):
            line = re.sub(r"\s+", " ", item).strip().replace("{ ", "{").replace(", }", "}").replace(" }", "}")
            if re.match(r"(pub )?ghost use ", line):
                scope.take_use(line)
            elif re.match(r"(pub(\([^)]*\))? )?use ", line):
                scope.take_types(line)
            found = ITEM.match(item)
            lines = [it for it in item.split("\n") if it.strip()]
            if found and found["kind"] in ("struct", "enum", "trait", "type"):
                made = self.add(scope, Definition(scope, found["name"], found["kind"], ""))
                made.head = lines
                self.types[crate, made.name] = made
                own = self.scopes[f"Rattle.{crate}.specs.declared.{module}.{made.name}"] = Scope(crate, path)
                own.own = {made.name: made, **{name: made for name in variants(made)}}
            elif found and found["kind"] == "impl" and (of := MODEL.search(item)):
                models.append((scope, of[1], lines))
        return models

    def find(self, module, name):
        """The definition of a name that a module has, or nothing where it is none of the house's."""
        if scope := self.scopes.get(module):
            if name in scope.own:
                return scope.own[name]
            return self.find(*scope.names[name]) if name in scope.names else None
        above, _, last = module.rpartition(".")
        if not above:
            return None
        if (scope := self.scopes.get(above)) and last != "TheVariants":
            return self.find(".".join(scope.names[last]), name) if last in scope.names else scope.own.get(last)
        if scope and last in scope.modules:
            return self.find(f"{scope.modules[last]}", name)
        return self.find(above, name) if last == "TheVariants" else None

    def type_at(self, scope, name, passed=()):
        """The type that a name of Rust means in a source, also where another crate passes it on."""
        if name in scope.own:
            return scope.own[name]
        crate, *_, last = scope.types.get(name, (None, None))
        crate = scope.crate if crate in ("crate", "super", "self") else crate
        if (crate, last) in self.types:
            return self.types[crate, last]
        exports = self.scopes.get(f"{crate}::lib")
        return self.type_at(exports, last, (*passed, exports)) if exports and exports not in passed and exports is not scope else None

    def meant(self, scope, name):
        """What a name means in a scope."""
        return scope.own.get(name) or (self.find(*scope.names[name]) if name in scope.names else None)

    def cited(self, scope, words, bound):
        """The definitions that words name, but for names that are bound."""
        found, at = set(), 0
        while at < len(words):
            word, before, behind = words[at], words[at - 1] if at else "", words[at + 1 : at + 3]
            if is_name(word) and before != "." and word not in WORDS and word not in bound:
                if behind[:1] == ["."] and word in scope.modules and len(behind) == 2:
                    found.add(self.find(scope.modules[word], behind[1]))
                    at += 2
                elif not (behind[:1] == ["="] and before in ("{", ";")):
                    found.add(self.meant(scope, word))
            at += 1
        return found - {None}

    def names(self, definition, leaves):
        """The definitions that a definition names, but for the lines of which `leaves` is true."""
        scope, kind = definition.scope, definition.kind
        head, clauses = definition.part(leaves)
        if kind in ("struct", "enum", "trait", "type"):
            return self.names_of_type(definition, "\n".join(head))
        bound = {definition.name}.union(*(binders(tokens("\n".join(head.head))) for head in definition.inside))
        found = set(definition.inside)
        fields = []
        if kind in ("record", "data"):
            begins = [at for at, line in enumerate(head) if at and FIELD.match(line)] + [len(head)]
            fields = ["\n".join(head[a:b]) for a, b in zip(begins, begins[1:])]
            head = head[: begins[0]]
        words = tokens("\n".join(head))
        found |= self.cited(scope, words, bound | binders(words))
        bound |= binders(words) if kind else set()
        for field in fields:
            name = FIELD.match(field)[1]
            words = tokens(field[FIELD.match(field).end() :])
            bound |= {name} if kind == "data" else set()
            found |= self.cited(scope, words, bound | binders(words))
            bound.add(name)
        for clause in clauses:
            left, _, right = re.split(r"(\s=(?=\s|$))", clause, maxsplit=1) if re.search(r"\s=(\s|$)", clause) else (clause, "", "")
            patterns, words = tokens(left), tokens(right)
            plain = {word for word in patterns if is_name(word) and not self.is_constructor(scope, word)}
            found |= self.cited(scope, patterns, bound | plain - set(scope.modules))
            found |= self.cited(scope, words, bound | plain | binders(words))
        return found - {definition}

    def is_constructor(self, scope, word):
        meant = self.meant(scope, word)
        return word in scope.names and word[0].isupper() if meant is None else meant.kind in ("data", "enum", "struct")

    def names_of_type(self, definition, text):
        scope = definition.scope
        found = {self.type_at(scope, word) for word in re.findall(NAME, text)} - {None}
        if "ghost" in text or definition.kind == "trait":
            words = tokens(text)
            found |= self.cited(scope, words, binders(words) if definition.kind == "trait" else set())
        for lines in definition.models:
            words = tokens("\n".join(lines))
            found |= self.cited(scope, words, binders(words))
        return found - {definition}


def variants(definition):
    """The variants of an enum."""
    names, depth = [], 0
    if definition.kind == "enum":
        for line in definition.head[1:]:
            if depth == 0 and (found := re.match(rf"\s*({NAME})\s*(?=[({{,=]|$)", line)):
                names.append(found[1])
            depth += line.count("{") - line.count("}")
    return names
