"""What two votes about the same relays differ in: one of dirauth and one of a C tor."""
import re

import tor_folder

# How many relays are named where something differs.
NAMED = 3


def head_items(vote):
    """The first line of each keyword in front of the relays."""
    found = {}
    head = re.split(r"(?m)^r ", vote, maxsplit=1)[0]
    for line in re.sub(r"(?ms)^-----BEGIN .*?^-----END [^\n]*\n", "", head).splitlines():
        keyword, _, rest = line.partition(" ")
        found.setdefault(keyword, rest)
    return found


def head_differences(ours, theirs):
    """A line for each item in front of the relays that is not the same."""
    for keyword in sorted({*ours, *theirs}):
        if ours.get(keyword) != theirs.get(keyword):
            mine, other = ("none" if rest is None else rest for rest in (ours.get(keyword), theirs.get(keyword)))
            yield f"{keyword}: ours {mine} | tor {other}"


def compared(keyword, ours, theirs):
    """What is to be told of a line of one relay in both votes: a title for each thing that may be the same or not."""
    if keyword != "s":
        return {f"{keyword}: the same" if ours == theirs else f"{keyword}: differs"}
    mine, other = set((ours or "").split()), set((theirs or "").split())
    only = {*(f"flag {flag}: ours alone" for flag in mine - other), *(f"flag {flag}: tor alone" for flag in other - mine)}
    return only or {"s: the same"}


def relay_differences(ours, theirs):
    """A line for each title, with how many relays it holds for, and some of those where something differs."""
    held = {}
    for name in sorted(ours.keys() & theirs.keys()):
        for keyword in sorted(ours[name].keys() | theirs[name].keys()):
            for title in compared(keyword, ours[name].get(keyword), theirs[name].get(keyword)):
                held.setdefault(title, []).append(name)
    for title, names in sorted(held.items()):
        some = ", ".join([*names[:NAMED], *[".."][: len(names) > NAMED]])
        yield f"{title}, {len(names)}" + ("" if title.endswith("the same") else f" ({some})")


def differences(ours, theirs):
    """What the votes differ in, line by line."""
    if not all(vote.startswith("network-status-version ") for vote in (ours, theirs)):
        raise SystemExit("import-tor: a file to be compared is no vote")
    yield from head_differences(head_items(ours), head_items(theirs))
    mine, other = tor_folder.entries(ours), tor_folder.entries(theirs)
    yield f"relays: ours {len(mine)}, tor {len(other)}"
    yield from (f"relay {name}: ours alone" for name in sorted(mine.keys() - other.keys()))
    yield from (f"relay {name}: tor alone" for name in sorted(other.keys() - mine.keys()))
    yield from relay_differences(mine, other)
