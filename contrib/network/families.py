"""Family keys of relays, and the microdescriptors that name them: by which method, and whether ours give them out."""
import re
import shutil
import sys

import nodes
from processes import CONTRIB, get

sys.path.insert(0, str(CONTRIB / "front"))

from directory_documents import microdescriptors  # pylint: disable=wrong-import-position

# The family keys, and which of them the relays have, in turn. No circuit has two relays of a family, so others have none.
KEYS = ("first", "second")
HELD = (KEYS[:1], (), KEYS, (), KEYS[1:], ())

# From which method on a microdescriptor names the families that the relay has keys of.
NAMES_FAMILIES = 35


def make_key(path):
    """Makes a family key by tor's own program, and gives its ID."""
    nodes.run(["tor", "-f", "/dev/null", "--ignore-missing-torrc", "--quiet", "--keygen-family", str(path)])
    return path.with_name(f"{path.name}.public_family_id").read_text("ascii").strip()


def give_keys(folder, relays):
    """Makes family keys and gives them to relays. Those of the first key list each other besides, as older clients want."""
    made = nodes.make_folder(folder / "families")
    identities = {name: make_key(made / name) for name in KEYS}
    for relay in relays:
        for name in HELD[(relay.number - 1) % len(HELD)]:
            shutil.copy(made / f"{name}.secret_family_key", relay.folder / "keys")
            relay.families.append(identities[name])
    listed = [relay for relay in relays if identities[KEYS[0]] in relay.families]
    for relay in listed:
        relay.listed = [each.fingerprint for each in listed if each is not relay]


def entries(text):
    """The words of the `r` line and all lines of each relay of a vote or a consensus."""
    for entry in re.split(r"(?m)^(?=r )", text.decode("utf-8", "replace"))[1:]:
        lines = entry.splitlines()
        yield lines[0].split(" "), lines


def voted(vote):
    """Nickname, descriptor's digest, method, and digest of each microdescriptor that a vote names."""
    for words, lines in entries(vote):
        found = [re.fullmatch(r"m ([0-9,]+) sha256=(\S+)", line) for line in lines]
        for methods, digest in [each.groups() for each in found if each]:
            for method in methods.split(","):
                yield words[1], words[3], int(method), digest


def chosen(consensus):
    """Nickname, method, and digest of each microdescriptor that a consensus of microdescriptors names."""
    method = re.search(rb"(?m)^consensus-method (\d+)$", consensus)
    for words, lines in entries(consensus):
        for line in lines:
            if line.startswith("m "):
                yield words[1], int(method.group(1)), line[2:]


def where_votes_part(votes):
    """Where two votes name another microdescriptor of one descriptor by one method; votes by the name of their authority."""
    first = {}
    for author, vote in votes.items():
        for nickname, descriptor, method, digest in voted(vote):
            before, other = first.setdefault((descriptor, method), (digest, author))
            if before != digest:
                yield f"{other} and {author} vote different microdescriptors of {nickname} by method {method}"


def families_in(text):
    """The families that a microdescriptor names by their keys."""
    found = re.search(rb"(?m)^family-ids (.*)$", text)
    return found.group(1).decode("ascii", "replace").split(" ") if found else []


def wanted_families(relay, method):
    """The families that the microdescriptor of a relay must name by a method."""
    return sorted(f"ed25519:{each}" for each in relay.families) if method >= NAMES_FAMILIES else []


def why_not_given(given, named, relays):
    """What is wrong with microdescriptors that are given out: those that are named must be there, with their families."""
    known = {relay.name: relay for relay in relays}
    for nickname, method, digest in sorted(named):
        text = given.get(digest)
        if text is None:
            yield f"the microdescriptor of {nickname} by method {method} is not given out"
        elif nickname in known and families_in(text) != wanted_families(known[nickname], method):
            yield f"the microdescriptor of {nickname} by method {method} names {' '.join(families_in(text)) or 'no families'}"


def look_at(period, authorities, relays):
    """Looks at the microdescriptors of a period, and tells which there are; what is wrong is added to its faults."""
    votes = {each.name: period.documents.get(f"{each.name}.vote", b"") for each in authorities}
    period.faults += where_votes_part(votes)
    told = []
    for each in authorities:
        if each.is_ours:
            of_consensus = set(chosen(period.documents.get(f"{each.name}.consensus-microdesc", b"")))
            named = of_consensus | {(nickname, method, digest) for nickname, _, method, digest in voted(votes[each.name])}
            digests = sorted({digest for *_, digest in named})
            given = microdescriptors(get(each.address, "/tor/micro/d/" + "-".join(digests)) or b"")
            period.faults += [f"{each.name}: {why}" for why in why_not_given(given, named, relays)]
            told.append(f"{each.name} gives out {summary(given, named, of_consensus)}")
    return "; ".join(told)


def summary(given, named, of_consensus):
    """What is given out, in words."""
    methods = sorted({method for _, method, _ in named})
    counts = [f"{each}:{len({digest for _, method, digest in named if method == each} & given.keys())}" for each in methods]
    families = sum(bool(families_in(given.get(digest, b""))) for *_, digest in of_consensus)
    return f"{len(given)} microdescriptors ({' '.join(counts)}), families of {families} relays in the consensus"
