#!/usr/bin/env python3
"""Tells whether a published consensus is the one that the votes of its period make.

    recompute.py CONSENSUS VOTES ..

CONSENSUS is a consensus of either flavour, VOTES are files of one vote or more, each document with or without a line
`@type` in front, as archives keep them. `dirauth compute` makes the consensus of the votes, and its text is held
against the published one in front of the signatures. It asks the key service, which verifies each vote. Where the
consensus was made by method 34 or 35, `dirauth` is told that methods up to that one are known. How many of its signatures
are right is told too, by the keys in the votes, as the key service says.

Exit status 0: the text is the same, or differs in the method alone and that is told; 1: it differs, and where is told;
2: nothing was computed, and one line says why.
"""
import argparse
import base64
import binascii
import collections
import difflib
import hashlib
import pathlib
import re
import subprocess
import sys

HERE = pathlib.Path(__file__).resolve().parent
sys.path.append(str(HERE.parent / "front"))

from directory_documents import certificates  # pylint: disable=wrong-import-position
from signatures import KeyService, signed_by  # pylint: disable=wrong-import-position

# How many parts that differ are shown.
SHOWN = 20

# The highest method that dirauth knows unasked, and the highest that it can be asked to know.
HIGHEST_UNASKED, HIGHEST_METHOD = 33, 35

Source = collections.namedtuple("Source", "nickname fingerprint digest")


class Unable(Exception):
    """Why nothing was computed."""


def read(path):
    """The bytes of a file."""
    try:
        return pathlib.Path(path).read_bytes()
    except OSError as error:
        raise Unable(f"{path}: {error.strerror}") from None


def documents(text):
    """The documents of a text that begin with network-status-version, without what stands in front."""
    bare = re.sub(rb"(?m)^@.*\n", b"", text)
    return re.split(rb"(?m)^(?=network-status-version )", bare)[1:]


def unsigned(text):
    """The text of a consensus in front of its signatures."""
    return re.split(rb"(?m)^(?=directory-signature )", text, maxsplit=1)[0]


def digest(vote):
    """The SHA-1 by which a consensus names a vote: of its text through the space behind `directory-signature`."""
    place = vote.find(b"\ndirectory-signature ")
    return hashlib.sha1(vote[: place + len(b"\ndirectory-signature ")]).hexdigest().upper()


def item(text, keyword):
    """The rest of the first line of a keyword, or None."""
    found = re.search(rb"(?m)^%s (.*)$" % keyword, text)
    return None if found is None else found.group(1).decode("utf-8", "replace")


class Consensus:
    """A published consensus."""

    def __init__(self, path):
        found = documents(read(path))
        if len(found) != 1 or item(found[0], b"vote-status") != "consensus":
            raise Unable(f"{path}: it is not one consensus")
        self.signed = found[0]
        self.text = unsigned(found[0])
        self.flavour = "microdesc" if self.text.startswith(b"network-status-version 3 microdesc\n") else "ns"
        self.valid_after = item(self.text, b"valid-after")
        self.method = item(self.text, b"consensus-method") or "1"
        self.sources = [
            Source(*(word.decode("ascii", "replace") for word in words))
            for words in re.findall(
                rb"(?m)^dir-source (\S+) ([0-9A-F]{40}) .*\n(?:contact .*\n)?vote-digest ([0-9A-Fa-f]{40})$", self.text
            )
        ]
        if self.valid_after is None or not self.sources:
            raise Unable(f"{path}: it lacks its valid-after, or names no vote")


def votes_of(paths, consensus, tell):
    """The votes of files that the consensus names, once each."""
    held = {}
    for path in paths:
        found = [each for each in documents(read(path)) if item(each, b"vote-status") == "vote"]
        if not found:
            raise Unable(f"{path}: it has no vote")
        held.update((digest(vote), vote) for vote in found)
    named = {source.digest.upper(): source for source in consensus.sources}
    for name in held.keys() - named.keys():
        tell(f"the consensus does not name the vote {name}: left out")
    for name in named.keys() - held.keys():
        tell(f"the vote {name} of {named[name].nickname} is missing, so the text cannot be expected to be the same")
    return [held[name] for name in named if name in held]


def newest_method(consensus):
    """The words by which dirauth knows the methods up to that of a consensus, where they are needed and it can."""
    method = min(int(consensus.method), HIGHEST_METHOD) if consensus.method.isdigit() else HIGHEST_UNASKED
    return ["--newest-method", str(method)] if method > HIGHEST_UNASKED else []


def computed(given, consensus, votes):
    """The text that dirauth computes of the votes."""
    roster = given.authorities or ",".join(source.fingerprint for source in consensus.sources)
    words = ["compute", "--authorities", roster, "--valid-after", consensus.valid_after, "--flavour", consensus.flavour]
    words += newest_method(consensus)
    command = [given.dirauth, *(["--test-keys"] if given.test_keys else []), *words]
    try:
        ran = subprocess.run(command, input=b"".join(votes), stdout=subprocess.PIPE, stderr=subprocess.PIPE, check=False)
    except OSError as error:
        raise Unable(f"{given.dirauth}: {error.strerror}") from None
    if ran.returncode:
        told = ran.stderr.decode("utf-8", "replace").strip() or "it says nothing"
        raise Unable(f"{given.dirauth} compute ends with status {ran.returncode}: {told}")
    return ran.stdout


def parts(text):
    """The parts of a text, by name: what stands in front of the relays, each relay, and what stands behind them."""
    found = {}
    for part in re.split(rb"(?m)^(?=r |directory-footer$)", text):
        words = part.split(b" ", 3)
        name = "in front of the relays"
        if part.startswith(b"directory-footer"):
            name = "behind the relays"
        elif part.startswith(b"r ") and len(words) > 2:
            name = f"relay {hex_of(words[2])} {words[1].decode('ascii', 'replace')}"
        found[name] = part.decode("utf-8", "replace").splitlines()
    return found


def hex_of(identity):
    """The fingerprint that an `r` line has in base64."""
    try:
        return base64.b64decode(identity + b"=").hex().upper()
    except binascii.Error:
        return identity.decode("ascii", "replace")


def differences(published, made):
    """The parts that differ, each with its lines: `-` of the published text, `+` of that which was computed."""
    before, after = parts(published), parts(made)
    for name in dict.fromkeys([*before, *after]):
        lines = difflib.unified_diff(before.get(name, []), after.get(name, []), n=0, lineterm="")
        changed = [line for line in lines if line[:1] in "-+" and line[:3] not in ("---", "+++")]
        if changed:
            yield name, changed


def is_of_method_alone(found, consensus):
    """Whether nothing differs but the line of a method that dirauth cannot know."""
    above = consensus.method.isdigit() and int(consensus.method) > HIGHEST_METHOD
    return above and len(found) == 1 and all(line[1:].startswith("consensus-method ") for line in found[0][1])


def report(consensus, made):
    """Tells what differs, and the exit status."""
    what = f"{consensus.flavour} {consensus.valid_after}"
    found = list(differences(consensus.text, made))
    if made == consensus.text:
        print(f"{what}: the same text, {len(made)} bytes")
        return 0
    if is_of_method_alone(found, consensus):
        mine = item(made, b"consensus-method")
        print(f"{what}: the same text, but for the line of the method: published {consensus.method}, computed {mine}")
        return 0
    print(f"{what}: {len(found)} parts differ (- published, + computed)")
    for name, lines in found[:SHOWN]:
        print(f"{name}:")
        print("".join(f"  {line}\n" for line in lines), end="")
    if len(found) > SHOWN:
        print(f"and {len(found) - SHOWN} more")
    return 1


def test_scheme(key, digest, signature):
    """Whether a signature is right under the test scheme."""
    return signature == hashlib.sha256(b"test-sig" + key + digest).digest()


def tell_signatures(given, consensus, votes):
    """Tells how many of the signatures are right, by the certificates that stand in the votes."""
    known = {(each.key_digest, each.fingerprint): each for each in certificates(b"".join(votes))}
    is_right = test_scheme if given.test_keys else KeyService(given.keys).is_right
    what = f"{consensus.flavour} {consensus.valid_after}"
    count = len(given.authorities.split(",")) if given.authorities else len(consensus.sources)
    try:
        _, signers = signed_by(consensus.signed, lambda key_digest, who: known.get((key_digest, who)), is_right)
    except OSError as error:
        print(f"recompute: the signatures are not verified: {error}", file=sys.stderr)
        return
    there = len(re.findall(rb"(?m)^directory-signature ", consensus.signed))
    print(f"{what}: {len(signers)} right signatures of {count} authorities, {there} stand there")


def main():
    """Computes, compares, and tells."""
    parser = argparse.ArgumentParser(description=__doc__, formatter_class=argparse.RawDescriptionHelpFormatter)
    parser.add_argument("consensus", metavar="CONSENSUS", help="the published consensus")
    parser.add_argument("votes", metavar="VOTES", nargs="+", help="files of its votes")
    parser.add_argument("--dirauth", default="dirauth", metavar="PROGRAM", help="the program (default: %(default)s)")
    parser.add_argument(
        "--authorities", metavar="FP,FP,..", help="all authorities of the network (default: those whose votes the consensus names)"
    )
    parser.add_argument(
        "--keys", default="/run/dirauth-keys", metavar="SOCKET", help="the key service for the signatures (default: %(default)s)"
    )
    parser.add_argument("--test-keys", action="store_true", help="the votes are signed under the test scheme")
    given = parser.parse_args()
    try:
        consensus = Consensus(given.consensus)
        votes = votes_of(given.votes, consensus, lambda text: print(f"recompute: {text}", file=sys.stderr))
        made = computed(given, consensus, votes)
    except Unable as unable:
        print(f"recompute: {unable}", file=sys.stderr)
        return 2
    status = report(consensus, made)
    tell_signatures(given, consensus, votes)
    return status


if __name__ == "__main__":
    sys.exit(main())
