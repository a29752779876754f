#!/usr/bin/env python3
"""Looks whether a mirror has what authorities published.

    mirrored.py [--within SECONDS] MIRROR AUTHORITY [AUTHORITY ...]

fetches the microdesc consensus of each authority, and waits, SECONDS at most, until the mirror has one that is valid from the same
moment as the latest of these, with the same bytes in front of the signatures, every microdescriptor that it names, each with the
SHA-256 by which it is named, and a certificate of each authority that signed it. It tells how long that took, and ends with status 0
only where it came.
"""
import argparse
import base64
import hashlib
import re
import sys
import time
import urllib.error
import urllib.request

CONSENSUS = "/tor/status-vote/current/consensus-microdesc"

# How many microdescriptors are asked for at once.
MOST_AT_ONCE = 92

# What a microdescriptor begins with.
FIRST_LINE = b"onion-key\n"


def get(address, path):
    """The document at a path, or None."""
    try:
        with urllib.request.urlopen(f"http://{address}{path}", timeout=60) as response:
            return response.read()
    except (urllib.error.URLError, OSError):
        return None


def valid_after(text):
    """From when a consensus is valid, as its text has it, which sorts by time."""
    return re.search(rb"^valid-after (.*)$", text, re.M).group(1)


def front(text):
    """What stands in front of the signatures."""
    return text.partition(b"\ndirectory-signature ")[0]


def named(text):
    """The digests of microdescriptors that a consensus names, each once."""
    return sorted(set(re.findall(rb"^m (\S+)$", text, re.M)))


def digest_of(text):
    """The SHA-256 of a text, as a consensus spells it."""
    return base64.b64encode(hashlib.sha256(text).digest()).rstrip(b"=")


def digests_in(text):
    """The digests of the microdescriptors that a text has."""
    parts = re.split(rb"^onion-key\n", text, flags=re.M)
    return {digest_of(FIRST_LINE + part) for part in parts[1:]}


def why_not(mirror, texts):
    """Why the mirror has not yet what the latest of these texts names, or None where it has."""
    latest = max(valid_after(text) for text in texts)
    fronts = {front(text) for text in texts if valid_after(text) == latest}
    text = get(mirror, CONSENSUS)
    if text is None:
        return "it has no consensus"
    if valid_after(text) != latest:
        return f"its consensus is valid after {valid_after(text).decode()}, and not {latest.decode()}"
    if front(text) not in fronts:
        return "its consensus is another"
    wanted = named(text)
    for at in range(0, len(wanted), MOST_AT_ONCE):
        some = wanted[at : at + MOST_AT_ONCE]
        given = get(mirror, "/tor/micro/d/" + b"-".join(some).decode())
        if given is None or digests_in(given) != set(some):
            return f"it has {0 if given is None else len(digests_in(given))} of {len(some)} microdescriptors that were asked for"
    certificates = get(mirror, "/tor/keys/all") or b""
    signers = set(re.findall(rb"^directory-signature sha256 (\S+)", text, re.M))
    held = set(re.findall(rb"^fingerprint (\S+)", certificates, re.M))
    if not signers <= held:
        return f"it has certificates of {len(signers & held)} of {len(signers)} signers"
    return None


def wait_for(mirror, texts, within):
    """Waits until the mirror has what these texts are; how long that took, and why it has not where it did not come."""
    began = time.monotonic()
    while True:
        why = why_not(mirror, texts)
        took = time.monotonic() - began
        if why is None or took > within:
            return took, why
        time.sleep(0.5)


def main():
    """Looks, and tells."""
    parser = argparse.ArgumentParser(description=__doc__, formatter_class=argparse.RawDescriptionHelpFormatter)
    parser.add_argument("--within", type=float, default=60.0, metavar="SECONDS", help="(default: %(default)s)")
    parser.add_argument("mirror", metavar="MIRROR")
    parser.add_argument("authorities", metavar="AUTHORITY", nargs="+")
    given = parser.parse_args()
    texts = [text for text in (get(each, CONSENSUS) for each in given.authorities) if text is not None]
    if not texts:
        print("no authority has a microdesc consensus")
        sys.exit(1)
    took, why = wait_for(given.mirror, texts, given.within)
    if why is not None:
        print(f"the mirror after {took:.1f} seconds: {why}")
        sys.exit(1)
    print(f"the mirror has the consensus and {len(named(texts[0]))} microdescriptors, after {took:.1f} seconds")


if __name__ == "__main__":
    main()
