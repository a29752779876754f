"""What each authority holds and publishes in a period, asked at its public address, and whether it is as it must be."""
import base64
import dataclasses
import hashlib
import re
import sys
import time

import nodes
from processes import CONTRIB, get

sys.path.insert(0, str(CONTRIB / "key-service"))

# The flavours: the end of the path, and the digest that signatures cover.
FLAVOURS = {"consensus": "sha1", "consensus-microdesc": "sha256"}

# The moments of the looks, in seconds: all votes are there, from the end of their exchange; all signatures are there, and
# it is published, from the valid-after.
VOTES_AT, SIGNATURES_AT, PUBLISHED_AT = 10, -5, 5

# How long behind the valid-after a consensus is waited for, in seconds.
PUBLISHED_WITHIN = 60

# What stands between what is signed and the signatures.
SIGNATURE = b"\ndirectory-signature "


@dataclasses.dataclass
class Period:
    """What was seen of a period. `faults` is empty where all was as it must be; `documents` are by their file's name."""

    valid_after: int
    votes: dict = dataclasses.field(default_factory=dict)
    signatures: dict = dataclasses.field(default_factory=dict)
    published: dict = dataclasses.field(default_factory=dict)
    faults: list = dataclasses.field(default_factory=list)
    documents: dict = dataclasses.field(default_factory=dict)

    def time(self):
        """The valid-after as it is written."""
        return time.strftime("%Y-%m-%d %H:%M:%S", time.gmtime(self.valid_after))


@dataclasses.dataclass
class Signer:
    """An authority as the signatures of a consensus name it."""

    name: str
    identity: str
    key: bytes

    def key_digest(self):
        """The digest of its signing key."""
        return hashlib.sha1(self.key).hexdigest().upper()


def signer(node):
    """An authority with the signing key of its certificate."""
    text = nodes.certificate(node)
    key = re.search(r"(?m)^dir-signing-key\n-----BEGIN RSA PUBLIC KEY-----\n([^-]*)-----END", text).group(1)
    return Signer(node.name, node.identity, base64.b64decode(key))


def sleep_until(moment):
    """Waits for a moment of the clock."""
    time.sleep(max(0.0, moment - time.time()))


def first_valid_after(now, ready, schedule):
    """The first valid-after that can be reached by who is ready in so many seconds."""
    interval, vote, dist = schedule
    return int(-(-(now + ready + vote + dist) // interval) * interval)


def starts_at(now, ready, schedule):
    """When authorities may be started that are ready in so many seconds: now, or behind the next valid-after.

    Who begins before a voting for which no relay is there yet votes without relays, and all relays keep that consensus.
    """
    interval, vote, dist = schedule
    valid_after = (now // interval + 1) * interval
    return now if now + ready <= valid_after - vote - dist else valid_after + 1


def signed_part(text):
    """What the signatures of a consensus cover, and the signatures."""
    front, word, rest = text.partition(SIGNATURE)
    return front + word, rest


def signers_of(text):
    """The words and the signature of each `directory-signature` of a consensus."""
    _, rest = signed_part(text)
    for part in rest.split(SIGNATURE):
        words, _, signature = part.decode("ascii", "replace").partition("\n-----BEGIN SIGNATURE-----\n")
        yield words.split(), signature.partition("-----END SIGNATURE-----")[0]


def wrong_and_lacking(flavour, text, signers, why_not_rsa):
    """What is wrong with a signature of a consensus, or None; and of which authorities it has none."""
    digest = hashlib.new(FLAVOURS[flavour], signed_part(text)[0]).digest()
    lacking = {each.identity: each for each in signers}
    for words, signature in signers_of(text):
        each = lacking.pop(words[-2], None) if len(words) > 1 else None
        if each is None or words[-1] != each.key_digest():
            return f"it has a signature of a stranger: {' '.join(words)}", []
        try:
            why = why_not_rsa(each.key, digest, base64.b64decode(signature))
        except ValueError:
            why = "no base64"
        if why is not None:
            return f"the signature of {each.name}: {why}", []
    return None, [each.name for each in lacking.values()]


def why_not_signed(flavour, text, signers, why_not_rsa):
    """Why a consensus has not a right signature of each authority, or None where it has."""
    why, lacking = wrong_and_lacking(flavour, text, signers, why_not_rsa)
    return f"no signature of {', '.join(lacking)}" if why is None and lacking else why


def look_at_votes(period, authorities, keep):
    """Which votes each authority holds, and whether all hold the same."""
    seen = {}
    for each in authorities:
        held = 0
        for other in authorities:
            vote = get(each.address, f"/tor/status-vote/next/{other.identity}")
            if vote is not None:
                held += 1
                seen.setdefault(other.name, set()).add(vote)
                keep(f"{other.name}.vote", vote)
        period.votes[each.name] = held
    for name, texts in seen.items():
        if len(texts) > 1:
            period.faults.append(f"{len(texts)} votes of {name} are about")
    for name, held in period.votes.items():
        if held < len(authorities):
            period.faults.append(f"{name} holds {held} of {len(authorities)} votes")


def look_at_signatures(period, authorities):
    """How many signatures of both flavours each authority holds before the valid-after."""
    for each in authorities:
        text = get(each.address, "/tor/status-vote/next/consensus-signatures") or b""
        period.signatures[each.name] = len(re.findall(rb"(?m)^(?:directory|additional)-signature ", text))


def published(node, flavour, period):
    """The consensus of this period at an authority, which is waited for."""
    wanted = f"\nvalid-after {period.time()}\n".encode("ascii")
    while time.time() < period.valid_after + PUBLISHED_WITHIN:
        text = get(node.address, f"/tor/status-vote/current/{flavour}")
        if text is not None and wanted in text[:1000]:
            return text
        time.sleep(1)
    return None


def look_at_published(period, authorities, signers, why_not_rsa, keep):
    """What each authority publishes: of each flavour one text, of this period, with a right signature of each."""
    for flavour in FLAVOURS:
        fronts = set()
        for each in authorities:
            text = published(each, flavour, period)
            if text is None:
                period.faults.append(f"{each.name} has no {flavour} of this period")
                continue
            keep(f"{each.name}.{flavour}", text)
            fronts.add(signed_part(text)[0])
            why = why_not_signed(flavour, text, signers, why_not_rsa)
            if why is not None:
                period.faults.append(f"{flavour} of {each.name}: {why}")
        if len(fronts) > 1:
            period.faults.append(f"{len(fronts)} texts of {flavour}")
        for front in fronts:
            period.published[flavour] = summary(front)


def summary(front):
    """What a consensus lists, in words."""
    method = re.search(rb"(?m)^consensus-method (\d+)$", front)
    relays = len(re.findall(rb"(?m)^r ", front))
    digest = hashlib.sha256(front).hexdigest()[:8]
    number = method.group(1).decode("ascii") if method else "-"
    return f"method {number}, {relays} relays, {len(front)} bytes ({digest}..)"


def keeper(folder, period):
    """What keeps the documents of a period, also in its folder."""
    into = folder / "periods" / time.strftime("%Y-%m-%d-%H-%M-%S", time.gmtime(period.valid_after))
    into.mkdir(parents=True)

    def keep(name, text):
        period.documents[name] = text
        (into / name).write_bytes(text)

    return keep


def look_at(valid_after, authorities, folder):
    """Looks at a period at its moments."""
    from key_service import why_not_rsa  # pylint: disable=import-outside-toplevel

    period = Period(valid_after)
    keep = keeper(folder, period)
    sleep_until(valid_after - authorities[0].schedule[2] + VOTES_AT)
    look_at_votes(period, authorities, keep)
    sleep_until(valid_after + SIGNATURES_AT)
    look_at_signatures(period, authorities)
    sleep_until(valid_after + PUBLISHED_AT)
    look_at_published(period, authorities, [signer(each) for each in authorities], why_not_rsa, keep)
    return period
