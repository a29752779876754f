"""The votes and signatures that authorities were seen to give while they exchange them."""
import collections
import re
import threading
import time

import nodes
import periods
import processes

# Seconds between two looks at the votes and signatures of an authority, and how long such a look goes on behind the
# valid-after.
LOOKS_EVERY, BEHIND = 2, 3

# Which words of a signature in `consensus-signatures` begin which flavour.
SIGNED = re.compile(
    r"(?m)^(directory-signature|additional-signature microdesc) ([^\n]*)\n-----BEGIN SIGNATURE-----\n([^-]*)-----END"
)
FLAVOUR = {"directory-signature": "consensus", "additional-signature microdesc": "consensus-microdesc"}


class Watch:
    """The votes and signatures that authorities were seen to give, and how many each held at once."""

    def __init__(self, authorities):
        self.authorities = authorities
        self.votes = collections.defaultdict(set)
        self.signatures = collections.defaultdict(set)
        self.held = collections.defaultdict(lambda: [0, 0])

    def follow(self, valid_after):
        """Looks at each authority from the voting on, until the period is over."""
        for each in self.authorities:
            threading.Thread(target=self.look_until_end, args=(each, valid_after), daemon=True).start()

    def look_until_end(self, node, valid_after):
        """Looks at an authority again and again."""
        periods.sleep_until(valid_after - node.schedule[1] - node.schedule[2])
        while time.time() < valid_after + BEHIND:
            self.look(node, valid_after)
            time.sleep(LOOKS_EVERY)

    def look(self, node, valid_after):
        """Which votes and signatures an authority gives now."""
        votes = 0
        for other in self.authorities:
            answer = processes.answer_of(node.address, f"/tor/status-vote/next/{other.identity}")
            if answer is not None and answer[0] == 200 and valid_after_of(answer[1]) == valid_after:
                votes += 1
                self.votes[valid_after, other.name].add(answer[1])
        answer = processes.answer_of(node.address, "/tor/status-vote/next/consensus-signatures")
        text = answer[1] if answer is not None and answer[0] == 200 else b""
        signatures = self.take(text, valid_after) if valid_after_of(text) == valid_after else 0
        held = self.held[valid_after, node.name]
        held[:] = max(held[0], votes), max(held[1], signatures)

    def take(self, text, valid_after):
        """Takes the signatures of a text, and says how many there are."""
        found = SIGNED.findall(text.decode("ascii", "replace"))
        for words, rest, signature in found:
            identity = next((word for word in rest.split() if re.fullmatch("[0-9A-F]{40}", word)), "nobody")
            self.signatures[valid_after, identity, FLAVOUR[words]].add("".join(signature.split()))
        return len(found)

    def take_published(self, flavour, text, valid_after):
        """Takes the signatures of a consensus."""
        for words, signature in periods.signers_of(text):
            if len(words) > 1:
                self.signatures[valid_after, words[-2], flavour].add("".join(signature.split()))

    def twice(self, valid_after):
        """Who has two votes, or two signatures of a flavour."""
        names = {each.identity: each.name for each in self.authorities}
        for (moment, name), texts in sorted(self.votes.items()):
            if moment == valid_after and len(texts) > 1:
                yield f"{len(texts)} votes of {name} are about"
        for (moment, identity, flavour), found in sorted(self.signatures.items()):
            if moment == valid_after and len(found) > 1:
                yield f"{len(found)} signatures of {names.get(identity, identity)} under {flavour} are about"

    def row(self, valid_after):
        """How many votes and how many signatures each held, in words."""
        held = [self.held[valid_after, each.name] for each in self.authorities]
        return [" ".join(str(votes) for votes, _ in held), " ".join(str(signatures) for _, signatures in held)]


def valid_after_of(text):
    """The valid-after of a document in seconds, or None."""
    found = re.search(rb"(?m)^valid-after (\S+ \S+)$", text[:2000])
    return nodes.moment(found.group(1).decode("ascii", "replace")) if found else None
