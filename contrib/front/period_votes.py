"""The votes of the period that goes on, and of the one before: the daemon lets go of them when their consensus appears."""
import dataclasses
import threading

from directory_documents import item, parts, seconds, signed_digest


@dataclasses.dataclass(frozen=True)
class Vote:
    """A vote, whose it is, its period, and from when on none is taken in its place."""

    text: bytes
    fingerprint: str
    valid_after: int
    frozen_at: int
    taken_at: int


def vote_of(text, now):
    """A vote that was read; a text that is none is refused."""
    valid_after = seconds(item(text, b"valid-after"))
    _, dist = item(text, b"voting-delay").split()
    fingerprint = item(text, b"fingerprint").decode("ascii").upper()
    return Vote(text, fingerprint, valid_after, valid_after - int(dist), now)


class PeriodVotes:
    """Votes by period and authority. Any thread may ask; one alone takes."""

    def __init__(self):
        self.lock = threading.Lock()
        self.held = {}

    def take(self, text, now):
        """Takes a vote, and lets go of those of earlier periods. Whether something has changed."""
        vote = vote_of(text, now)
        with self.lock:
            before = self.held.get((vote.valid_after, vote.fingerprint))
            self.held[vote.valid_after, vote.fingerprint] = vote
            past = [valid_after for valid_after, _ in self.held if valid_after <= now]
            for key in [key for key in self.held if past and key[0] < max(past)]:
                del self.held[key]
        return before is None or before.text != text

    def wants(self, fingerprint, now):
        """Whether an authority's vote of the period that goes on is to be asked for: at once, and when it is frozen."""
        with self.lock:
            held = [each for each in self.held.values() if each.fingerprint == fingerprint and each.valid_after > now]
        return not held or any(each.taken_at < each.frozen_at <= now for each in held)

    def next(self, now):
        """The votes of the period that goes on, by authority."""
        with self.lock:
            return {each.fingerprint: each for each in self.held.values() if each.valid_after > now}

    def current(self, now, published):
        """The votes of the last period, by authority; none where the consensus of a later one is `published`."""
        with self.lock:
            past = [each for each in self.held.values() if each.valid_after <= now]
        last = max((each.valid_after for each in past), default=0)
        if last < published:
            return {}
        return {each.fingerprint: each for each in past if each.valid_after == last}

    def text(self):
        """All votes, one behind the other."""
        with self.lock:
            return b"".join(each.text for each in self.held.values())

    def load(self, text):
        """Takes what was stored; what is no vote is passed over."""
        for each in parts(text, b"network-status-version"):
            try:
                self.take(each, 0)
            except ValueError:
                continue


def by_digest(votes):
    """Votes by the digest that a consensus names them by."""
    return {signed_digest(each.text): each for each in votes.values()}
