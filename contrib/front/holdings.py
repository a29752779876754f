"""What the front holds: consensuses and their votes, certificates, the descriptors that they name, and the newest of each relay.

All of it may be stored in a folder, so that it outlives the front.
"""
import os
import threading

from directory_documents import (
    FLAVOURS,
    certificates,
    consensus_of,
    microdescriptors,
    named_microdescriptors,
    named_servers,
    server_descriptors,
)
from period_votes import PeriodVotes
from relays import Relays

# How many seconds are between two writes of a file that changes often and is large.
WRITTEN_EVERY = {"relays": 30, "votes": 10}


class Shelf:
    """Documents by digest: those that were seen last, and those that one of the last consensuses named."""

    def __init__(self, keep):
        self.keep = keep
        self.seen = {}
        self.named = {}

    def find(self, digest):
        """The document of a digest, or None."""
        return self.seen.get(digest) or self.named.get(digest, (None,))[0]

    def name(self, digests, generation):
        """Keeps these from now on, where they are held, and lets go of those that were named long ago."""
        for digest in digests:
            text = self.find(digest)
            if text is not None:
                self.named[digest] = (text, generation)
        for digest in [d for d, (_, last) in self.named.items() if last + self.keep < generation]:
            del self.named[digest]

    def text(self):
        """What was named, one behind the other."""
        return b"".join(text for text, _ in self.named.values())


class Holdings:
    """All that is held. Any thread may ask; one alone changes consensuses."""

    def __init__(self, keep):
        self.lock = threading.Lock()
        self.consensuses = {}
        self.certificates = {}
        self.servers = Shelf(keep)
        self.micros = Shelf(keep)
        self.relays = Relays()
        self.votes = PeriodVotes()
        self.generation = 0
        self.own = None
        self.changed = set()
        self.written = {}
        self.storing = threading.Lock()

    def take_consensus(self, flavour, text):
        """Takes what the daemon published, and says whether it is new; an older one than is held is left."""
        found = consensus_of(text)
        held = self.consensuses.get(flavour)
        if held is not None and (held.text == text or found.valid_after < held.valid_after):
            return False
        with self.lock:
            if all(each.valid_after < found.valid_after for each in self.consensuses.values()):
                self.generation += 1
            self.consensuses[flavour] = found
            self.changed.add(flavour)
        return True

    def consensus(self, flavour, names, now):
        """The consensus of a flavour, until its valid-until; of named authorities, more than half must have signed it."""
        held = self.consensuses.get(flavour)
        if held is None or held.valid_until <= now:
            return None
        signed = sum(any(signer.startswith(name) for signer in held.signers) for name in names)
        return held if not names or 2 * signed > len(names) else None

    def voting_begins(self):
        """The moment from which votes for the next consensus are made, or None where no consensus is held."""
        return min((each.voting_begins() for each in list(self.consensuses.values())), default=None)

    def take_relays(self, text, now):
        """Takes the newest descriptor of each relay of a text."""
        if self.relays.take(text, now):
            with self.lock:
                self.changed.add("relays")

    def take_vote(self, text, now):
        """Takes a vote of the period that goes on."""
        if self.votes.take(text, now):
            with self.lock:
                self.changed.add("votes")

    def take_own(self, fingerprint):
        """Takes which authority is the own one."""
        if self.own != fingerprint:
            with self.lock:
                self.own = fingerprint
                self.changed.add("own")

    def current_votes(self, now):
        """The votes of the last period, by authority, until the consensus of the next one is held."""
        published = max((each.valid_after for each in list(self.consensuses.values())), default=0)
        return self.votes.current(now, published)

    def take_certificates(self, text, now):
        """Takes certificates, and lets go of those that have expired."""
        with self.lock:
            for each in certificates(text):
                key = (each.fingerprint, each.key_digest)
                if key not in self.certificates and each.expires > now:
                    self.certificates[key] = each
                    self.changed.add("certificates")
            for key in [key for key, each in self.certificates.items() if each.expires <= now]:
                del self.certificates[key]
                self.changed.add("certificates")

    def newest_certificates(self):
        """The certificate of each authority that was published last, by its fingerprint."""
        newest = {}
        with self.lock:
            for each in sorted(self.certificates.values(), key=lambda each: each.published):
                newest[each.fingerprint] = each
        return newest

    def certificate(self, key_digest, fingerprint=None):
        """The certificate of a signing key, of that authority where one is named."""
        with self.lock:
            for (of, key), each in self.certificates.items():
                if key == key_digest and fingerprint in (None, of):
                    return each
        return None

    def see_servers(self, text):
        """The descriptors that the daemon has now, in place of those that it had at the last look."""
        with self.lock:
            self.servers.seen = server_descriptors(text)

    def see_micros(self, text):
        """Microdescriptors that the daemon gave out."""
        with self.lock:
            self.micros.seen.update(microdescriptors(text))

    def name_all(self, text):
        """Keeps the descriptors and microdescriptors that a vote or a consensus names."""
        with self.lock:
            self.servers.name(named_servers(text), self.generation)
            self.micros.name(named_microdescriptors(text), self.generation)
            self.micros.seen = {}
            self.changed |= {"servers", "micros"}

    def text_of(self, name):
        """What is stored in a file of this name."""
        if name in self.consensuses:
            return self.consensuses[name].text
        if name == "certificates":
            return b"".join(each.text for each in self.certificates.values())
        if name == "own":
            return self.own.encode("ascii")
        shelves = {"servers": self.servers, "micros": self.micros, "relays": self.relays, "votes": self.votes}
        return shelves[name].text()

    def store(self, folder, now):
        """Writes what has changed; each file is the new one or the old one, and whole. One that fails is written again."""
        with self.storing:
            with self.lock:
                due = [name for name in self.changed if self.written.get(name, 0) + WRITTEN_EVERY.get(name, 0) <= now]
                texts = {name: self.text_of(name) for name in due}
                self.changed -= set(due)
            try:
                while due:
                    write_whole(folder / due[-1], texts[due[-1]])
                    self.written[due.pop()] = now
            finally:
                with self.lock:
                    self.changed |= set(due)

    def load(self, folder, now):
        """Takes what was stored; a file that is not there, or no such document, is passed over."""
        self.take_certificates(stored(folder, "certificates"), now)
        for shelf, texts in (
            (self.servers, server_descriptors(stored(folder, "servers"))),
            (self.micros, microdescriptors(stored(folder, "micros"))),
        ):
            shelf.named = {digest: (text, 0) for digest, text in texts.items()}
        self.take_relays(stored(folder, "relays"), now)
        self.votes.load(stored(folder, "votes"))
        self.own = stored(folder, "own").decode("ascii", "replace") or None
        for flavour in FLAVOURS:
            try:
                self.take_consensus(flavour, stored(folder, flavour))
            except ValueError:
                continue
        self.changed = set()


def write_whole(path, text):
    """Puts a file in place of another one; where that fails the old one stays, and nothing is left of the new one."""
    new = path.with_name(f"{path.name}.new")
    try:
        with open(new, "wb") as file:
            file.write(text)
            file.flush()
            os.fsync(file.fileno())
        os.replace(new, path)
    except OSError as error:
        new.unlink(missing_ok=True)
        raise OSError(error.errno, f"{path}: {error.strerror}") from None


def stored(folder, name):
    """A stored text, empty where there is none."""
    try:
        return (folder / name).read_bytes()
    except FileNotFoundError:
        return b""
