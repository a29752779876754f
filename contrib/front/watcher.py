"""What the front asks the daemon by itself: what is published, and what the daemon will let go of."""
import contextlib
import hashlib
import sys
import threading
import time

from directory_documents import FLAVOURS, certificates, item, named_microdescriptors

# Seconds between two looks at the daemon.
LOOKS_EVERY = 2

# Seconds between two looks for documents that someone asked for and that are not held.
LOOKS_AGAIN = 10

# How many microdescriptors the daemon gives out at once.
MOST_MICROS = 92


class Watcher:
    """Looks at the daemon, so that what it lets go of is held."""

    def __init__(self, daemon, holdings):
        self.daemon = daemon
        self.holdings = holdings
        self.own_vote = None
        self.keeping = threading.Lock()
        self.searching = threading.Lock()
        self.searched = {}
        self.failed = None

    def look(self, now):
        """One look: consensuses that may be new, and while votes are exchanged certificates and the own vote."""
        for flavour in FLAVOURS:
            if self.may_be_new(flavour, now):
                self.look_at_consensus(flavour)
        if self.votes_are_exchanged(now):
            held = self.daemon.get("/tor/keys/all") or b""
            self.holdings.take_certificates(held, now)
            self.look_at_own_vote(now)
            self.look_at_votes(held, now)

    def may_be_new(self, flavour, now):
        """Whether there may be a newer consensus than the one that is held."""
        held = self.holdings.consensuses.get(flavour)
        return held is None or held.fresh_until <= now

    def votes_are_exchanged(self, now):
        """Whether votes for the next consensus may be held."""
        moment = self.holdings.voting_begins()
        return moment is None or moment <= now

    def look_at_consensus(self, flavour):
        """Takes the consensus that is published, and keeps what a new one names."""
        text = self.daemon.get("/tor/status-vote/current/" + flavour)
        if text is not None and self.holdings.take_consensus(flavour, text):
            self.keep_named(text)

    def look_at_own_vote(self, now):
        """Keeps what a new own vote names: the others will ask for it."""
        text = self.daemon.get("/tor/status-vote/next/authority")
        digest = None if text is None else hashlib.sha256(text).digest()
        if digest not in (None, self.own_vote):
            self.own_vote = digest
            self.holdings.take_own(item(text, b"fingerprint").decode("ascii").upper())
            self.holdings.take_vote(text, now)
            self.keep_named(text)

    def look_at_votes(self, held, now):
        """Keeps the votes that the daemon holds, whose certificates these are."""
        for each in certificates(held):
            if self.holdings.votes.wants(each.fingerprint, now):
                text = self.daemon.get("/tor/status-vote/next/" + each.fingerprint)
                with contextlib.suppress(ValueError):
                    self.holdings.take_vote(text or b"", now)

    def keep_named(self, text):
        """Fetches the descriptors and microdescriptors that a document names, and keeps them."""
        with self.keeping:
            self.fetch_servers()
            self.fetch_micros(named_microdescriptors(text))
            self.holdings.name_all(text)

    def fetch_servers(self):
        """Takes all descriptors that the daemon has."""
        text = self.daemon.get("/tor/server/all")
        if text is not None:
            self.holdings.see_servers(text)
            self.holdings.take_relays(text, time.time())

    def fetch_micros(self, digests):
        """Takes those microdescriptors that are not held."""
        lacking = [digest for digest in digests if self.holdings.micros.find(digest) is None]
        for begin in range(0, len(lacking), MOST_MICROS):
            text = self.daemon.get("/tor/micro/d/" + "-".join(lacking[begin : begin + MOST_MICROS]))
            self.holdings.see_micros(text or b"")

    def search(self, kind, fetch):
        """A look at the daemon for what is not held, at most one of a kind in some seconds; others wait for it."""
        with self.searching:
            now = time.monotonic()
            if now - self.searched.get(kind, -LOOKS_AGAIN) >= LOOKS_AGAIN:
                fetch()
                self.searched[kind] = now

    def store(self, folder, now):
        """Stores what has changed; that it can not is told once, until it can."""
        why = None
        try:
            self.holdings.store(folder, now)
        except OSError as error:
            why = error.strerror or str(error)
        if why is not None and why != self.failed:
            print(f"front: what is held can not be stored: {why}", file=sys.stderr, flush=True)
        self.failed = why

    def watch(self, folder):
        """Looks for ever, and stores what has changed where there is a folder."""
        while True:
            try:
                self.look(time.time())
                if folder is not None:
                    self.store(folder, time.monotonic())
            except Exception as error:  # pylint: disable=broad-exception-caught
                # A watcher that ends would leave old texts for ever.
                print(f"front: a look failed: {error!r}", file=sys.stderr, flush=True)
            time.sleep(LOOKS_EVERY)
