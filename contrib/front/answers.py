"""What the front answers to a GET: a document, or None."""
import re
import time

from period_votes import by_digest

# How many names a list may have: of documents, and of votes.
MOST_NAMES = 96
MOST_VOTES = 32

# What names a document in each kind of list, and what stands between two names.
HEX = re.compile(r"[0-9A-F]{40}")
PAIR = re.compile(r"[0-9A-F]{40}-[0-9A-F]{40}")
BASE64 = re.compile(r"[A-Za-z0-9+/]{43}")
PREFIX = re.compile(r"[0-9A-F]{1,40}")

# The line of a signature in a document of signatures.
SIGNATURE = re.compile(rb"(?m)^(?:directory|additional)-signature ")


def names_of(text, form, most, between="+"):
    """The names of a list, each once; a list that is none, or too long, has none."""
    names = list(dict.fromkeys(text.split(between)))
    if len(names) > most or not all(form.fullmatch(name) for name in names):
        return []
    return names


class Answers:
    """What is answered to a GET: a document, or None."""

    def __init__(self, daemon, holdings, watcher):
        self.daemon = daemon
        self.holdings = holdings
        self.watcher = watcher
        self.kinds = {
            "/tor/status-vote/next/": self.votes,
            "/tor/status-vote/current/": self.current_votes,
            "/tor/server/fp/": self.servers_by_identity,
            "/tor/server/d/": self.servers,
            "/tor/micro/d/": self.micros,
            "/tor/keys/": self.keys,
        }

    def document(self, path):
        """The document at a path that is no consensus."""
        if path == "/tor/server/all":
            return self.holdings.relays.text() or None
        if path == "/tor/status-vote/next/consensus-signatures":
            return self.signatures(path)
        for front, find in self.kinds.items():
            if path.startswith(front):
                return b"".join(find(path[len(front) :])) or None
        return None

    def consensus(self, path, now):
        """The consensus at a path."""
        found = re.fullmatch(r"/tor/status-vote/current/(consensus(?:-microdesc)?)(?:/(.+))?", path)
        if found is None:
            return None
        flavour, listed = found.groups()
        names = names_of(listed.upper(), PREFIX, MOST_NAMES) if listed else []
        if listed and not names:
            return None
        return self.holdings.consensus(flavour, names, now)

    def signatures(self, path):
        """The signatures that the daemon holds, or None where there is none yet."""
        text = self.daemon.get(path)
        return text if text and SIGNATURE.search(text) else None

    def own_vote(self):
        """The own vote of the period that goes on, also where the daemon was started anew and has it no more."""
        held = self.holdings.votes.next(time.time()).get(self.holdings.own)
        return self.daemon.get("/tor/status-vote/next/authority") or (held.text if held else b"")

    def current_votes(self, listed):
        """Votes of the last period: the own one, those of authorities, or by digest."""
        votes = self.holdings.current_votes(time.time())
        names = names_of(listed.upper(), HEX, MOST_VOTES)
        if listed == "authority":
            names = [self.holdings.own]
        elif listed.startswith("d/"):
            names, votes = names_of(listed[2:].upper(), HEX, MOST_VOTES), by_digest(votes)
        return [votes[name].text for name in names if name in votes]

    def votes(self, listed):
        """Votes by authority, as the daemon holds them."""
        if listed == "authority":
            yield self.own_vote()
            return
        for name in names_of(listed.upper(), HEX, MOST_VOTES):
            yield self.daemon.get("/tor/status-vote/next/" + name) or b""

    def servers_by_identity(self, listed):
        """Descriptors by identity, as the daemon has them."""
        for name in names_of(listed.upper(), HEX, MOST_NAMES):
            yield self.daemon.get("/tor/server/fp/" + name) or b""

    def servers(self, listed):
        """Descriptors by digest."""
        names = names_of(listed.upper(), HEX, MOST_NAMES)
        shelf = self.holdings.servers
        if any(shelf.find(name) is None for name in names):
            self.watcher.search("servers", self.watcher.fetch_servers)
        for name in names:
            yield shelf.find(name) or b""

    def micros(self, listed):
        """Microdescriptors by digest."""
        names = names_of(listed, BASE64, MOST_NAMES, "-")
        shelf = self.holdings.micros
        if any(shelf.find(name) is None for name in names):
            self.watcher.search("micros", lambda: self.watcher.fetch_micros(names))
        for name in names:
            yield shelf.find(name) or b""

    def keys(self, listed):
        """Certificates."""
        kind, _, words = listed.partition("/")
        newest = self.holdings.newest_certificates()
        found = []
        if kind == "all" and not words:
            found = [newest[name] for name in sorted(newest)]
        elif kind == "authority" and not words:
            found = [newest.get(self.holdings.own)]
        elif kind == "fp":
            found = [newest.get(name) for name in names_of(words.upper(), HEX, MOST_NAMES)]
        elif kind == "sk":
            found = [self.holdings.certificate(name) for name in names_of(words.upper(), HEX, MOST_NAMES)]
        elif kind == "fp-sk":
            pairs = [name.split("-") for name in names_of(words.upper(), PAIR, MOST_NAMES)]
            found = [self.holdings.certificate(key, name) for name, key in pairs]
        return [each.text for each in found if each is not None]
