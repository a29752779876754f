"""The options of a C tor, and the authorities that its DirAuthority lines name."""
import re

# How many seconds the units of an interval have, by their front: tor takes "1 hour" and "90 minutes" alike.
UNITS = {"": 1, "second": 1, "minute": 60, "min": 60, "hour": 3600, "day": 86_400, "week": 604_800}

LINE = re.compile(r"[+/]?(%?[A-Za-z0-9_]+)(?:\s+(.*))?$")

# An authority's address for votes, where its line has one beside that for all else.
FOR_VOTES = re.compile(r"\bvote=(?:http://)?([0-9.]+:[0-9]+)")

ADDRESS = re.compile(r"(?:^|\s)([0-9]+(?:\.[0-9]+){3}:[0-9]+)(?:\s|$)")


class Options:
    """The options of a torrc, or of several, of which a later one counts."""

    def __init__(self, texts):
        self.values = {}
        for text in texts:
            for line in text.replace("\\\n", " ").splitlines():
                self.take(line)

    def take(self, line):
        """Takes one line."""
        found = LINE.match(line.partition("#")[0].strip())
        if found is not None:
            self.values.setdefault(found.group(1).lower(), []).append((found.group(2) or "").strip('" '))

    def all(self, name):
        """Each value of an option, in their order."""
        return self.values.get(name.lower(), [])

    def one(self, name, default=None):
        """The last value of an option."""
        return self.all(name)[-1] if self.all(name) else default

    def is_set(self, name):
        """Whether an option is 1."""
        return self.one(name, "0") == "1"

    def seconds(self, name, default):
        """The seconds of an interval."""
        text = self.one(name)
        if text is None:
            return default
        found = re.fullmatch(r"([0-9]+)\s*([a-z]*?)s?", text.lower())
        if found is None or found.group(2) not in UNITS:
            raise SystemExit(f"import-tor: {name} {text} is no interval")
        return int(found.group(1)) * UNITS[found.group(2)]

    def port(self, name, default):
        """The port of an option that is one, or an address and one."""
        words = self.one(name, default).split()
        return words[0].rpartition(":")[2] if words else default


def authorities(lines):
    """The fingerprint of the identity key and the address for votes of each DirAuthority line that has the first."""
    found = []
    for line in lines:
        identity = re.search(r"\bv3ident=([0-9A-Fa-f]{40})\b", line)
        if identity is not None:
            address = FOR_VOTES.search(line) or ADDRESS.search(line)
            found.append((identity.group(1).upper(), "-" if address is None else address.group(1)))
    return found


def lines_of_list(text):
    """The DirAuthority lines of a file: such lines, or the strings of the list that is built into tor (auth_dirs.inc)."""
    lines = re.findall(r"(?m)^\s*(?:Dir|AlternateDir)Authority\s+(.*)$", text)
    return lines or ["".join(re.findall(r'"([^"]*)"', part)) for part in re.split(r",\s*\n", text)]
