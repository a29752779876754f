"""What stands in the DataDirectory of a C tor authority: descriptors, votes, what was measured."""
import base64
import binascii
import calendar
import collections
import hashlib
import re
import time

# How many seconds old a descriptor may be: tor votes about none that is older (ROUTER_MAX_AGE_TO_PUBLISH is shorter).
OLDEST_DESCRIPTOR = 172_800

# What was measured of a relay: the mean time between failures, the fraction of the time that it was up, for how long it is
# known, and whether it was up at last.
Measured = collections.namedtuple("Measured", "between_failures uptime known is_up")

RUN = re.compile(
    r"(?m)^R ([0-9A-F]{40})\n"
    r"\+MTBF ([0-9]+) ([0-9.]+)(?: S=([0-9: -]+))?\n"
    r"\+WFU ([0-9]+) ([0-9]+)(?: S=([0-9: -]+))?$"
)

SIGNING_KEY = re.compile(rb"(?m)^signing-key\n-----BEGIN RSA PUBLIC KEY-----\n([A-Za-z0-9+/=\n]+)-----END ")


def moment(text):
    """The seconds since 1970 of a moment as documents write it."""
    return calendar.timegm(time.strptime(text, "%Y-%m-%d %H:%M:%S"))


def item(text, keyword):
    """The rest of the first line of a keyword, or None where there is none."""
    found = re.search(rf"(?m)^{keyword}(?: (.*))?$", text)
    return None if found is None else found.group(1) or ""


def documents(text, first):
    """The documents of a text, each of which begins with this keyword."""
    return re.split(rf"(?m)^(?={first} )", text)[1:]


class Descriptor:
    """A server descriptor."""

    def __init__(self, text):
        key = SIGNING_KEY.search(text)
        published = re.search(rb"(?m)^published ([0-9: -]+)$", text)
        if key is None or published is None:
            raise ValueError("it lacks its signing key, or when it was published")
        self.text = text
        self.published = moment(published.group(1).decode("ascii"))
        self.fingerprint = hashlib.sha1(base64.b64decode(key.group(1))).hexdigest().upper()

    def ed25519_key(self):
        """The Ed25519 identity key, or None."""
        found = re.search(rb"(?m)^master-key-ed25519 (\S+)$", self.text)
        return None if found is None else found.group(1).decode("ascii")

    def address(self):
        """The IPv4 address."""
        return self.text.split(b" ", 3)[2].decode("ascii")


def newest_descriptors(texts, now, tell):
    """The newest descriptor of each relay, by fingerprint, of files of tor's cache. Those that are too old are left out."""
    newest, bad = {}, 0
    for text in texts:
        for each in re.split(rb"(?m)^(?=router )", re.sub(rb"(?m)^@.*\n", b"", text))[1:]:
            try:
                found = Descriptor(each)
            except (ValueError, binascii.Error):
                bad += 1
                continue
            before = newest.get(found.fingerprint)
            if before is None or before.published <= found.published:
                newest[found.fingerprint] = found
    young = {name: each for name, each in newest.items() if each.published + OLDEST_DESCRIPTOR >= now}
    if len(young) < len(newest):
        tell(f"{len(newest) - len(young)} descriptors are older than two days: left out, as tor does")
    if bad:
        tell(f"{bad} descriptors lack a signing key or when they were published: left out")
    return dict(sorted(young.items()))


def stability(text, now):
    """What `router-stability` (format 2) says of each relay, run on to this moment, and when it was stored."""
    stored = item(text, "stored-at")
    if stored is None:
        raise SystemExit("import-tor: router-stability does not say when it was stored")
    found = {}
    for name, run, weight, since, up, known, down in RUN.findall(text):
        run, weight, up, known = int(run), float(weight), int(up), int(known)
        if since:
            more = now - moment(since)
            run, weight, up, known = run + more, weight + 1, up + more, known + more
        elif down:
            known += now - moment(down)
        between = int(run / weight) if weight >= 0.0001 else 0
        found[name] = Measured(between, up / known if known else 0.0, known, bool(since))
    return found, moment(stored)


def entries(vote):
    """The relays of a vote, by fingerprint: the rest of the first line of each keyword, and of `m` all, in order."""
    found = {}
    for entry in documents(vote.partition("\ndirectory-footer\n")[0] + "\n", "r"):
        lines = [line.partition(" ")[::2] for line in entry.splitlines()]
        rests = {}
        for keyword, rest in lines:
            rests.setdefault(keyword, rest)
        rests["m"] = "; ".join(sorted(rest for keyword, rest in lines if keyword == "m"))
        identity = rests["r"].split()[1]
        found[base64.b64decode(identity + "=").hex().upper()] = rests
    return found


def voted_measures(entry):
    """What an entry of a C tor's vote says was measured, or None where it says nothing."""
    words = dict(word.partition("=")[::2] for word in entry.get("stats", "").split())
    try:
        flags = entry.get("s", "").split()
        return Measured(int(words["mtbf"]), float(words["wfu"]), int(words["tk"]), "Running" in flags)
    except (KeyError, ValueError):
        return None
