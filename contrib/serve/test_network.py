#!/usr/bin/env python3
"""Makes a network of authorities on loopback under dirauth's test scheme, and checks what they publish.

    python3 test_network.py make --authorities 3 FOLDER

makes FOLDER, which must not be there yet, and in it

    authN.station        what the N-th authority is given, and behind it the descriptors of the relays
    network              a line for each authority: its name, fingerprint, and address
    another.descriptor   the descriptor of one more relay, which no station has

    python3 test_network.py check FOLDER

looks at FOLDER/authN.ns and FOLDER/authN.microdesc, as they were fetched from each authority: each must have one signature of
each authority over its own bytes, and all of a flavour the same bytes in front of the signatures. It ends with status 1 where
one has not.

Under the test scheme a signature is the SHA-256 of `test-sig`, the public key and the message, so that everyone can sign as
everyone: for tests alone.
"""
import argparse
import base64
import hashlib
import pathlib
import sys
from datetime import datetime, timedelta, timezone

# Seconds between two consensuses, for exchanging votes, and for exchanging signatures: the shortest interval that there is.
SCHEDULE = (300, 30, 30)

# Where the first authority listens; the others behind it.
FIRST_PORT = 18081

# How many authorities a network may have.
MOST_AUTHORITIES = 32

# The versions of tor that are recommended. Over a consensus that names none C tors end.
VERSIONS = ("client-versions 0.4.8.21,0.4.9.11", "server-versions 0.4.8.21,0.4.9.11")

# What an Ed25519 signature of a descriptor covers begins with this.
ED25519_PREFIX = b"Tor router descriptor signature v1"

# The flavours, with the digest that their signatures cover.
FLAVOURS = {"ns": "sha1", "microdesc": "sha256"}


def test_signature(key, message):
    """The signature of a message by a key under the test scheme."""
    return hashlib.sha256(b"test-sig" + key + message).digest()


def sha1(data):
    """The SHA-1 of some bytes."""
    return hashlib.sha1(data).digest()


def object_text(words, data):
    """An object of dir-spec's meta-format: base64 in lines of 64 characters between BEGIN and END."""
    text = base64.b64encode(data).decode("ascii")
    lines = [text[at : at + 64] for at in range(0, len(text), 64)]
    return "\n".join([f"-----BEGIN {words}-----", *lines, f"-----END {words}-----", ""])


def unpadded(data):
    """Base64 without padding."""
    return base64.b64encode(data).decode("ascii").rstrip("=")


class Authority:
    """An authority with its two keys, which are no keys of any kind but their bytes."""

    def __init__(self, number, first_port):
        self.number = number
        self.name = f"auth{number}"
        self.identity_key = f"identity of {self.name}".encode("ascii")
        self.signing_key = f"signing of {self.name}".encode("ascii")
        self.fingerprint = sha1(self.identity_key).hex().upper()
        self.port = first_port + number - 1

    def certificate(self, now):
        """The key certificate, in the order of dir-spec's items."""
        covered = (
            "dir-key-certificate-version 3\n"
            f"fingerprint {self.fingerprint}\n"
            "dir-identity-key\n"
            f"{object_text('RSA PUBLIC KEY', self.identity_key)}"
            f"dir-key-published {now - timedelta(days=1)}\n"
            f"dir-key-expires {now + timedelta(days=300)}\n"
            "dir-signing-key\n"
            f"{object_text('RSA PUBLIC KEY', self.signing_key)}"
            "dir-key-crosscert\n"
            f"{object_text('ID SIGNATURE', test_signature(self.signing_key, sha1(self.identity_key)))}"
            "dir-key-certification\n"
        )
        return covered + object_text("SIGNATURE", test_signature(self.identity_key, sha1(covered.encode("ascii"))))

    def station(self, now, authorities, relays, schedule):
        """What it is given, up to the descriptors."""
        reached = int(now.replace(tzinfo=timezone.utc).timestamp())
        lines = [
            "station 1",
            f"own {self.name} {self.fingerprint} {self.name}.example 127.0.0.1 {self.port} {self.port}",
            f"contact operator {self.number}",
            self.certificate(now).rstrip("\n"),
            "schedule %d %d %d" % schedule,
        ]
        lines += [f"authority {each.fingerprint} 127.0.0.1:{each.port}" for each in authorities]
        lines += VERSIONS
        lines += [f"measured {relay.fingerprint} {reached} 864000 990000 864000 {relay.measured}" for relay in relays]
        return "\n".join([*lines, "end-station", ""])


class Relay:
    """A relay, with Ed25519 keys where its number is odd."""

    def __init__(self, number):
        self.number = number
        self.measured = 1000 + number
        self.identity_key = f"identity of relay{number}".encode("ascii")
        self.onion_key = f"onion key of relay{number}".encode("ascii")
        self.fingerprint = sha1(self.identity_key).hex().upper()

    def ed25519_key(self, use):
        """The 32 bytes of one of its Ed25519 keys."""
        return hashlib.sha256(f"{use} of relay{self.number}".encode("ascii")).digest()

    def certificate(self, now):
        """The Ed25519 certificate of its signing key, which names its signer (type 4, extension 4)."""
        hours = int((now + timedelta(days=30)).replace(tzinfo=timezone.utc).timestamp()) // 3600
        master = self.ed25519_key("master")
        covered = bytes([1, 4]) + hours.to_bytes(4, "big") + bytes([1]) + self.ed25519_key("signing")
        covered += bytes([1, 0, 32, 4, 0]) + master
        return covered + 2 * test_signature(master, covered)

    def descriptor(self, now):
        """The server descriptor, in the order of dir-spec's items."""
        groups = [self.fingerprint[at : at + 4] for at in range(0, 40, 4)]
        address = f"198.51.{100 + self.number // 250}.{1 + self.number % 250}"
        text = f"router relay{self.number} {address} 9001 0 0\n"
        if self.number % 2:
            text += f"identity-ed25519\n{object_text('ED25519 CERT', self.certificate(now))}"
            text += f"master-key-ed25519 {unpadded(self.ed25519_key('master'))}\n"
        text += (
            "platform Tor 0.4.8.16 on Linux\n"
            "proto Link=1-5 LinkAuth=1,3 Relay=1-4\n"
            f"published {now - timedelta(hours=1)}\n"
            f"fingerprint {' '.join(groups)}\n"
            "uptime 864000\n"
            "bandwidth 1073741824 1073741824 2000000\n"
            f"onion-key\n{object_text('RSA PUBLIC KEY', self.onion_key)}"
            f"signing-key\n{object_text('RSA PUBLIC KEY', self.identity_key)}"
            f"ntor-onion-key {unpadded(self.ed25519_key('ntor'))}\n"
            "accept *:443\n"
            "reject *:*\n"
        )
        if self.number % 2:
            text += "router-sig-ed25519 "
            digest = hashlib.sha256(ED25519_PREFIX + text.encode("ascii")).digest()
            text += unpadded(2 * test_signature(self.ed25519_key("signing"), digest)) + "\n"
        text += "router-signature\n"
        return text + object_text("SIGNATURE", test_signature(self.identity_key, sha1(text.encode("ascii"))))


def make(given):
    """Writes the folder."""
    now = datetime.now(timezone.utc).replace(tzinfo=None, microsecond=0)
    authorities = [Authority(number, given.port) for number in range(1, given.authorities + 1)]
    relays = [Relay(number) for number in range(1, given.relays + 1)]
    another = Relay(given.relays + 1)
    descriptors = "".join(relay.descriptor(now) for relay in relays)
    given.folder.mkdir(parents=True)
    for each in authorities:
        text = each.station(now, authorities, [*relays, another], tuple(given.schedule)) + descriptors
        (given.folder / f"{each.name}.station").write_text(text, "ascii")
    lines = [f"{each.name} {each.fingerprint} 127.0.0.1:{each.port}\n" for each in authorities]
    (given.folder / "network").write_text("".join(lines), "ascii")
    (given.folder / "another.descriptor").write_text(another.descriptor(now), "ascii")
    return True


def read_signatures(text):
    """The bytes in front of the signatures, those that they cover, and the words and the bytes of each signature."""
    word = b"\ndirectory-signature "
    place = text.find(word)
    if place < 0:
        raise ValueError("it has no signature")
    front, covered = text[: place + 1], text[: place + len(word)]
    found = []
    for part in text[place + 1 :].split(word[1:])[1:]:
        words, begin, *lines, end = part.decode("ascii").rstrip("\n").split("\n")
        if (begin, end) != ("-----BEGIN SIGNATURE-----", "-----END SIGNATURE-----"):
            raise ValueError("it has a signature that is no object")
        found.append((words.split(" "), base64.b64decode("".join(lines), validate=True)))
    return front, covered, found


def why_not_signed(flavour, text, authorities):
    """The bytes in front of the signatures, and why these are not one of each authority, or None where they are."""
    try:
        front, covered, found = read_signatures(text)
    except ValueError as error:
        return None, str(error)
    digest = hashlib.new(FLAVOURS[flavour], covered).digest()
    wanted = []
    for each in sorted(authorities, key=lambda each: each.fingerprint):
        algorithm = [] if flavour == "ns" else ["sha256"]
        names = [*algorithm, each.fingerprint, sha1(each.signing_key).hex().upper()]
        wanted.append((names, test_signature(each.signing_key, digest)))
    if sorted(found) != wanted:
        return front, f"it has not one right signature of each authority, but {len(found)}: {found}"
    return front, None


def check(given):
    """Checks what was fetched from each authority, tells what is there, and says whether it is as it must be."""
    lines = (given.folder / "network").read_text("ascii").splitlines()
    authorities = [Authority(number, FIRST_PORT) for number in range(1, len(lines) + 1)]
    holds = True
    for flavour in FLAVOURS:
        fronts = set()
        for each in authorities:
            path = given.folder / f"{each.name}.{flavour}"
            front, why = why_not_signed(flavour, path.read_bytes(), authorities)
            fronts.add(front)
            if why is not None:
                print(f"{path}: {why}")
                holds = False
        if len(fronts) > 1:
            print(f"{flavour}: the authorities publish {len(fronts)} different texts")
            holds = False
        elif holds:
            (front,) = fronts
            moment = next(line for line in front.decode("utf-8").splitlines() if line.startswith("valid-after "))
            print(
                f"{flavour}: {moment}, {front.count(bytes([10]) + b'r ')} relays, {len(front)} bytes,"
                f" of {len(authorities)} authorities the same, with {len(authorities)} right signatures each"
            )
    return holds


def main():
    """Makes or checks."""
    parser = argparse.ArgumentParser(description=__doc__, formatter_class=argparse.RawDescriptionHelpFormatter)
    commands = parser.add_subparsers(required=True)
    making = commands.add_parser("make", help="make the stations of a network")
    making.add_argument("--authorities", type=int, choices=range(1, MOST_AUTHORITIES + 1), default=3, metavar="N")
    making.add_argument("--relays", type=int, default=5, metavar="N")
    making.add_argument("--schedule", type=int, nargs=3, default=SCHEDULE, metavar=("INTERVAL", "VOTE", "DIST"))
    making.add_argument("--port", type=int, default=FIRST_PORT, help="where the first listens (default: %(default)s)")
    making.add_argument("folder", metavar="FOLDER", type=pathlib.Path)
    making.set_defaults(do=make)
    checking = commands.add_parser("check", help="check what the authorities publish")
    checking.add_argument("folder", metavar="FOLDER", type=pathlib.Path)
    checking.set_defaults(do=check)
    given = parser.parse_args()
    try:
        sys.exit(0 if given.do(given) else 1)
    except OSError as error:
        raise SystemExit(f"test_network: {error.filename}: {error.strerror}") from None


if __name__ == "__main__":
    main()
