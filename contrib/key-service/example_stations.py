#!/usr/bin/env python3
"""Makes authorities with keys of openssl and what each of them is given, to try `dirauth make-vote` with a key service.

    python3 example_stations.py --authorities 3 FOLDER

makes FOLDER, which must not be there yet, and in it

    authN.station       the station input of the N-th authority, and behind it the descriptors of the relays
    keys/               the private keys, as `key_service.py --keys` reads them

On standard output it prints the commands, one a line: `make-vote` of each authority, `check vote` of each vote, and
`compute` of all of them, for the period that they were made for. The keys are made anew in each run and kept without a
password: they are for trying things out alone.
"""
import argparse
import base64
import hashlib
import pathlib
import shlex
import subprocess
from datetime import datetime, timedelta, timezone

from cryptography.hazmat.primitives import serialization
from cryptography.hazmat.primitives.asymmetric import ed25519, rsa, x25519

from example_votes import IDENTITY_BITS, SIGNING_BITS, Authority, a_count, object_text, sha1
from key_service import public_text, sign_rsa

# How long a relay's RSA keys are.
RELAY_BITS = 1024

# Seconds between two consensuses, for exchanging votes, and for exchanging signatures.
SCHEDULE = (3600, 300, 300)

# The versions of tor that are recommended. Over a consensus that names none C tors end.
VERSIONS = ("client-versions 0.4.8.21,0.4.9.11", "server-versions 0.4.8.21,0.4.9.11")

# What an Ed25519 signature of a descriptor covers begins with this.
ED25519_PREFIX = b"Tor router descriptor signature v1"


def made_by_openssl(path, bits):
    """An RSA key that openssl made, written into a file for its owner alone."""
    path.touch(mode=0o600)
    subprocess.run(["openssl", "genrsa", "-traditional", "-out", path, str(bits)], check=True, capture_output=True)
    return serialization.load_pem_private_key(path.read_bytes(), None)


def unpadded(data):
    """Base64 without padding."""
    return base64.b64encode(data).decode("ascii").rstrip("=")


def raw(private):
    """The bytes of the public key of an Ed25519 or X25519 key."""
    return private.public_key().public_bytes(serialization.Encoding.Raw, serialization.PublicFormat.Raw)


class Station(Authority):
    """An authority with keys that openssl made."""

    def __init__(self, number, keys):
        self.number = number
        self.name = f"auth{number}"
        self.identity = made_by_openssl(keys / f"{self.name}-identity.pem", IDENTITY_BITS)
        self.signing = made_by_openssl(keys / f"{self.name}-signing.pem", SIGNING_BITS)
        self.identity_key = public_text(self.identity.public_key())
        self.signing_key = public_text(self.signing.public_key())
        self.fingerprint = sha1(self.identity_key).hex().upper()

    def text(self, now, stations, relays):
        """What it is given, up to the descriptors."""
        lines = [
            "station 1",
            f"own {self.name} {self.fingerprint} {self.name}.example 192.0.2.{self.number} 80 443",
            f"contact operator {self.number}",
            self.certificate(now).rstrip("\n"),
            "schedule %d %d %d" % SCHEDULE,
        ]
        lines += [f"authority {station.fingerprint} 192.0.2.{station.number}:80" for station in stations]
        lines += VERSIONS
        reached = int(now.replace(tzinfo=timezone.utc).timestamp())
        lines += [f"measured {relay.fingerprint} {reached} 864000 990000 864000 {relay.measured}" for relay in relays]
        return "\n".join([*lines, "end-station", ""])


class Relay:
    """A relay with its keys, with or without those of Ed25519."""

    def __init__(self, number, has_ed25519):
        self.number = number
        self.measured = 1000 + number
        self.identity = rsa.generate_private_key(65537, RELAY_BITS)
        self.onion = rsa.generate_private_key(65537, RELAY_BITS)
        self.ntor = x25519.X25519PrivateKey.generate()
        self.master = ed25519.Ed25519PrivateKey.generate() if has_ed25519 else None
        self.signing = ed25519.Ed25519PrivateKey.generate() if has_ed25519 else None
        self.identity_key = public_text(self.identity.public_key())
        self.fingerprint = sha1(self.identity_key).hex().upper()

    def certificate(self, now):
        """The Ed25519 certificate of its signing key, which names its signer (type 4, extension 4)."""
        hours = int((now + timedelta(days=30)).replace(tzinfo=timezone.utc).timestamp()) // 3600
        covered = bytes([1, 4]) + hours.to_bytes(4, "big") + bytes([1]) + raw(self.signing)
        covered += bytes([1, 0, 32, 4, 0]) + raw(self.master)
        return covered + self.master.sign(covered)

    def descriptor(self, now):
        """The server descriptor, in the order of dir-spec's items."""
        groups = [self.fingerprint[at : at + 4] for at in range(0, 40, 4)]
        text = f"router relay{self.number} 198.51.100.{self.number} 9001 0 0\n"
        if self.master:
            text += f"identity-ed25519\n{object_text('ED25519 CERT', self.certificate(now))}"
            text += f"master-key-ed25519 {unpadded(raw(self.master))}\n"
        text += (
            "platform Tor 0.4.8.16 on Linux\n"
            "proto Link=1-5 LinkAuth=1,3 Relay=1-4\n"
            f"published {now - timedelta(hours=1)}\n"
            f"fingerprint {' '.join(groups)}\n"
            "uptime 864000\n"
            "bandwidth 1073741824 1073741824 2000000\n"
            f"onion-key\n{object_text('RSA PUBLIC KEY', public_text(self.onion.public_key()))}"
            f"signing-key\n{object_text('RSA PUBLIC KEY', self.identity_key)}"
            f"ntor-onion-key {unpadded(raw(self.ntor))}\n"
            "accept *:443\n"
            "reject *:*\n"
        )
        if self.master:
            text += "router-sig-ed25519 "
            digest = hashlib.sha256(ED25519_PREFIX + text.encode("ascii")).digest()
            text += unpadded(self.signing.sign(digest)) + "\n"
        text += "router-signature\n"
        return text + object_text("SIGNATURE", sign_rsa(self.identity, sha1(text.encode("ascii"))))


def main():
    """Writes the folder and prints the commands."""
    parser = argparse.ArgumentParser(description=__doc__, formatter_class=argparse.RawDescriptionHelpFormatter)
    parser.add_argument("folder", metavar="FOLDER", type=pathlib.Path, help="the folder to make")
    parser.add_argument("--authorities", type=a_count, default=3, metavar="N", help="how many (default: %(default)s)")
    given = parser.parse_args()
    now = datetime.now(timezone.utc).replace(tzinfo=None, microsecond=0)
    keys = given.folder / "keys"
    try:
        given.folder.mkdir(parents=True)
        keys.mkdir(mode=0o700)
    except OSError as error:
        raise SystemExit(f"example_stations: {given.folder}: {error.strerror}") from None
    stations = [Station(number, keys) for number in range(1, given.authorities + 1)]
    relays = [Relay(1, has_ed25519=True), Relay(2, has_ed25519=False)]
    descriptors = "".join(relay.descriptor(now) for relay in relays)
    for station in stations:
        text = station.text(now, stations, relays) + descriptors
        (given.folder / f"{station.name}.station").write_text(text, "ascii")
    files = [shlex.quote(str(given.folder / station.name)) for station in stations]
    for file in files:
        print(f"dirauth make-vote < {file}.station > {file}.vote")
    for file in files:
        print(f"dirauth check vote < {file}.vote")
    votes = " ".join(f"{file}.vote" for file in files)
    roster = ",".join(station.fingerprint for station in stations)
    valid_after = f"$(sed -n 's/^valid-after //p' {files[0]}.vote)"
    print(f'cat {votes} | dirauth compute --authorities {roster} --valid-after "{valid_after}" --flavour both')


if __name__ == "__main__":
    main()
