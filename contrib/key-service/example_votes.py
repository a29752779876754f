#!/usr/bin/env python3
"""Makes authorities with real RSA keys and a vote of each, to try `dirauth compute` with a key service.

    python3 example_votes.py --authorities 3 FOLDER

makes FOLDER, which must not be there yet, and in it

    votes               the votes, one after the other, as `dirauth compute` reads them
    authN.vote          the vote of the N-th authority alone
    authN.certificate   its certificate alone
    keys/               the private keys, as `key_service.py --keys` reads them

On standard output it prints one line, the command that computes the consensus of these votes. The votes list no relays. The
keys are made anew in each run and kept without a password: they are for trying things out alone.
"""
import argparse
import base64
import hashlib
import pathlib
import shlex
import sys
from datetime import datetime, timedelta

from cryptography.hazmat.primitives import serialization
from cryptography.hazmat.primitives.asymmetric import rsa

# The arithmetic of signatures and the DER of a key are the service's own.
from key_service import public_text, sign_rsa

# As long as the keys that real authorities make with tor-gencert.
IDENTITY_BITS = 3072
SIGNING_BITS = 2048

# How many members a roster may have.
MOST_AUTHORITIES = 32

# How long before the valid-after a vote and a certificate are published, and how long after it they end.
VOTE_PUBLISHED = timedelta(minutes=-10)
FRESH_UNTIL = timedelta(hours=1)
VALID_UNTIL = timedelta(hours=3)
KEY_PUBLISHED = timedelta(days=-30)
KEY_EXPIRES = timedelta(days=335)


def sha1(data):
    """The SHA-1 of some bytes."""
    return hashlib.sha1(data).digest()


def object_text(words, data):
    """An object of dir-spec's meta-format: base64 in lines of 64 characters between BEGIN and END."""
    text = base64.b64encode(data).decode("ascii")
    lines = [text[at : at + 64] for at in range(0, len(text), 64)]
    return "\n".join([f"-----BEGIN {words}-----", *lines, f"-----END {words}-----", ""])


class Authority:
    """An authority with its two key pairs."""

    def __init__(self, number):
        self.number = number
        self.name = f"auth{number}"
        self.identity = rsa.generate_private_key(65537, IDENTITY_BITS)
        self.signing = rsa.generate_private_key(65537, SIGNING_BITS)
        self.identity_key = public_text(self.identity.public_key())
        self.signing_key = public_text(self.signing.public_key())
        self.fingerprint = sha1(self.identity_key).hex().upper()

    def certificate(self, valid_after):
        """The key certificate, in the order of dir-spec's items.

        The signing key signs the digest of the identity key (crosscert). The identity key signs the digest of the text from
        the first item through the line end of `dir-key-certification`.
        """
        covered = (
            "dir-key-certificate-version 3\n"
            f"fingerprint {self.fingerprint}\n"
            "dir-identity-key\n"
            f"{object_text('RSA PUBLIC KEY', self.identity_key)}"
            f"dir-key-published {valid_after + KEY_PUBLISHED}\n"
            f"dir-key-expires {valid_after + KEY_EXPIRES}\n"
            "dir-signing-key\n"
            f"{object_text('RSA PUBLIC KEY', self.signing_key)}"
            "dir-key-crosscert\n"
            f"{object_text('ID SIGNATURE', sign_rsa(self.signing, sha1(self.identity_key)))}"
            "dir-key-certification\n"
        )
        return covered + object_text("SIGNATURE", sign_rsa(self.identity, sha1(covered.encode("ascii"))))

    def vote(self, valid_after, certificate, use_sha256):
        """The vote around this certificate.

        The signing key signs the digest of the text from the first item through the one space after `directory-signature`.
        """
        covered = (
            "network-status-version 3\n"
            "vote-status vote\n"
            "consensus-methods 32\n"
            f"published {valid_after + VOTE_PUBLISHED}\n"
            f"valid-after {valid_after}\n"
            f"fresh-until {valid_after + FRESH_UNTIL}\n"
            f"valid-until {valid_after + VALID_UNTIL}\n"
            "voting-delay 300 300\n"
            "known-flags Running Valid\n"
            f"dir-source {self.name} {self.fingerprint} {self.name}.example 192.0.2.{self.number} 80 443\n"
            f"contact operator {self.number}\n"
            f"{certificate}"
            "directory-footer\n"
            "directory-signature "
        )
        # SHA-1 is the algorithm where none is named.
        algorithm = "sha256 " if use_sha256 else ""
        digest = hashlib.new("sha256" if use_sha256 else "sha1", covered.encode("ascii")).digest()
        names = f"{algorithm}{self.fingerprint} {sha1(self.signing_key).hex().upper()}\n"
        return covered + names + object_text("SIGNATURE", sign_rsa(self.signing, digest))

    def write_keys(self, folder):
        """Writes both private keys, for their owner alone."""
        for use, private in (("identity", self.identity), ("signing", self.signing)):
            path = folder / f"{self.name}-{use}.pem"
            path.touch(mode=0o600)
            path.write_bytes(
                private.private_bytes(
                    serialization.Encoding.PEM,
                    serialization.PrivateFormat.TraditionalOpenSSL,
                    serialization.NoEncryption(),
                )
            )


def write_all(folder, count, valid_after, use_sha256):
    """Makes the authorities, writes all that is theirs into the new folder, and gives their fingerprints."""
    keys = folder / "keys"
    keys.mkdir(mode=0o700)
    votes, fingerprints = [], []
    for number in range(1, count + 1):
        authority = Authority(number)
        certificate = authority.certificate(valid_after)
        vote = authority.vote(valid_after, certificate, use_sha256)
        authority.write_keys(keys)
        (folder / f"{authority.name}.certificate").write_text(certificate, "ascii")
        (folder / f"{authority.name}.vote").write_text(vote, "ascii")
        votes.append(vote)
        fingerprints.append(authority.fingerprint)
    (folder / "votes").write_text("".join(votes), "ascii")
    return fingerprints


def a_count(text):
    """How many authorities a word asks for."""
    if not text.isdecimal() or not 1 <= int(text) <= MOST_AUTHORITIES:
        raise argparse.ArgumentTypeError(f"no number from 1 to {MOST_AUTHORITIES}")
    return int(text)


def a_moment(text):
    """The moment that a word names; certificates around it must lie in the years that dirauth reads, 1970 to 9999."""
    try:
        found = datetime.strptime(text, "%Y-%m-%d %H:%M:%S")
    except ValueError:
        raise argparse.ArgumentTypeError("no moment of the form YYYY-MM-DD HH:MM:SS") from None
    if not 1971 <= found.year <= 9998:
        raise argparse.ArgumentTypeError("no moment of the years 1971 to 9998")
    return found


def main():
    """Writes the folder and prints the command."""
    parser = argparse.ArgumentParser(description=__doc__, formatter_class=argparse.RawDescriptionHelpFormatter)
    parser.add_argument("folder", metavar="FOLDER", type=pathlib.Path, help="the folder to make")
    parser.add_argument(
        "--authorities",
        type=a_count,
        default=3,
        metavar="N",
        help=f"how many, 1 to {MOST_AUTHORITIES} (default: %(default)s)",
    )
    parser.add_argument(
        "--valid-after",
        type=a_moment,
        default="2026-01-01 00:00:00",
        metavar="TIME",
        help="the start of the period, as one word YYYY-MM-DD HH:MM:SS (default: %(default)s)",
    )
    parser.add_argument("--sha256", action="store_true", help="sign the votes over SHA-256 in place of SHA-1")
    given = parser.parse_args()
    try:
        given.folder.mkdir(parents=True)
    except OSError as error:
        raise SystemExit(f"example_votes: {given.folder}: {error.strerror}") from None
    fingerprints = write_all(given.folder, given.authorities, given.valid_after, given.sha256)
    print(f"{given.authorities} votes are in {given.folder}, the private keys in {given.folder / 'keys'}", file=sys.stderr)
    votes = shlex.quote(str(given.folder / "votes"))
    print(f'dirauth compute --authorities {",".join(fingerprints)} --valid-after "{given.valid_after}" < {votes}')


if __name__ == "__main__":
    main()
