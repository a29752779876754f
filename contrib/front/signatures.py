"""Which authorities signed a consensus rightly, as a key service says (contrib/key-service)."""
import base64
import binascii
import hashlib
import re
import socket

# A signature of a consensus: its digest's name where it has one, the authority, the digest of its signing key, the object.
SIGNATURE = re.compile(
    rb"directory-signature (?:(sha1|sha256) )?([0-9A-F]{40}) ([0-9A-F]{40})\n"
    rb"-----BEGIN SIGNATURE-----\n([A-Za-z0-9+/=\n]*)-----END SIGNATURE-----\n"
)

# How many signatures of one authority are asked about: who wants to keep the key service busy may write more.
MOST_OF_ONE = 4

# How long an answer of the key service is waited for, in seconds.
PATIENCE = 10


class KeyService:
    """A key service at a path."""

    def __init__(self, path):
        self.path = path

    def is_right(self, key, digest, signature):
        """Whether a signature is right; a service that does not say so or otherwise is an OSError."""
        words = ["verify", "signing", key.hex() or "-", digest.hex(), signature.hex() or "-"]
        with socket.socket(socket.AF_UNIX) as dialed:
            dialed.settimeout(PATIENCE)
            try:
                dialed.connect(self.path)
                dialed.sendall(" ".join(words).encode("ascii") + b"\n")
                answer = dialed.makefile("rb").readline(100)
            except OSError as error:
                raise OSError(f"the key service at {self.path}: {error.strerror or error}") from None
        if answer not in (b"yes\n", b"no\n"):
            raise OSError(f"the key service at {self.path} says {answer.decode('ascii', 'replace').strip() or 'nothing'}")
        return answer == b"yes\n"


def signed_by(text, certificate, is_right):
    """A consensus with those of its signatures that are right, and whose they are.

    `certificate` finds the one of a signing key's digest and an authority. Nothing else stands behind what is signed.
    """
    front, word, _ = text.partition(b"\ndirectory-signature ")
    found, asked, kept = set(), {}, front + b"\n"
    for each in SIGNATURE.finditer(text, len(front)):
        algorithm, who, key_digest = ((word or b"sha1").decode("ascii") for word in each.groups()[:3])
        known = certificate(key_digest, who)
        asked[who] = asked.get(who, 0) + 1
        if who in found or known is None or asked[who] > MOST_OF_ONE:
            continue
        try:
            signature = base64.b64decode(each[4])
        except binascii.Error:
            continue
        if is_right(known.signing_key, hashlib.new(algorithm, front + word).digest(), signature):
            found.add(who)
            kept += each[0]
    return kept, found
