"""Directory documents as bytes: where each begins, what it is named by, and the moments that a consensus tells.

Nothing is verified here: whoever fetches a document from the front verifies it.
"""
import base64
import binascii
import calendar
import dataclasses
import hashlib
import re
import time

# The flavours of the consensus, as the end of its path names them.
FLAVOURS = ("consensus", "consensus-microdesc")

# The last item of a server descriptor, of which its digest is taken up to the line's end.
ROUTER_SIGNATURE = b"\nrouter-signature\n"

# The line that ends it.
OBJECT_END = b"-----END SIGNATURE-----\n"


def parts(text, keyword):
    """The documents of a text, each of which begins with a line of this keyword."""
    begins = [found.start() for found in re.finditer(rb"(?m)^" + keyword + rb"[ \n]", text)]
    return [text[begin:end] for begin, end in zip(begins, begins[1:] + [len(text)])]


def server_descriptors(text):
    """The server descriptors of a text by their digest, 40 hex digits; one that is cut off is left out."""
    found = {}
    for descriptor in parts(text, b"router"):
        end = descriptor.find(ROUTER_SIGNATURE)
        if end >= 0:
            covered = descriptor[: end + len(ROUTER_SIGNATURE)]
            found[hashlib.sha1(covered).hexdigest().upper()] = descriptor
    return found


@dataclasses.dataclass(frozen=True)
class Descriptor:
    """The server descriptor of a relay."""

    text: bytes
    fingerprint: str
    published: int


def descriptor_of(text):
    """A server descriptor that was read, without what stands behind it; a text that is none is refused."""
    begin = text.find(ROUTER_SIGNATURE)
    end = text.find(OBJECT_END, begin)
    key = re.search(rb"(?m)^signing-key\n-----BEGIN RSA PUBLIC KEY-----\n([A-Za-z0-9+/=\n]+)-----END ", text)
    if begin < 0 or end < 0 or key is None:
        raise ValueError("no signature, or no signing-key")
    fingerprint = hashlib.sha1(base64.b64decode(key.group(1))).hexdigest().upper()
    return Descriptor(text[: end + len(OBJECT_END)], fingerprint, seconds(item(text, b"published")))


def newest_descriptors(text):
    """The descriptor of each relay that was published last, by its fingerprint; what is none is left out."""
    newest = {}
    for each in parts(text, b"router"):
        try:
            found = descriptor_of(each)
        except (ValueError, binascii.Error):
            continue
        held = newest.get(found.fingerprint)
        if held is None or held.published < found.published:
            newest[found.fingerprint] = found
    return newest


def microdescriptors(text):
    """The microdescriptors of a text by their digest, base64 without padding."""
    return {
        base64.b64encode(hashlib.sha256(each).digest()).rstrip(b"=").decode("ascii"): each
        for each in parts(text, b"onion-key")
    }


def seconds(text):
    """The seconds since 1970 of a moment as documents write it."""
    return calendar.timegm(time.strptime(text.decode("ascii"), "%Y-%m-%d %H:%M:%S"))


def item(text, keyword):
    """The rest of the first line of a keyword; a document without one is refused."""
    found = re.search(rb"(?m)^" + keyword + rb" (.*)$", text)
    if found is None:
        raise ValueError(f"no {keyword.decode('ascii')} line")
    return found.group(1)


@dataclasses.dataclass(frozen=True)
class Certificate:
    """A key certificate of an authority."""

    text: bytes
    fingerprint: str
    key_digest: str
    published: int
    expires: int
    signing_key: bytes


def certificate_of(text):
    """A certificate that was read; a text that is none is refused."""
    key = re.search(rb"(?m)^dir-signing-key\n-----BEGIN RSA PUBLIC KEY-----\n([^-]*)-----END", text)
    if key is None:
        raise ValueError("no dir-signing-key")
    return Certificate(
        text,
        item(text, b"fingerprint").decode("ascii").upper(),
        hashlib.sha1(base64.b64decode(key.group(1))).hexdigest().upper(),
        seconds(item(text, b"dir-key-published")),
        seconds(item(text, b"dir-key-expires")),
        base64.b64decode(key.group(1)),
    )


def certificates(text):
    """The certificates of a text; what is none is left out."""
    found = []
    for each in parts(text, b"dir-key-certificate-version"):
        try:
            found.append(certificate_of(each))
        except (ValueError, binascii.Error):
            continue
    return found


@dataclasses.dataclass(frozen=True)
class Consensus:
    """A consensus of one flavour: who signed it, and its moments."""

    text: bytes
    signers: frozenset
    valid_after: int
    fresh_until: int
    valid_until: int
    delays: int

    def voting_begins(self):
        """The moment from which votes for the next consensus are made."""
        return self.fresh_until - self.delays


def consensus_of(text):
    """A consensus that was read; a text that is none is refused."""
    signers = re.findall(rb"(?m)^directory-signature (?:sha(?:1|256) )?([0-9A-Fa-f]{40}) ", text)
    return Consensus(
        text,
        frozenset(each.decode("ascii").upper() for each in signers),
        seconds(item(text, b"valid-after")),
        seconds(item(text, b"fresh-until")),
        seconds(item(text, b"valid-until")),
        sum(int(word) for word in item(text, b"voting-delay").split()),
    )


def signed_digest(text):
    """The SHA-1 of what the signatures of a vote or a consensus cover, 40 hex digits: consensuses name votes by it."""
    front, word, _ = text.partition(b"\ndirectory-signature ")
    return hashlib.sha1(front + word).hexdigest().upper()


def named_servers(text):
    """The digests of the server descriptors that a vote or a consensus names."""
    words = re.findall(rb"(?m)^r \S+ \S+ (\S{27}) ", text)
    return [base64.b64decode(word + b"=").hex().upper() for word in words]


def named_microdescriptors(text):
    """The digests of the microdescriptors that a vote or a consensus of the microdesc flavour names."""
    words = re.findall(rb"(?m)^m (?:[0-9,]+ sha256=)?([A-Za-z0-9+/]{43})$", text)
    return [word.decode("ascii") for word in words]
