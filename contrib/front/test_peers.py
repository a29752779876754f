#!/usr/bin/env python3
"""Tests of what is taken of other authorities, with a key service of the test scheme: `python3 -m unittest` in this folder."""
import base64
import contextlib
import hashlib
import http.server
import io
import pathlib
import socketserver
import tempfile
import threading
import unittest

import peers
from directory_documents import consensus_of
from signatures import KeyService
from test_front import FrontCase, Stored, address_of, serving

NAMES = [f"{number}" * 40 for number in (1, 2, 3)]

FLAVOURS = {"consensus": ("", "sha1"), "consensus-microdesc": (" microdesc", "sha256")}

# 2031-01-01 01:00:00
VALID_AFTER = 1924995600

NOW = VALID_AFTER + 60


def key_of(name):
    """The signing key of an authority, which is none but its bytes."""
    return f"signing key of {name}".encode("ascii")


def signature(key, digest):
    """A signature under the test scheme."""
    return hashlib.sha256(b"test-sig" + key + digest).digest()


def certificate(name):
    """What the front reads of a certificate."""
    key = base64.b64encode(key_of(name)).decode("ascii")
    return (
        f"dir-key-certificate-version 3\nfingerprint {name}\ndir-key-published 2030-12-01 00:00:00\n"
        "dir-key-expires 2125-01-01 00:00:00\ndir-signing-key\n"
        f"-----BEGIN RSA PUBLIC KEY-----\n{key}\n-----END RSA PUBLIC KEY-----\n"
    ).encode("ascii")


def consensus(flavour="consensus", signers=tuple(NAMES), hour=1, wrong=()):
    """A consensus with signatures."""
    words, algorithm = FLAVOURS[flavour]
    front = (
        f"network-status-version 3{words}\nvote-status consensus\nvalid-after 2031-01-01 {hour:02}:00:00\n"
        f"fresh-until 2031-01-01 {hour + 1:02}:00:00\nvalid-until 2031-01-01 {hour + 3:02}:00:00\nvoting-delay 300 300\n"
    ).encode("ascii")
    digest = hashlib.new(algorithm, front + b"directory-signature ").digest()
    text = front
    for name in signers:
        key_digest = hashlib.sha1(key_of(name)).hexdigest().upper()
        made = base64.b64encode(signature(key_of(name), digest if name not in wrong else b"other")).decode("ascii")
        kind = "" if algorithm == "sha1" else "sha256 "
        begin, end = "-----BEGIN SIGNATURE-----", "-----END SIGNATURE-----"
        text += f"directory-signature {kind}{name} {key_digest}\n{begin}\n{made}\n{end}\n".encode("ascii")
    return text


class Question(socketserver.StreamRequestHandler):
    """A key service that verifies by the test scheme."""

    def handle(self):
        words = self.rfile.readline().decode("ascii").split()
        key, digest, given = (bytes.fromhex(word) for word in words[2:])
        self.server.asked += 1
        is_right = words[:2] == ["verify", "signing"] and given == signature(key, digest)
        self.wfile.write(b"yes\n" if is_right else b"no\n")


class PeersCase(FrontCase):
    """A front that holds the consensus of the hour before, and a peer."""

    def setUp(self):
        super().setUp()
        room = tempfile.TemporaryDirectory()
        self.addCleanup(room.cleanup)
        self.service = socketserver.ThreadingUnixStreamServer(f"{room.name}/keys", Question)
        self.service.asked = 0
        self.enter(serving(self.service))
        peer = http.server.ThreadingHTTPServer(("127.0.0.1", 0), Stored)
        peer.documents, peer.asked = {}, []
        self.peer = self.enter(serving(peer))
        self.holdings.take_certificates(b"".join(map(certificate, NAMES)), NOW)
        self.holdings.own = NAMES[0]
        for flavour in FLAVOURS:
            self.holdings.take_consensus(flavour, consensus(flavour, hour=0))
        authorities = {NAMES[0]: address_of(self.daemon), NAMES[1]: address_of(peer), NAMES[2]: None}
        self.peers = peers.Peers(authorities, self.watcher, KeyService(f"{room.name}/keys"))

    def enter(self, context):
        """Something for the length of a test."""
        stack = contextlib.ExitStack()
        self.addCleanup(stack.close)
        return stack.enter_context(context)

    def after(self, text, now=NOW, flavour="consensus"):
        """The consensus that is held after a look at a peer that has this one, and what is told."""
        self.peer.documents["/tor/status-vote/current/" + flavour] = text
        with contextlib.redirect_stderr(io.StringIO()) as told:
            self.peers.look(now)
        return self.holdings.consensuses[flavour].text, told.getvalue()

    def is_left(self, text, now=NOW, flavour="consensus"):
        """A consensus is not taken, and nothing is told."""
        before = self.holdings.consensuses[flavour].text
        self.assertEqual(self.after(text, now, flavour), (before, ""))

    def test_one_that_was_missed_is_taken(self):
        for flavour in FLAVOURS:
            held, told = self.after(consensus(flavour), flavour=flavour)
            self.assertEqual(held, consensus(flavour))
            there = f"and is taken of {address_of(self.peer)}: 3 of 3 signed it\n"
            self.assertEqual(told, f"front: the {flavour} of 2031-01-01 01:00:00 was missed, {there}")
        self.clock = NOW
        self.assertEqual(self.code_and_body("/tor/status-vote/current/consensus.z"), (200, consensus()))

    def test_more_than_half_must_have_signed_it(self):
        self.is_left(consensus(signers=NAMES[:1]))
        self.is_left(consensus(signers=NAMES[:1] * 2))
        self.is_left(consensus(signers=NAMES, wrong=NAMES[1:]))
        self.is_left(consensus(signers=()))
        text, told = self.after(consensus(wrong=NAMES[:1]))
        self.assertEqual(text, consensus(signers=NAMES[1:]))
        self.assertIn("2 of 3 signed it", told)

    def test_strangers_do_not_count(self):
        stranger = "4" * 40
        self.holdings.take_certificates(certificate(stranger), NOW)
        self.is_left(consensus(signers=[NAMES[0], stranger]))

    def test_what_is_not_signed_is_not_kept(self):
        text = consensus()
        self.assertEqual(self.after(text + b"more\n")[0], text)
        place = text.rindex(b"directory-signature ")
        self.holdings.consensuses.clear()
        self.assertEqual(self.after(text[:place] + b"more\n" + text[place:])[0], text)
        self.holdings.consensuses["consensus"] = consensus_of(consensus(hour=0))
        self.is_left(b"\n" + text)
        self.is_left(text.replace(b"voting-delay 300", b"voting-delay 301"))

    def test_neither_an_older_one_nor_one_to_come_nor_an_expired_one_is_taken(self):
        self.is_left(consensus(hour=0))
        self.is_left(consensus(hour=2))
        self.is_left(consensus(), now=VALID_AFTER + 3 * 3600)
        self.is_left(b"nothing\n")

    def test_one_of_the_other_flavour_is_not_taken(self):
        self.is_left(consensus("consensus-microdesc"))

    def test_nobody_is_asked_while_what_is_held_is_fresh(self):
        self.is_left(consensus(), now=VALID_AFTER + peers.MISSED_AFTER - 1)
        self.assertEqual(self.peer.asked, [])

    def test_many_wrong_signatures_are_few_questions(self):
        text = consensus(signers=NAMES[1:2] * 50, wrong=NAMES[1:2])
        self.is_left(text)
        self.assertEqual(self.service.asked, 4)

    def test_a_key_service_that_is_away_takes_nothing(self):
        self.peers.key_service = KeyService("/no/keys")
        with self.assertRaisesRegex(OSError, "the key service at /no/keys: No such file"):
            self.after(consensus())

    def test_a_peer_that_is_slow_or_away_gives_nothing(self):
        self.replace(peers, "PATIENCE", 0.3)
        release = threading.Event()
        self.addCleanup(release.set)
        self.peer.RequestHandlerClass = type("Slow", (Stored,), {"do_GET": lambda _: release.wait(20)})
        self.is_left(consensus())
        self.assertIsNone(peers.fetched("127.0.0.1:1", "/"))


class Words(unittest.TestCase):
    """The file of authorities."""

    def test_authorities_are_those_of_the_lines(self):
        with tempfile.TemporaryDirectory() as room:
            path = pathlib.Path(room) / "authorities"
            path.write_text(f"authority {NAMES[0]} 192.0.2.1:80\nauthority {NAMES[1]} -\n", "ascii")
            self.assertEqual(peers.authorities_of(path), {NAMES[0]: "192.0.2.1:80", NAMES[1]: None})
            path.write_text("nothing\n", "ascii")
            for each, line in ((path, f"{path}: no authority line"), (pathlib.Path("/no/file"), "/no/file: No such file")):
                with self.assertRaisesRegex(SystemExit, f"front: {line}"):
                    peers.authorities_of(each)


if __name__ == "__main__":
    unittest.main()
