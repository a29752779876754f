#!/usr/bin/env python3
"""Tests of the key service over a socket of its own: `python3 -m unittest` in this folder. They need python3-cryptography."""
import hashlib
import pathlib
import socket
import subprocess
import sys
import tempfile
import threading
import time
import unittest

from cryptography.hazmat.primitives import serialization
from cryptography.hazmat.primitives.asymmetric import ed25519, rsa

HERE = pathlib.Path(__file__).resolve().parent
sys.path.insert(0, str(HERE))

from key_service import public_text  # pylint: disable=wrong-import-position

# How many seconds the service may take, on a machine that is busy.
LONGEST = 180

DIGEST = hashlib.sha1(b"a text").digest()

OTHER = hashlib.sha1(b"another").digest()


def pem(key):
    """A private key as a PEM without a password."""
    form = serialization.PrivateFormat.PKCS8
    return key.private_bytes(serialization.Encoding.PEM, form, serialization.NoEncryption())


class ServiceCase(unittest.TestCase):
    """A service with a key of each kind."""

    words = ("--quiet",)

    @classmethod
    def setUpClass(cls):
        cls.signing = rsa.generate_private_key(public_exponent=65537, key_size=2048)
        cls.relay = ed25519.Ed25519PrivateKey.generate()
        room = tempfile.TemporaryDirectory()
        cls.addClassCleanup(room.cleanup)
        folder = pathlib.Path(room.name)
        (folder / "keys").mkdir()
        for name, key in (("signing", cls.signing), ("relay", cls.relay)):
            (folder / f"keys/{name}.pem").write_bytes(pem(key))
        cls.path = str(folder / "socket")
        words = [sys.executable, HERE / "key_service.py", "--keys", folder / "keys", "--socket", cls.path, *cls.words]
        cls.log = folder / "log"
        with open(cls.log, "wb") as log:
            service = subprocess.Popen(words, stderr=log)
        cls.addClassCleanup(service.wait)
        cls.addClassCleanup(service.terminate)

    def setUp(self):
        self.dialogue = self.dialed().makefile("rw", encoding="ascii", newline="\n")
        self.addCleanup(self.dialogue.close)

    def dialed(self):
        """A connection to the service, once it listens."""
        dialed = socket.socket(socket.AF_UNIX)
        self.addCleanup(dialed.close)
        dialed.settimeout(LONGEST)
        end = time.monotonic() + LONGEST
        while dialed.connect_ex(self.path):
            self.assertLess(time.monotonic(), end, "the service does not listen")
            time.sleep(0.05)
        return dialed

    def asked(self, *words):
        """The answer to a request."""
        line = " ".join(word if isinstance(word, str) else word.hex() or "-" for word in words)
        self.dialogue.write(line + "\n")
        self.dialogue.flush()
        return self.dialogue.readline().rstrip("\n")


class Service(ServiceCase):
    """What it answers, and tells where it is quiet."""

    def test_what_went_well_is_not_told(self):
        key = public_text(self.signing.public_key())
        signature = self.asked("sign", "signing", key, DIGEST).partition(" ")[2]
        self.assertEqual(self.asked("verify", "signing", key, DIGEST, signature), "yes")
        self.assertEqual(self.asked("verify", "signing", key, OTHER, signature), "no")
        lines = self.log.read_text("utf-8").splitlines()
        self.assertIn("verify signing: no, the signature is over another digest", lines)
        self.assertFalse([line for line in lines if line.endswith((" ok", " yes"))])

    def test_a_signature_that_it_makes_is_right_of_its_message_alone(self):
        for kind, private in (("signing", self.signing), ("identity", self.signing), ("ed25519", self.relay)):
            key = public_text(private.public_key())
            word, _, signature = self.asked("sign", kind, key, DIGEST).partition(" ")
            self.assertEqual(word, "ok")
            self.assertEqual(self.asked("verify", kind, key, DIGEST, signature), "yes")
            self.assertEqual(self.asked("verify", kind, key, OTHER, signature), "no")
            self.assertEqual(self.asked("verify", kind, key, DIGEST, signature[:-2]), "no")

    def test_an_rsa_signature_is_round_the_bare_digest(self):
        key = public_text(self.signing.public_key())
        signature = int(self.asked("sign", "signing", key, DIGEST).partition(" ")[2], 16)
        numbers = self.signing.public_key().public_numbers()
        padded = pow(signature, numbers.e, numbers.n).to_bytes(256, "big")
        self.assertEqual(padded, b"\x00\x01" + b"\xff" * 233 + b"\x00" + DIGEST)

    def test_what_is_no_request_is_a_fault(self):
        key = public_text(self.signing.public_key())
        for words in (
            ("sign", "signing", b"no key", DIGEST),
            ("sign", "ed25519", key, DIGEST),
            ("sign", "other", key, DIGEST),
            ("verify", "signing", key, DIGEST),
            ("verify", "signing", "AB", DIGEST, "00"),
        ):
            self.assertTrue(self.asked(*words).startswith("error "), words)
        self.assertEqual(self.asked("verify", "signing", b"no key", DIGEST, b"\x00"), "no")


class Lines(ServiceCase):
    """What it tells where it is not quiet."""

    words = ()

    def ask_often(self):
        """Asks the same again and again, over a connection of its own."""
        request = f"sign ed25519 {public_text(self.relay.public_key()).hex()} {DIGEST.hex()}\n"
        with self.dialed().makefile("rw", encoding="ascii", newline="\n") as dialogue:
            for _ in range(200):
                dialogue.write(request)
                dialogue.flush()
                dialogue.readline()

    def test_lines_of_several_connections_stand_whole(self):
        askers = [threading.Thread(target=self.ask_often) for _ in range(8)]
        for each in askers:
            each.start()
        for each in askers:
            each.join()
        lines = self.log.read_text("utf-8").splitlines()
        self.assertEqual(lines.count("sign ed25519: ok"), 1600)
        self.assertEqual(set(lines[1:]), {"sign ed25519: ok"})


class Paths(unittest.TestCase):
    """Where a socket may not be made."""

    def test_what_is_no_socket_is_left(self):
        with tempfile.TemporaryDirectory() as room:
            path = pathlib.Path(room) / "socket"
            path.write_text("a text", encoding="ascii")
            command = [sys.executable, HERE / "key_service.py", "--keys", room, "--socket", path]
            ran = subprocess.run(command, stderr=subprocess.PIPE, text=True, check=False)
            self.assertEqual((ran.returncode, ran.stderr), (1, f"{path}: it is there and is no socket\n"))
            self.assertEqual(path.read_text(encoding="ascii"), "a text")

    def test_a_folder_that_is_missing_is_told_in_a_line(self):
        command = [sys.executable, HERE / "key_service.py", "--keys", "/no/folder", "--socket", "/no/socket"]
        ran = subprocess.run(command, stderr=subprocess.PIPE, text=True, check=False)
        self.assertEqual((ran.returncode, ran.stderr), (1, "/no/folder: No such file or directory\n"))


if __name__ == "__main__":
    unittest.main()
