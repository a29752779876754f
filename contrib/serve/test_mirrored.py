"""What try/mirrored.py says of mirrors: one that has all, and others that lack something."""
import base64
import hashlib
import http.server
import pathlib
import sys
import threading
import unittest

sys.path.insert(0, str(pathlib.Path(__file__).resolve().parent / "try"))
from mirrored import CONSENSUS, digests_in, wait_for, why_not  # pylint: disable=wrong-import-position

MICROS = [b"onion-key\nfamily a\n", b"onion-key\nfamily b\n"]
DIGESTS = [base64.b64encode(hashlib.sha256(text).digest()).rstrip(b"=") for text in MICROS]


def consensus(moment, signers=(b"AA",)):
    """A consensus of a moment that names both microdescriptors, of signers."""
    text = b"network-status-version 3 microdesc\nvalid-after " + moment + b"\n"
    text += b"".join(b"r x\nm " + digest + b"\n" for digest in DIGESTS)
    return text + b"".join(b"directory-signature sha256 " + each + b" KEY\nobject\n" for each in signers)


OLD = consensus(b"2026-01-01 00:00:00")
NEW = consensus(b"2026-01-01 01:00:00")
ALL = {
    CONSENSUS: NEW,
    "/tor/micro/d/" + b"-".join(sorted(DIGESTS)).decode(): b"".join(MICROS),
    "/tor/keys/all": b"fingerprint AA\n",
}


class Handler(http.server.BaseHTTPRequestHandler):
    """Gives what the server has at a path."""

    def do_GET(self):
        """Answers a request."""
        text = self.server.texts.get(self.path)
        self.send_response(200 if text is not None else 404)
        self.end_headers()
        self.wfile.write(text or b"")

    def log_message(self, *_):  # pylint: disable=arguments-differ
        """Tells nothing."""


class Mirrors(unittest.TestCase):
    """A mirror with these texts."""

    def reason(self, texts, published):
        """Why a mirror that has these texts has not what was published."""
        server = http.server.ThreadingHTTPServer(("127.0.0.1", 0), Handler)
        server.texts = texts
        thread = threading.Thread(target=server.serve_forever)
        thread.start()
        try:
            address = f"127.0.0.1:{server.server_port}"
            _, waited = wait_for(address, published, 0.0)
            self.assertEqual(waited, why_not(address, published))
            return waited
        finally:
            server.shutdown()
            thread.join()
            server.server_close()

    def test_a_mirror_that_has_all(self):
        """Other signatures on the same text do not matter, nor that one authority has an older one."""
        self.assertIsNone(self.reason(ALL, [NEW]))
        self.assertIsNone(self.reason(ALL, [OLD, consensus(b"2026-01-01 01:00:00", (b"AA", b"BB"))]))

    def test_what_a_mirror_lacks(self):
        """Each of its texts counts."""
        self.assertIn("no consensus", self.reason({}, [NEW]))
        self.assertIn("and not 2026-01-01 01:00:00", self.reason({**ALL, CONSENSUS: OLD}, [NEW]))
        self.assertIn("is another", self.reason({**ALL, CONSENSUS: NEW.replace(b"r x", b"r y")}, [NEW]))
        one = {**ALL, "/tor/micro/d/" + b"-".join(sorted(DIGESTS)).decode(): MICROS[0]}
        self.assertIn("1 of 2 microdescriptors", self.reason(one, [NEW]))
        self.assertIn("0 of 1 signers", self.reason({**ALL, "/tor/keys/all": b""}, [NEW]))

    def test_digests(self):
        """A text is split before each of its microdescriptors."""
        self.assertEqual(digests_in(b"".join(MICROS)), set(DIGESTS))


if __name__ == "__main__":
    unittest.main()
