#!/usr/bin/env python3
"""Tests of the front on stored documents and stored requests of real tors: `python3 -m unittest` in this folder.

`stored/` has what three authorities held and published in one period of a network of real relays (contrib/network), and
in `requests` what tors ask their fronts: a line for each, with the code that must come, the documents that the answer must
have, and the request. test_nginx.py lets the same requests go through nginx.
"""
import contextlib
import http.client
import http.server
import io
import pathlib
import socket
import subprocess
import sys
import tempfile
import threading
import time
import unittest

HERE = pathlib.Path(__file__).resolve().parent
sys.path.insert(0, str(HERE))

# pylint: disable=wrong-import-position
import daemon
import directory_documents
import front
import watcher
from holdings import Holdings

STORED = HERE / "stored"

# The head fields of a tor's request.
TOR_FIELDS = {"Accept-Encoding": "x-tor-lzma, x-zstd, deflate, gzip, identity"}

# A moment at which the stored consensus is the current one.
CONSENSUS = directory_documents.consensus_of((STORED / "consensus").read_bytes())
NOW = CONSENSUS.valid_after + 20


class Stored(http.server.BaseHTTPRequestHandler):
    """A daemon of stored answers."""

    def do_GET(self):  # pylint: disable=invalid-name
        """Answers what it has."""
        self.server.asked.append(self.path)
        self.answer(self.server.documents.get(self.path))

    def do_POST(self):  # pylint: disable=invalid-name
        """Takes a post, with the next of its answers."""
        body = self.rfile.read(int(self.headers["Content-Length"]))
        self.server.posted.append((self.path, body))
        code, text = self.server.post_answers.pop(0) if self.server.post_answers else (200, b"kept\n")
        self.answer(text, code)

    def answer(self, body, code=200):
        """Sends an answer."""
        self.send_response_only(404 if body is None else code)
        self.send_header("Content-Length", str(len(body or b"")))
        self.end_headers()
        self.wfile.write(body or b"")

    def log_message(self, format, *args):  # pylint: disable=redefined-builtin
        """Nothing is told."""


def stored(*names):
    """Stored documents, one behind the other."""
    return b"".join((STORED / name).read_bytes() for name in names)


def documents():
    """The paths of a daemon that has published, while votes for the next consensus are held."""
    found = {
        "/tor/status-vote/current/consensus": stored("consensus"),
        "/tor/status-vote/current/consensus-microdesc": stored("consensus-microdesc"),
        "/tor/status-vote/next/authority": stored("auth1.vote"),
        "/tor/status-vote/next/consensus-signatures": stored("signatures"),
        "/tor/keys/all": stored("certificates"),
        "/tor/server/all": stored("servers"),
    }
    for digest, text in directory_documents.microdescriptors(stored("micros")).items():
        found["/tor/micro/d/" + digest] = text
    named = directory_documents.named_microdescriptors(stored("auth1.vote"))
    found["/tor/micro/d/" + "-".join(named)] = stored("micros")
    for each in (1, 2, 3):
        vote = stored(f"auth{each}.vote")
        found["/tor/status-vote/next/" + directory_documents.item(vote, b"fingerprint").decode("ascii")] = vote
    return found


@contextlib.contextmanager
def serving(server):
    """Runs a server."""
    thread = threading.Thread(target=server.serve_forever, kwargs={"poll_interval": 0.05}, daemon=True)
    thread.start()
    try:
        yield server
    finally:
        server.shutdown()
        server.server_close()


def stored_daemon():
    """A daemon of stored answers at a free port."""
    server = http.server.ThreadingHTTPServer(("127.0.0.1", 0), Stored)
    server.documents, server.asked, server.posted, server.post_answers = documents(), [], [], []
    return server


def address_of(server):
    """Where a server listens."""
    return "%s:%d" % server.server_address


def ask(address, method, path, body=None, fields=None):
    """The answer to a tor's request: code, fields, body."""
    connection = http.client.HTTPConnection(address, timeout=120)
    try:
        connection.request(method, path, body, {**TOR_FIELDS, **(fields or {})})
        response = connection.getresponse()
        return response.status, response.headers, response.read()
    finally:
        connection.close()


class FrontCase(unittest.TestCase):
    """A front over a daemon of stored answers, at the stored moment."""

    def setUp(self):
        stack = contextlib.ExitStack()
        self.addCleanup(stack.close)
        self.clock = NOW
        self.replace(front.time, "time", lambda: self.clock)
        self.daemon = stack.enter_context(serving(stored_daemon()))
        self.holdings = Holdings(keep=2)
        self.behind = daemon.Daemon(address_of(self.daemon))
        self.watcher = watcher.Watcher(self.behind, self.holdings)
        self.server = front.Server(("127.0.0.1", 0), self.behind, self.holdings, self.watcher)
        stack.enter_context(serving(self.server))
        self.address = address_of(self.server)

    def replace(self, where, name, value):
        """Another value for the length of a test."""
        self.addCleanup(setattr, where, name, getattr(where, name))
        setattr(where, name, value)

    def code_and_body(self, path, method="GET", body=None):
        """The answer of the front."""
        code, _, text = ask(self.address, method, path, body)
        return code, text


class Requests(FrontCase):
    """What real tors ask."""

    def test_each_stored_request_has_its_answer(self):
        self.watcher.look(CONSENSUS.voting_begins())
        for code, wanted, method, path in stored_requests():
            if path.removesuffix(".z") not in BY_NGINX:
                with self.subTest(path=path):
                    body = stored(POSTED[path]) if method == "POST" else None
                    self.assertEqual(self.code_and_body(path, method, body), (code, wanted))

    def test_a_consensus_says_when_it_was_made_and_for_how_long_nginx_may_hold_it(self):
        self.watcher.look(NOW)
        _, fields, _ = ask(self.address, "GET", "/tor/status-vote/current/consensus.z")
        self.assertEqual(fields["Last-Modified"], front.email.utils.formatdate(CONSENSUS.valid_after, usegmt=True))
        self.assertEqual(fields["X-Accel-Expires"], "2")

    def test_a_consensus_that_too_few_of_the_named_signed_is_not_given_out(self):
        self.watcher.look(NOW)
        ours = sorted(CONSENSUS.signers)[0][:6]
        self.assertEqual(self.code_and_body(f"/tor/status-vote/current/consensus/{ours}.z")[0], 200)
        self.assertEqual(self.code_and_body(f"/tor/status-vote/current/consensus/{ours}+000000.z")[0], 404)
        self.assertEqual(self.code_and_body("/tor/status-vote/current/consensus/XYZ.z")[0], 404)

    def test_what_is_no_path_is_not_found(self):
        self.watcher.look(NOW)
        digest = "A" * 40
        for path in (
            "/",
            "/tor/server/d/",
            "/tor/server/d/XYZ",
            "/tor/server/d/" + "+".join(f"{number:040X}" for number in range(97)),
            f"/tor/status-vote/next/{digest}+{digest}0",
            "/tor/keys/fp-sk/" + digest,
            "/tor/keys/all/" + digest,
            "/tor/micro/d/" + "A" * 42,
            "/tor/extra/d/" + digest,
        ):
            with self.subTest(path=path):
                self.assertEqual(self.code_and_body(path), (404, b""))


class Held(FrontCase):
    """What is held while the daemon has it no more."""

    def test_a_consensus_is_given_out_until_its_valid_until_and_no_longer(self):
        self.watcher.look(NOW)
        self.daemon.documents.clear()
        self.watcher.look(CONSENSUS.valid_until + 1)
        for moment, code in ((CONSENSUS.valid_until - 1, 200), (CONSENSUS.valid_until, 404)):
            self.clock = moment
            self.assertEqual(self.code_and_body("/tor/status-vote/current/consensus")[0], code)

    def test_certificates_and_named_descriptors_stay(self):
        self.watcher.look(CONSENSUS.voting_begins())
        self.daemon.documents.clear()
        self.watcher.look(CONSENSUS.voting_begins() + 2)
        _, text = self.code_and_body("/tor/keys/all")
        self.assertEqual(len(directory_documents.certificates(text)), 3)
        server = directory_documents.named_servers(stored("consensus"))[0]
        micro = directory_documents.named_microdescriptors(stored("consensus-microdesc"))[0]
        for path in (f"/tor/server/d/{server}", f"/tor/micro/d/{micro}"):
            self.assertEqual(self.code_and_body(path)[0], 200)

    def test_a_vote_may_name_two_microdescriptors_of_a_relay(self):
        vote = f"m 32,33,34 sha256={'A' * 43}\nm 35 sha256={'B' * 43}\n".encode("ascii")
        self.assertEqual(directory_documents.named_microdescriptors(vote), ["A" * 43, "B" * 43])

    def test_an_expired_certificate_goes(self):
        self.holdings.take_certificates(stored("certificates"), NOW)
        self.assertEqual(len(self.holdings.newest_certificates()), 3)
        self.holdings.take_certificates(b"", NOW + 400 * 86400)
        self.assertEqual(self.holdings.newest_certificates(), {})

    def test_what_was_named_long_ago_goes(self):
        shelf = self.holdings.servers
        shelf.seen = {"a": b"1", "b": b"2"}
        shelf.name(["a"], 1)
        shelf.seen = {}
        shelf.name([], 3)
        self.assertEqual((shelf.find("a"), shelf.find("b")), (b"1", None))
        shelf.name([], 4)
        self.assertIsNone(shelf.find("a"))

    def test_what_is_stored_outlives_the_front(self):
        self.watcher.look(CONSENSUS.voting_begins())
        with tempfile.TemporaryDirectory() as folder:
            self.holdings.store(pathlib.Path(folder), 0)
            again = Holdings(keep=2)
            again.load(pathlib.Path(folder), NOW)
        self.assertEqual(again.consensus("consensus", [], NOW).text, stored("consensus"))
        self.assertEqual(again.newest_certificates(), self.holdings.newest_certificates())
        for digest in directory_documents.named_servers(stored("consensus")):
            self.assertEqual(again.servers.find(digest), self.holdings.servers.find(digest))

    def test_an_older_consensus_does_not_take_the_place_of_a_newer_one(self):
        self.holdings.take_consensus("consensus", stored("consensus"))
        older = stored("consensus").replace(b"\nvalid-after 2", b"\nvalid-after 1", 1)
        self.assertFalse(self.holdings.take_consensus("consensus", older))
        self.assertEqual(self.holdings.consensus("consensus", [], NOW).text, stored("consensus"))

    def test_the_daemon_is_not_asked_for_what_can_not_be_new(self):
        self.watcher.look(NOW)
        self.daemon.asked.clear()
        self.watcher.look(NOW + 2)
        self.assertEqual(self.daemon.asked, [])
        self.watcher.look(CONSENSUS.fresh_until)
        self.assertIn("/tor/status-vote/current/consensus", self.daemon.asked)

    def test_who_asks_for_nothing_that_is_there_costs_one_look(self):
        self.watcher.look(NOW)
        self.daemon.asked.clear()
        for number in range(5):
            self.code_and_body(f"/tor/server/d/{number:040X}")
        self.assertEqual(self.daemon.asked, ["/tor/server/all"])


class Posts(FrontCase):
    """What is brought to the daemon."""

    def test_the_extra_info_document_is_cut_off(self):
        self.assertEqual(self.code_and_body("/tor/", "POST", stored("upload")), (200, b"kept\n"))
        ((_, body),) = self.daemon.posted
        self.assertTrue(stored("upload").startswith(body))
        self.assertTrue(body.endswith(b"-----END SIGNATURE-----\n"))
        self.assertNotIn(b"\nextra-info ", body)

    def test_signatures_that_come_too_early_are_brought_again(self):
        self.daemon.post_answers[:] = [(400, b"not-computed\n"), (200, b"taken 2 of 2\n")]
        answer = self.code_and_body("/tor/post/consensus-signature", "POST", b"x")
        self.assertEqual((answer, len(self.daemon.posted)), ((200, b"taken 2 of 2\n"), 2))

    def test_what_meets_a_fault_of_the_key_service_is_brought_again(self):
        self.daemon.post_answers[:] = [(503, b"")]
        answer = self.code_and_body("/tor/post/vote", "POST", b"x")
        self.assertEqual((answer, len(self.daemon.posted)), ((200, b"kept\n"), 2))
        self.replace(daemon, "FAILED", 0.4)
        self.daemon.post_answers[:] = [(503, b"")] * 9
        self.assertEqual(self.code_and_body("/tor/post/vote", "POST", b"x"), (503, b""))

    def test_the_word_of_a_refusal_stands_behind_the_code(self):
        for code, body, reason in ((400, b"late\n", "late"), (400, b"x y\n", "Bad Request"), (200, b"kept\n", "OK")):
            self.daemon.post_answers[:] = [(code, body)]
            connection = http.client.HTTPConnection(self.address, timeout=20)
            self.addCleanup(connection.close)
            connection.request("POST", "/tor/post/vote", b"x")
            answer = connection.getresponse()
            self.assertEqual((answer.status, answer.reason, answer.read()), (code, reason, body))

    def test_no_signature_is_no_document(self):
        path = "/tor/status-vote/next/consensus-signatures"
        self.daemon.documents[path] = stored("signatures").partition(b"additional-signature")[0]
        self.assertEqual(self.code_and_body(path), (404, b""))
        self.daemon.documents[path] = stored("signatures")
        self.assertEqual(self.code_and_body(path), (200, stored("signatures")))

    def test_signatures_that_come_too_early_for_long_are_refused(self):
        self.replace(daemon, "NOT_COMPUTED", 0.4)
        self.daemon.post_answers[:] = [(400, b"not-computed\n")] * 9
        self.assertEqual(self.code_and_body("/tor/post/consensus-signature", "POST", b"x"), (400, b"not-computed\n"))

    def test_a_post_waits_for_a_daemon_that_is_started_anew(self):
        with socket.create_server(("127.0.0.1", 0)) as free:
            port = free.getsockname()[1]
        self.behind.address = f"127.0.0.1:{port}"
        answers = []
        waiting = threading.Thread(target=lambda: answers.append(self.code_and_body("/tor/", "POST", stored("upload"))))
        with contextlib.redirect_stderr(io.StringIO()) as told:
            waiting.start()
            time.sleep(0.6)
            again = http.server.ThreadingHTTPServer(("127.0.0.1", port), Stored)
            again.documents, again.asked, again.posted, again.post_answers = {}, [], [], []
            with serving(again):
                waiting.join(20)
        self.assertEqual(answers, [(200, b"kept\n")])
        here = f"front: the daemon at 127.0.0.1:{port}"
        self.assertEqual(told.getvalue(), f"{here} does not answer\n{here} answers again\n")

    def test_a_post_to_nobody_is_answered_at_last(self):
        self.replace(daemon, "AWAY", 0.4)
        self.behind.address = "127.0.0.1:1"
        with contextlib.redirect_stderr(io.StringIO()):
            self.assertEqual(self.code_and_body("/tor/post/vote", "POST", b"x"), (502, b""))

    def test_limits_of_posts(self):
        for path, body, fields, code in (
            ("/tor/", b"", {"Content-Length": "131073"}, 413),
            ("/tor/", b"", {"Content-Length": "-1"}, 411),
            ("/tor/post/other", b"x", {}, 404),
        ):
            with self.subTest(path=path, code=code):
                self.assertEqual(ask(self.address, "POST", path, body, fields)[0], code)
        self.assertEqual(self.daemon.posted, [])


# What nginx asks the daemon for.
BY_NGINX = ("/tor/server/all",)

# What a real tor posts at each path.
POSTED = {"/tor/": "upload", "/tor/post/vote": "auth2.vote", "/tor/post/consensus-signature": "signatures"}


def stored_requests():
    """The stored requests: the code, the body that must come, the method and the path."""
    found = {}
    for name in ("consensus", "consensus-microdesc", "auth1.vote", "auth2.vote", "auth3.vote", "servers", "signatures"):
        found[name] = stored(name)
    for digest, text in directory_documents.server_descriptors(stored("servers")).items():
        found["server-" + digest] = text
    for digest, text in directory_documents.microdescriptors(stored("micros")).items():
        found["micro-" + digest] = text
    for each in directory_documents.certificates(stored("certificates")):
        found["certificate-" + each.fingerprint] = each.text
    for line in (STORED / "requests").read_text("ascii").splitlines():
        code, names, method, path = line.split(" ")
        bodies = [found[name] if name in found else name.encode("ascii") + b"\n" for name in names.split(",")]
        yield int(code), b"" if names == "-" else b"".join(bodies), method, path


class Words(unittest.TestCase):
    """The command lines."""

    def told(self, program, *words):
        """The status and the lines that a program tells."""
        words = [sys.executable, str(HERE / program), *words]
        done = subprocess.run(words, capture_output=True, check=False, timeout=300)
        return done.returncode, done.stderr.decode("utf-8")

    def test_what_is_wrong_is_told_in_a_line(self):
        front_words = ["--listen", "127.0.0.1:0", "--daemon", "127.0.0.1:1"]
        wanted = ["--listen", "127.0.0.1:80", "--daemon", "127.0.0.1:1", "--front", "127.0.0.1:2"]
        no_folder = "front: /none is no folder that it may write to\n"
        no_pair = "front: --authorities and --verifier go together\n"
        both, no_file = ["--verifier", "x", "--authorities"], "front: /none: No such file or directory\n"
        no_line = "configure: /dev/null: no authority line with an address\n"
        for program, words, line in (
            ("front.py", front_words, "front: 127.0.0.1:0 is no IP:PORT\n"),
            ("front.py", ["--listen", "127.0.0.1:1", "--daemon", "x"], "front: x is no IP:PORT\n"),
            ("front.py", ["--listen", "127.0.0.1:9", "--daemon", "x:1", "--store", "/none"], no_folder),
            ("front.py", [*front_words[2:], "--listen", "127.0.0.1:9", "--verifier", "x"], no_pair),
            ("front.py", ["--listen", "127.0.0.1:9", "--daemon", "x:1", *both, "/none"], no_file),
            ("configure.py", [*wanted, "--station", "/none"], "configure: /none: No such file or directory\n"),
            ("configure.py", [*wanted, "--station", "/dev/null"], no_line),
            ("configure.py", [*wanted, "--free", "host"], "configure: host is no IP address\n"),
            ("configure.py", wanted[:4], "configure: --daemon and --front go together\n"),
            ("configure.py", wanted[:2], "configure: say --daemon and --front, or --mirror and --authority\n"),
            ("configure.py", [*wanted, "--measuring", "127.0.0.1"], "configure: 127.0.0.1 is no IP:PORT\n"),
        ):
            with self.subTest(line=line):
                self.assertEqual(self.told(program, *words), (1, line))


if __name__ == "__main__":
    unittest.main()
