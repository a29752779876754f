#!/usr/bin/env python3
"""Tests of the front behind nginx, where that is installed: `python3 -m unittest` in this folder."""
import contextlib
import http.client
import http.server
import io
import os
import pathlib
import shutil
import socket
import subprocess
import tempfile
import threading
import time
import unittest

import configure
import daemon
import directory_documents
import front
from test_front import CONSENSUS, NOW, POSTED, FrontCase, Stored, address_of, ask, serving, stored, stored_requests

CURRENT = "/tor/status-vote/current/consensus-microdesc"


def started(case, text):
    """Starts nginx with a configuration for the length of a test."""
    folder = tempfile.TemporaryDirectory()
    case.addCleanup(folder.cleanup)
    (pathlib.Path(folder.name) / "nginx.conf").write_text(text, "ascii")
    words = ["nginx", "-p", folder.name, "-c", f"{folder.name}/nginx.conf", "-e", f"{folder.name}/error.log"]
    words += ["-g", "user root;"] if os.geteuid() == 0 else []
    subprocess.run([*words, "-t", "-q"], check=True)
    process = subprocess.Popen(words, stderr=subprocess.DEVNULL)
    case.addCleanup(process.wait)
    case.addCleanup(process.terminate)


def free_address():
    """An address at which nobody listens."""
    with socket.create_server(("127.0.0.1", 0)) as free:
        return "127.0.0.1:%d" % free.getsockname()[1]


def wait(case, address):
    """Waits until nginx answers."""
    for _ in range(200):
        with contextlib.suppress(OSError):
            ask(address, "GET", "/")
            return
        time.sleep(0.05)
    case.fail("nginx does not answer")


@unittest.skipIf(shutil.which("nginx") is None, "nginx is not installed")
class Nginx(FrontCase):
    """The same through nginx."""

    def setUp(self):
        super().setUp()
        self.address = free_address()
        more = {"daemon": address_of(self.daemon), "front": address_of(self.server), "measuring": "127.0.0.1:1"}
        started(self, configure.configuration([self.address], ["127.0.0.0/8"], **more))
        wait(self, self.address)

    def test_each_stored_request_has_its_answer(self):
        self.watcher.look(CONSENSUS.voting_begins())
        for code, wanted, method, path in stored_requests():
            with self.subTest(path=path):
                body = stored(POSTED[path]) if method == "POST" else None
                answer, fields, text = ask(self.address, method, path, body, {"Accept-Encoding": "identity"})
                self.assertEqual((answer, text if code == 200 else b""), (code, wanted))
                self.assertEqual(fields["X-Your-Address-Is"], "127.0.0.1")

    def test_who_has_the_consensus_is_told_so(self):
        self.watcher.look(NOW)
        date = front.email.utils.formatdate(CONSENSUS.valid_after, usegmt=True)
        path = "/tor/status-vote/current/consensus-microdesc.z"
        self.assertEqual(ask(self.address, "GET", path, None, {"If-Modified-Since": date})[0], 304)
        before = front.email.utils.formatdate(CONSENSUS.valid_after - 1, usegmt=True)
        self.assertEqual(ask(self.address, "GET", path, None, {"If-Modified-Since": before})[0], 200)

    def test_a_tor_is_answered_compressed(self):
        self.watcher.look(NOW)
        _, fields, body = ask(self.address, "GET", "/tor/status-vote/current/consensus.z")
        self.assertEqual(fields["Content-Encoding"], "gzip")
        self.assertLess(len(body), len(stored("consensus")))

    def test_a_vote_goes_by_the_front_where_the_daemon_is_away(self):
        self.daemon.shutdown()
        self.daemon.server_close()
        self.replace(daemon, "AWAY", 0.4)
        with contextlib.redirect_stderr(io.StringIO()):
            self.assertEqual(ask(self.address, "POST", "/tor/post/vote", stored("auth2.vote"))[0], 502)
        self.assertFalse(self.behind.is_there)

    def test_the_word_of_a_refusal_comes_through(self):
        self.daemon.post_answers[:] = [(400, b"late\n")]
        connection = http.client.HTTPConnection(self.address, timeout=20)
        self.addCleanup(connection.close)
        connection.request("POST", "/tor/post/vote", stored("auth2.vote"))
        answer = connection.getresponse()
        self.assertEqual((answer.status, answer.reason, answer.read()), (400, "late", b"late\n"))


class Mirror(Stored):
    """A mirror of stored documents, which may be busy."""

    def do_GET(self):  # pylint: disable=invalid-name
        """Answers once it is not busy."""
        self.server.is_free.wait(30)
        super().do_GET()


@unittest.skipIf(shutil.which("nginx") is None, "nginx is not installed")
class BeforeMirror(FrontCase):
    """A mirror and, for all else, an authority, behind nginx."""

    def setUp(self):
        super().setUp()
        stack = contextlib.ExitStack()
        self.addCleanup(stack.close)
        mirror = http.server.ThreadingHTTPServer(("127.0.0.1", 0), Mirror)
        mirror.is_free = threading.Event()
        mirror.is_free.set()
        self.addCleanup(mirror.is_free.set)
        mirror.handle_error = lambda *_: None
        mirror.asked, found = [], directory_documents.microdescriptors(stored("micros"))
        mirror.documents = {f"/tor/micro/d/{digest}": text for digest, text in found.items()}
        mirror.documents[CURRENT] = stored("consensus-microdesc")
        mirror.documents["/tor/keys/all"] = stored("certificates")
        self.mirror = stack.enter_context(serving(mirror))
        self.address = free_address()
        more = {"mirror": address_of(mirror), "authority": address_of(self.daemon)}
        text = configure.configuration([self.address], ["127.0.0.0/8"], **more)
        started(self, text.replace("proxy_cache_valid 200 10s", "proxy_cache_valid 200 1s"))
        wait(self, self.address)
        self.daemon.asked.clear()

    def test_what_the_mirror_has_is_asked_of_it_with_z_and_with_lists(self):
        consensus, certificates = stored("consensus-microdesc"), stored("certificates")
        digest, micro = next(iter(directory_documents.microdescriptors(stored("micros")).items()))
        for path, wanted in (
            (CURRENT, consensus),
            (CURRENT + ".z", consensus),
            (CURRENT + "/815861+9AB286+A2F1CC.z", consensus),
            ("/tor/keys/all.z", certificates),
            (f"/tor/micro/d/{digest}.z", micro),
        ):
            self.assertEqual(self.code_and_identity(path), (200, wanted))
        self.assertEqual(self.daemon.asked, [])

    def code_and_identity(self, path, method="GET", body=None):
        """The answer without compression."""
        code, fields, text = ask(self.address, method, path, body, {"Accept-Encoding": "identity"})
        self.assertEqual(fields["X-Your-Address-Is"], "127.0.0.1")
        return code, text

    def test_all_else_goes_to_the_authority(self):
        path = "/tor/status-vote/next/authority"
        self.assertEqual(self.code_and_identity(path), (200, stored("auth1.vote")))
        self.assertEqual(self.code_and_identity("/tor/post/vote", "POST", stored("auth2.vote")), (200, b"kept\n"))
        self.assertEqual(self.daemon.posted, [("/tor/post/vote", stored("auth2.vote"))])
        self.assertEqual(self.code_and_identity("/tor/keys/fp/" + "A" * 40 + ".z")[0], 404)
        self.assertEqual(self.mirror.asked, [])

    def test_what_the_mirror_has_not_is_asked_of_the_authority(self):
        self.mirror.documents.clear()
        self.assertEqual(self.code_and_identity("/tor/keys/all"), (200, stored("certificates")))
        self.assertEqual(self.daemon.asked, ["/tor/keys/all"])
        self.mirror.shutdown()
        self.mirror.server_close()
        self.assertEqual(self.code_and_identity(CURRENT), (200, stored("consensus-microdesc")))

    def test_while_it_is_busy_what_it_answered_last_is_given_out(self):
        self.assertEqual(self.code_and_identity(CURRENT + ".z"), (200, stored("consensus-microdesc")))
        self.mirror.is_free.clear()
        self.daemon.documents.clear()
        for _ in range(3):
            time.sleep(1.2)
            begun = time.monotonic()
            self.assertEqual(self.code_and_identity(CURRENT), (200, stored("consensus-microdesc")))
            self.assertLess(time.monotonic() - begun, 4.5)
        self.assertEqual(self.code_and_identity("/tor/keys/all")[0], 404)

    def test_a_tor_is_answered_compressed(self):
        self.mirror.RequestHandlerClass = type("Typed", (Mirror,), {"end_headers": plain_text})
        _, fields, body = ask(self.address, "GET", CURRENT + ".z")
        self.assertEqual(fields["Content-Encoding"], "gzip")
        self.assertLess(len(body), len(stored("consensus-microdesc")))


def plain_text(handler):
    """Ends a head that says, as a mirror does, that the document is a text."""
    handler.send_header("Content-Type", "text/plain")
    Mirror.end_headers(handler)


if __name__ == "__main__":
    unittest.main()
