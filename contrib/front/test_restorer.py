#!/usr/bin/env python3
"""Tests of what the front brings to a daemon that was started anew: `python3 -m unittest` in this folder."""
import contextlib
import io
import pathlib
import socket
import subprocess
import sys
import tempfile
import time
import unittest

import watcher
from directory_documents import descriptor_of, newest_descriptors
from holdings import Holdings
from relays import OLDEST
from restorer import BEFORE_VOTING, Restorer
from test_front import CONSENSUS, HERE, NOW, FrontCase, Stored, address_of, ask, stored

ALL = newest_descriptors(stored("servers"))

FIRST = min(ALL)


class Pool(Stored):
    """A daemon that keeps the descriptors that it is given, but for those of relays that it rejects."""

    def do_POST(self):  # pylint: disable=invalid-name
        """Takes a descriptor."""
        body = self.rfile.read(int(self.headers["Content-Length"]))
        found = descriptor_of(body)
        self.server.posted.append(found.fingerprint)
        if found.fingerprint in self.server.rejected:
            self.answer(b"rejected\n", 400)
        elif self.server.fails:
            self.answer(b"", 503)
        else:
            self.server.documents["/tor/server/fp/" + found.fingerprint] = body
            texts = [text for path, text in self.server.documents.items() if path.startswith("/tor/server/fp/")]
            self.server.documents["/tor/server/all"] = b"".join(texts)
            self.answer(b"kept\n")


class RestorerCase(FrontCase):
    """A front that has the descriptors of all relays, and a daemon that was started anew without them."""

    def setUp(self):
        super().setUp()
        self.daemon.RequestHandlerClass = Pool
        self.daemon.rejected, self.daemon.fails = set(), False
        self.daemon.documents = {}
        self.holdings.take_relays(stored("servers"), NOW)
        self.restorer = Restorer(self.behind, self.holdings)

    def look(self, now=NOW):
        """A look: what it tells."""
        with contextlib.redirect_stderr(io.StringIO()) as told:
            self.restorer.look(now)
        return told.getvalue()

    def test_a_daemon_that_came_back_is_brought_all(self):
        self.assertEqual(self.look(), f"front: the daemon lacked {len(ALL)} descriptors: took {len(ALL)}\n")
        self.assertEqual(newest_descriptors(self.daemon.documents["/tor/server/all"]), ALL)

    def test_what_it_has_is_not_brought_again(self):
        self.look()
        self.daemon.posted.clear()
        self.assertEqual((self.look(), self.look(), self.daemon.posted), ("", "", []))

    def test_one_that_comes_back_between_two_looks_is_noticed(self):
        self.look()
        self.daemon.documents.clear()
        self.daemon.posted.clear()
        self.look()
        self.assertEqual(sorted(self.daemon.posted), sorted(ALL))

    def test_one_that_has_an_older_descriptor_is_brought_the_newer(self):
        self.look()
        path = "/tor/server/fp/" + FIRST
        for each in (path, "/tor/server/all"):
            newer = self.daemon.documents[each]
            self.daemon.documents[each] = newer.replace(b"\npublished 20", b"\npublished 19")
        self.daemon.posted.clear()
        self.restorer.must_look = True
        self.look()
        self.assertIn(FIRST, self.daemon.posted)

    def test_before_the_voting_all_are_looked_at_once_more(self):
        self.holdings.take_consensus("consensus", stored("consensus"))
        self.look()
        self.daemon.asked.clear()
        moment = CONSENSUS.voting_begins()
        self.look(moment - BEFORE_VOTING - 1)
        self.assertNotIn("/tor/server/all", self.daemon.asked)
        self.look(moment - BEFORE_VOTING)
        self.look(moment - BEFORE_VOTING + 2)
        self.assertEqual(self.daemon.asked.count("/tor/server/all"), 1)

    def test_what_it_rejects_is_brought_once(self):
        self.daemon.rejected.add(FIRST)
        self.assertIn("refused 1", self.look())
        self.look()
        self.assertEqual(self.daemon.posted.count(FIRST), 1)

    def test_what_it_can_not_take_now_is_brought_again(self):
        self.daemon.fails = True
        self.look()
        self.assertEqual(len(self.daemon.posted), 1)
        self.daemon.fails = False
        self.assertIn(f"took {len(ALL)}", self.look())

    def test_a_daemon_that_is_away_is_brought_all_when_it_is_back(self):
        self.look()
        there = self.behind.address
        self.behind.address = "127.0.0.1:1"
        self.assertIn("does not answer", self.look())
        self.behind.address = there
        self.daemon.documents.clear()
        self.assertIn(f"took {len(ALL)}", self.look())

    def test_what_relays_upload_is_brought_too(self):
        self.holdings.relays.held.clear()
        self.assertEqual(self.code_and_body("/tor/", "POST", stored("upload")), (200, b"kept\n"))
        self.daemon.documents.clear()
        self.look()
        uploaded = newest_descriptors(stored("upload"))
        self.assertEqual(newest_descriptors(self.daemon.documents["/tor/server/all"]), uploaded)
        self.assertEqual(newest_descriptors(self.code_and_body("/tor/server/all")[1]), uploaded)


class Program(FrontCase):
    """The program, with a store."""

    def test_what_was_uploaded_last_is_stored_when_it_is_stopped(self):
        with socket.create_server(("127.0.0.1", 0)) as free, tempfile.TemporaryDirectory() as store:
            address = "127.0.0.1:%d" % free.getsockname()[1]
            free.close()
            self.daemon.documents.clear()
            text = stored("upload").replace(b"\npublished 2026-11", b"\npublished 2199-11")
            words = ["--listen", address, "--daemon", address_of(self.daemon), "--store", store]
            program = subprocess.Popen([sys.executable, HERE / "front.py", *words], stderr=subprocess.DEVNULL)
            self.addCleanup(program.wait)
            self.addCleanup(program.kill)
            self.assertEqual(self.posted(address, text), (200, b"kept\n"))
            program.terminate()
            self.assertEqual(program.wait(), 0)
            found = newest_descriptors((pathlib.Path(store) / "relays").read_bytes())
        self.assertEqual(found, newest_descriptors(text))

    def posted(self, address, text):
        """The answer to an upload, once the program listens."""
        for _ in range(600):
            with contextlib.suppress(OSError):
                code, _, body = ask(address, "POST", "/tor/", text)
                return code, body
            time.sleep(0.1)
        self.fail("the front does not listen")


class Held(unittest.TestCase):
    """The newest descriptor of each relay."""

    def test_they_outlive_the_front(self):
        holdings = Holdings(keep=2)
        holdings.take_relays(stored("servers"), NOW)
        with tempfile.TemporaryDirectory() as room:
            folder = pathlib.Path(room)
            holdings.store(folder, 100)
            again = Holdings(keep=2)
            again.load(folder, NOW)
        self.assertEqual(again.relays.held, ALL)

    def test_the_newest_is_held_for_two_days(self):
        holdings = Holdings(keep=2)
        older = stored("servers").replace(b"\npublished 20", b"\npublished 19")
        holdings.take_relays(stored("servers"), NOW)
        holdings.take_relays(older, NOW)
        self.assertEqual(holdings.relays.held, ALL)
        holdings.take_relays(b"", max(each.published for each in ALL.values()) + OLDEST + 1)
        self.assertEqual(holdings.relays.held, {})

    def test_a_full_disk_loses_nothing_that_there_is_room_for_later(self):
        holdings = Holdings(keep=2)
        holdings.take_relays(stored("servers"), NOW)
        holdings.take_consensus("consensus", stored("consensus"))
        with tempfile.TemporaryDirectory() as room:
            folder = pathlib.Path(room)
            for name in ("relays", "consensus"):
                (folder / f"{name}.new").mkdir()
            with self.assertRaises(OSError):
                holdings.store(folder, 100)
            for name in ("relays", "consensus"):
                (folder / f"{name}.new").rmdir()
            holdings.store(folder, 101)
            self.assertEqual((folder / "consensus").read_bytes(), stored("consensus"))
            self.assertEqual(newest_descriptors((folder / "relays").read_bytes()), ALL)

    def test_a_disk_that_is_full_for_a_while(self):
        holdings = Holdings(keep=2)
        holdings.take_relays(stored("servers"), NOW)
        look = watcher.Watcher(None, holdings)
        with small_disk(self) as folder:
            (folder / "other").write_bytes(bytes(60_000))
            told = [self.told(look, folder, now) for now in (100, 102)]
            line = f"front: what is held can not be stored: {folder}/relays: No space left on device\n"
            self.assertEqual((told, [each.name for each in folder.iterdir()]), ([line, ""], ["other"]))
            (folder / "other").unlink()
            self.assertEqual(self.told(look, folder, 104), "")
            self.assertEqual(newest_descriptors((folder / "relays").read_bytes()), ALL)

    def told(self, look, folder, now):
        """What is told where all is stored."""
        with contextlib.redirect_stderr(io.StringIO()) as told:
            look.store(folder, now)
        return told.getvalue()


@contextlib.contextmanager
def small_disk(case):
    """A folder that has a disk of its own of 64 kilobytes."""
    with tempfile.TemporaryDirectory() as room:
        words = ["mount", "-t", "tmpfs", "-o", "size=64k", "tmpfs", room]
        if subprocess.run(words, stderr=subprocess.DEVNULL, check=False).returncode:
            case.skipTest("no tmpfs can be mounted")
        try:
            yield pathlib.Path(room)
        finally:
            subprocess.run(["umount", room], check=True)


if __name__ == "__main__":
    unittest.main()
