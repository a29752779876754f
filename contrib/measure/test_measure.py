#!/usr/bin/env python3
"""Tests of the renewal of a station input: `python3 -m unittest` in this folder. They need no network but loopback."""
import contextlib
import http.server
import io
import pathlib
import subprocess
import sys
import tempfile
import threading
import time
import unittest

HERE = pathlib.Path(__file__).resolve().parent
sys.path.insert(0, str(HERE))

import renew  # pylint: disable=wrong-import-position

FIRST, SECOND, THIRD = "00" * 20, "11" * 20, "22" * 20

STATION = f"""station 1
own auth1 {THIRD} auth1.example 192.0.2.1 80 443
contact operator \udcff
schedule %d 20 20
authority {THIRD} 192.0.2.1:80
rule badexit {FIRST}
measured {FIRST} 1 2 3 4 900
measured {SECOND} 1 2 3 4 -
end-station
router old
""".encode("utf-8", "surrogateescape")

# A relay that runs, one that does not and was not in the old input, and one of which nothing was measured.
VOTE = """network-status-version 3
vote-status vote
published %s
known-flags Fast Running Stable Valid
dir-source measuring 3333333333333333333333333333333333333333 192.0.2.9 192.0.2.9 9930 9901
r relay1 AAAAAAAAAAAAAAAAAAAAAAAAAAA AAAAAAAAAAAAAAAAAAAAAAAAAAA 2026-01-01 00:00:00 192.0.2.11 5001 0
s Fast Running Stable Valid
w Bandwidth=400
stats wfu=0.987654 tk=800000 mtbf=70000
r relay2 IiIiIiIiIiIiIiIiIiIiIiIiIiI AAAAAAAAAAAAAAAAAAAAAAAAAAA 2026-01-01 00:00:00 192.0.2.12 5001 0
s Valid
stats wfu=1.000000 tk=60 mtbf=0
r relay3 EREREREREREREREREREREREREREP AAAAAAAAAAAAAAAAAAAAAAAAAAA 2026-01-01 00:00:00 192.0.2.13 5001 0
s Running Valid
directory-footer
stats wfu=1.000000 tk=60 mtbf=0
"""

DESCRIPTORS = b"router relay1 192.0.2.11 5001 0 0\nrouter relay2 192.0.2.12 5001 0 0\n"


class Stored(http.server.BaseHTTPRequestHandler):
    """What has stored answers."""

    def do_GET(self):  # pylint: disable=invalid-name
        """Answers what it has."""
        body = self.server.documents.get(self.path)
        self.send_response_only(404 if body is None else 200)
        self.send_header("Content-Length", str(len(body or b"")))
        self.end_headers()
        self.wfile.write(body or b"")

    def log_message(self, format, *args):  # pylint: disable=redefined-builtin
        """Nothing is told."""


def renewed(station, vote, descriptors, bandwidth=None):
    """The new input by a vote."""
    measured = renew.measured_anew(vote, renew.own_lines(station)[1])
    return renew.renewed(station, measured, descriptors, bandwidth)


def measured(station):
    """The `measured` lines of an input."""
    return renew.own_lines(station)[1]


class Lines(unittest.TestCase):
    """What is made of a vote and an old input."""

    def test_measured_lines_are_of_the_vote_and_the_kilobytes_stay(self):
        text = renewed(STATION % 300, VOTE % "2026-01-01 00:00:00", DESCRIPTORS)
        self.assertEqual(
            measured(text),
            [f"measured {FIRST} 1767225600 70000 987654 800000 900", f"measured {THIRD} 0 0 1000000 60 -"],
        )
        self.assertIn(b"\nmeasured-at 1767225600\n", text)

    def test_all_else_stays_as_it_was(self):
        text = renewed(STATION % 300, VOTE % "2026-01-01 00:00:00", DESCRIPTORS)
        front, _, _ = (STATION % 300).partition(b"measured ")
        self.assertTrue(text.startswith(front))
        self.assertTrue(text.endswith(b"end-station\n" + DESCRIPTORS))
        self.assertEqual(text.count(b"\nend-station\n"), 1)

    def test_a_bandwidth_file_stands_in_front_once(self):
        vote = VOTE % "2026-01-01 00:00:00"
        text = renewed(STATION % 300, vote, DESCRIPTORS, b"1\nnode_id=$%s bw=7\n" % FIRST.encode("ascii"))
        again = renewed(text, vote, DESCRIPTORS, b"2\n")
        self.assertTrue(text.startswith(b"1\n"))
        self.assertTrue(again.startswith(b"2\nend-bandwidth-file\nstation 1\n"))
        self.assertEqual(again.count(b"\nmeasured-at "), 1)

    def held(self, station, now, hours=6):
        """What is held of an input."""
        with contextlib.redirect_stderr(io.StringIO()):
            return renew.measured_before(station, measured(station), now, hours, "why")

    def test_what_was_reached_last_is_held_as_reached_now(self):
        old = STATION.replace(b" 1 2 3 4 900", b" 10000 2 3 4 900").replace(b" 1 2 3 4 -", b" 7301 2 3 4 -") % 300
        lines = [f"measured {FIRST} 12000 2 3 4 900", f"measured {SECOND} 12000 2 3 4 -"]
        self.assertEqual(self.held(old, 12000), (10000, lines))
        lines[1] = f"measured {SECOND} 7300 2 3 4 -"
        self.assertEqual(self.held(old.replace(b" 7301 ", b" 7300 "), 12000), (10000, lines))

    def test_it_is_held_from_the_last_measurement_on(self):
        old = STATION % 300
        for _ in range(3):
            at, lines = self.held(old, 1 + 6 * 3600)
            old = renew.renewed(old, (at, lines), DESCRIPTORS)
            self.assertEqual(at, 1)
        with self.assertRaises(SystemExit) as ended:
            self.held(old, 2 + 6 * 3600)
        line = "renew: why; what was measured is 21601 seconds old, and 6 hours are held: the old input stays"
        self.assertEqual(str(ended.exception), line)

    def test_what_was_never_measured_is_not_held(self):
        with self.assertRaises(SystemExit) as ended:
            self.held(b"station 1\nend-station\n".replace(b"1\n", b"1\nx\n"), 100)
        self.assertIn("nothing was measured before", str(ended.exception))

    def test_moments(self):
        for place, wait in ((0, 10), (9, 1), (10, 0), (230, 0), (231, 79), (299, 11)):
            self.assertEqual(renew.seconds_to_wait(300, 40, 3000 + place), wait)


class Program(unittest.TestCase):
    """The program over stored answers."""

    def setUp(self):
        folder = tempfile.TemporaryDirectory()
        self.addCleanup(folder.cleanup)
        self.station = pathlib.Path(folder.name) / "station"
        # Around midnight votes are due, for a minute; run_it waits then.
        self.station.write_bytes(STATION % 86400)
        self.station.chmod(0o640)
        self.server = http.server.ThreadingHTTPServer(("127.0.0.1", 0), Stored)
        threading.Thread(target=self.server.serve_forever, kwargs={"poll_interval": 0.05}, daemon=True).start()
        self.addCleanup(self.server.server_close)
        self.addCleanup(self.server.shutdown)
        vote = VOTE % time.strftime("%Y-%m-%d %H:%M:%S", time.gmtime(time.time() - 60))
        self.server.documents = {renew.VOTES[1]: vote.encode("ascii"), "/tor/server/all": DESCRIPTORS}

    def run_it(self, *words):
        """The status, and what it tells."""
        address = "%s:%d" % self.server.server_address
        given = ["--wait", "--station", str(self.station), "--measuring", address, "--daemon", address, *words]
        words = [sys.executable, str(HERE / "renew.py"), *given]
        done = subprocess.run(words, capture_output=True, check=False, timeout=300)
        return done.returncode, (done.stdout + done.stderr).decode("utf-8")

    def must_say(self, line, *words):
        """The input stays, and the line is told."""
        before = self.station.read_bytes() if self.station.exists() else None
        self.assertEqual(self.run_it(*words), (1, line + "\n"))
        self.assertEqual(self.station.read_bytes() if self.station.exists() else None, before)

    def test_a_new_input_takes_the_place_of_the_old_one(self):
        status, told = self.run_it()
        self.assertEqual((status, told), (0, f"renew: 2 relays are measured, 2 descriptors; {self.station} is new\n"))
        self.assertIn(b" 70000 987654 800000 900\n", self.station.read_bytes())
        self.assertEqual(self.station.stat().st_mode & 0o777, 0o640)
        self.assertEqual([each.name for each in self.station.parent.iterdir()], ["station"])

    def test_a_full_disk_leaves_the_old_input(self):
        with tempfile.TemporaryDirectory() as room:
            words = ["mount", "-t", "tmpfs", "-o", "size=16k", "tmpfs", room]
            if subprocess.run(words, stderr=subprocess.DEVNULL, check=False).returncode:
                self.skipTest("no tmpfs can be mounted")
            try:
                self.on_a_full_disk(pathlib.Path(room))
            finally:
                subprocess.run(["umount", room], check=True)

    def on_a_full_disk(self, folder):
        """The old input stays while there is no room, and a new one takes its place when there is."""
        self.station = folder / "station"
        self.station.write_bytes(STATION % 86400)
        (folder / "other").write_bytes(bytes(12_288))
        self.must_say(f"renew: {self.station}: No space left on device")
        self.assertEqual(sorted(each.name for each in folder.iterdir()), ["other", "station"])
        (folder / "other").unlink()
        self.assertEqual(self.run_it()[0], 0)

    def test_a_daemon_that_is_away(self):
        line = "renew: 127.0.0.1:1 does not answer: [Errno 111] Connection refused"
        self.must_say(line, "--daemon", "127.0.0.1:1", "--hold", "0")

    def test_a_daemon_that_has_no_descriptors_keeps_those_that_it_was_started_with(self):
        del self.server.documents["/tor/server/all"]
        self.assertEqual(self.run_it()[0], 0)
        self.assertTrue(self.station.read_bytes().endswith(b"\nend-station\nrouter old\n"))

    def test_nothing_new_is_measured(self):
        address = "%s:%d" % self.server.server_address
        path, old = renew.VOTES[1], STATION.replace(b" 1 2 3 4 ", b" %d 2 3 4 " % (time.time() - 3600)) % 86400
        young = self.server.documents[path]
        for vote, words, why in (
            (young, ("--measuring", "127.0.0.1:1"), "renew: 127.0.0.1:1 does not answer: "),
            (None, (), f"renew: the measuring authority at {address} has no vote yet; "),
            (young.replace(b"Running Stable Valid\ndir", b"Valid\ndir"), (), "does not tell yet which relays run; "),
            ((VOTE % "2026-01-01 00:00:00").encode("ascii"), (), " seconds old; "),
            (b"nothing", (), "has no published line; "),
            (young.replace(b"published 2", b"published x"), (), "is none: time data 'x"),
            (young.replace(b"stats ", b"other "), (), "tells of no relay what was measured; "),
        ):
            self.server.documents[path] = vote
            self.station.write_bytes(old)
            status, told = self.run_it(*words)
            self.assertEqual(status, 0, told)
            self.assertIn(why, told)
            self.assertRegex(told, r"what was measured [0-9]{4} seconds ago is held, for 6 hours\n")
            self.assertGreater(renew.reached_at(measured(self.station.read_bytes())[0]), time.time() - 60)
            self.station.write_bytes(old)
            status, told = self.run_it(*words, "--hold", "0")
            self.assertEqual((status, self.station.read_bytes(), told.count("\n")), (1, old, 1))
            self.assertIn("and 0 hours are held: the old input stays", told)

    def test_files_that_are_none(self):
        self.must_say("renew: /none: No such file or directory", "--station", "/none")
        self.must_say("renew: /none: No such file or directory", "--bandwidth", "/none")
        self.station.write_bytes(b"schedule 86400 20 20\nx\n")
        self.must_say("renew: it is no station input")
        self.station.write_bytes(b"x\n")
        self.must_say("renew: the station input has no schedule")


if __name__ == "__main__":
    unittest.main()
