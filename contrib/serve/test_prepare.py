#!/usr/bin/env python3
"""Tests of what a daemon is started with, with a program in the place of dirauth: `python3 -m unittest` in this folder."""
import http.server
import pathlib
import stat
import subprocess
import sys
import tempfile
import threading
import time
import unittest
import unittest.mock

HERE = pathlib.Path(__file__).resolve().parent
sys.path[:0] = [str(HERE), str(HERE.parent / "front")]

# pylint: disable=wrong-import-position
import prepare
from directory_documents import newest_descriptors
from test_network import Relay
from datetime import datetime

NOW = datetime(2031, 1, 1)

STATION = b"""station 1
own auth1 0000000000000000000000000000000000000000 auth1.example 192.0.2.1 80 443
schedule 3600 300 300
end-station
"""

# What stands for dirauth: it refuses a descriptor that says so, and an input that says so, and writes down what it was given.
PROGRAM = """#!{python}
import pathlib, re, sys
room, text = pathlib.Path({room!r}), sys.stdin.buffer.read()
with open(room / "runs", "a") as runs:
    runs.write(" ".join(sys.argv[1:]) + chr(10))
if (room / "fault").exists():
    status, line = (room / "fault").read_text().split(" ", 1)
    (room / "fault").unlink()
    print(line, file=sys.stderr)
    sys.exit(int(status))
for number, each in enumerate(re.split(rb"(?m)^(?=router )", text)[1:], 1):
    if b"platform Refused" in each:
        sys.exit(print(f"descriptor {{number}} refused: ed25519", file=sys.stderr) or 6)
"""


class Front(http.server.BaseHTTPRequestHandler):
    """A front of stored answers."""

    def do_GET(self):  # pylint: disable=invalid-name
        """Answers what it has."""
        body = self.server.documents.get(self.path)
        self.send_response_only(404 if body is None else 200)
        self.send_header("Content-Length", str(len(body or b"")))
        self.end_headers()
        self.wfile.write(body or b"")

    def log_message(self, format, *args):  # pylint: disable=redefined-builtin
        """Nothing is told."""


def descriptor(number, now=NOW):
    """The descriptor of a relay."""
    return Relay(number).descriptor(now).encode("ascii")


class Prepares(unittest.TestCase):
    """The input that is made."""

    def setUp(self):
        room = tempfile.TemporaryDirectory()
        self.addCleanup(room.cleanup)
        self.room = pathlib.Path(room.name)
        self.station, self.input = self.room / "station", self.room / "input"
        self.station.write_bytes(STATION + descriptor(1) + descriptor(2))
        self.program = self.room / "dirauth"
        self.program.write_text(PROGRAM.format(python=sys.executable, room=room.name), "ascii")
        self.program.chmod(stat.S_IRWXU)
        self.server = http.server.ThreadingHTTPServer(("127.0.0.1", 0), Front)
        self.server.documents = {}
        threading.Thread(target=self.server.serve_forever, kwargs={"poll_interval": 0.05}, daemon=True).start()
        self.addCleanup(self.server.server_close)
        self.addCleanup(self.server.shutdown)
        self.address = f"127.0.0.1:{self.server.server_port}"

    def told(self, *words, station=None, front=None):
        """The status and what is told."""
        command = [sys.executable, HERE / "prepare.py", "--station", station or self.station, "--input", self.input]
        command += ["--front", front or self.address, "--dirauth", self.program, *words]
        ran = subprocess.run(command, capture_output=True, text=True, check=False, timeout=300)
        self.assertEqual(ran.stdout, "")
        return ran.returncode, ran.stderr

    def behind(self):
        """The descriptors of the input, by relay."""
        text = self.input.read_bytes()
        self.assertTrue(text.startswith(STATION))
        return newest_descriptors(text[len(STATION) :])

    def test_what_the_front_has_is_brought_the_newest_of_each_relay(self):
        newer = descriptor(2, datetime(2031, 1, 2))
        self.server.documents["/tor/server/all"] = newer + descriptor(3)
        line = "prepare: 3 descriptors, and a vote can be made of them\n"
        self.assertEqual(self.told("--", "--newest-method", "35"), (0, line))
        self.assertEqual(self.behind(), newest_descriptors(descriptor(1) + newer + descriptor(3)))
        self.assertEqual((self.room / "runs").read_text("ascii"), "make-vote --newest-method 35\n")

    def test_known_relays_are_first_where_there_is_no_room_for_all(self):
        newest = newest_descriptors(b"".join(descriptor(each, datetime(2031, 1, each)) for each in (1, 2, 3)))
        known, others = {Relay(1).fingerprint}, [Relay(3).fingerprint, Relay(2).fingerprint]
        told, size = [], sum(len(newest[name].text) for name in (*known, others[0]))
        self.addCleanup(setattr, prepare, "tell", prepare.tell)
        prepare.tell = told.append
        for limit, value in (("MOST_RELAYS", 2), ("MOST_BYTES", size)):
            with unittest.mock.patch.object(prepare, limit, value):
                kept = newest_descriptors(b"".join(prepare.chosen(newest, known)))
            self.assertEqual(set(kept), {*known, others[0]})
        self.assertEqual(told, ["1 descriptors are left out: there is no room for more than 2"] * 2)
        self.assertEqual(len(prepare.chosen(newest, known)), 3)

    def test_a_front_that_is_away_is_done_without(self):
        status, told = self.told(front="127.0.0.1:1")
        self.assertEqual(status, 0)
        self.assertIn("prepare: the front at 127.0.0.1:1 does not answer: Connection refused", told)
        self.assertEqual(len(self.behind()), 2)

    def test_a_descriptor_that_is_refused_is_left_out_and_told(self):
        self.server.documents["/tor/server/all"] = descriptor(3).replace(b"platform Tor", b"platform Refused")
        status, told = self.told()
        self.assertEqual(status, 0)
        self.assertIn("the descriptor of relay3 198.51.100.4 is refused (ed25519): left out", told)
        self.assertEqual(self.behind(), newest_descriptors(descriptor(1) + descriptor(2)))

    def test_where_no_vote_can_be_made_no_daemon_is_started(self):
        (self.room / "fault").write_text("12 own certificate refused: expired", "ascii")
        line = "prepare: no vote can be made: own certificate refused: expired\n"
        self.assertEqual((self.told(), self.input.exists()), ((12, line), False))

    def test_a_key_service_that_fails_is_waited_for(self):
        (self.room / "fault").write_text("10 signer fault", "ascii")
        self.addCleanup(setattr, prepare, "TRIES_EVERY", prepare.TRIES_EVERY)
        prepare.TRIES_EVERY = 0.1
        told = []
        prepare.tell = told.append
        trial = prepare.Trial(str(self.program), [], told.append)
        self.assertEqual(prepare.voted(trial, STATION, [descriptor(1)]), [descriptor(1)])
        self.assertEqual(told, ["no vote can be made: signer fault; it is tried again"])

    def test_a_clock_that_went_back_is_waited_for(self):
        voted = b"network-status-version 3\nvalid-after 2031-01-01 01:00:00\n"
        self.server.documents[prepare.OWN_VOTES[1]] = voted.replace(b"01:00:00", b"00:00:00")
        self.server.documents[prepare.OWN_VOTES[0]] = voted
        valid_after = prepare.last_voted(self.address)
        self.assertEqual(time.gmtime(valid_after)[:5], (2031, 1, 1, 1, 0))
        for now, wait in ((-3600, 3001), (-601, 2), (-600, 1), (-599, 0), (0, 0), (3600, 0)):
            self.assertEqual(prepare.seconds_to_wait(STATION, valid_after, valid_after + now), wait)
        self.assertEqual(prepare.seconds_to_wait(STATION, 0, 1), 0)

    def test_what_is_missing_is_told_in_a_line(self):
        other = self.room / "other"
        other.write_bytes(b"nothing\n")
        for station, line in (
            ("/no/station", "prepare: /no/station: No such file or directory\n"),
            (self.room, f"prepare: {self.room}: Is a directory\n"),
            (other, f"prepare: {other}: it is no station input\n"),
        ):
            self.assertEqual(self.told(station=station), (1, line))
        self.input = pathlib.Path("/no/folder/input")
        self.assertEqual(self.told(), (1, "prepare: /no/folder/input: No such file or directory\n"))
        self.program.unlink()
        self.assertEqual(self.told(), (1, f"prepare: {self.program}: No such file or directory\n"))


if __name__ == "__main__":
    unittest.main()
