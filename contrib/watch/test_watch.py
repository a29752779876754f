#!/usr/bin/env python3
"""Tests of the watch over stored answers: `python3 -m unittest` in this folder. They need no network but loopback."""
import argparse
import http.server
import pathlib
import subprocess
import sys
import tempfile
import threading
import time
import unittest

HERE = pathlib.Path(__file__).resolve().parent
sys.path.insert(0, str(HERE))

import watch  # pylint: disable=wrong-import-position

FIRST, SECOND, THIRD = "11" * 20, "22" * 20, "33" * 20

STATION = f"""station 1
own auth1 {FIRST} auth1.example 192.0.2.1 80 443
dir-key-expires 2031-01-15 00:00:00
schedule %d %d %d
authority {FIRST} -
authority {SECOND} 192.0.2.2:80
authority {THIRD} 192.0.2.3:80
measured {FIRST} 1924990200 1 2 3 -
measured {SECOND} 1924988400 1 2 3 -
end-station
"""

# A vote in which one of three relays runs.
VOTE = """network-status-version 3
r relay1 AAAAAAAAAAAAAAAAAAAAAAAAAAA AAAAAAAAAAAAAAAAAAAAAAAAAAA 2031-01-01 00:00:00 192.0.2.11 5001 0
s Fast Running Valid
r relay2 BBBBBBBBBBBBBBBBBBBBBBBBBBB AAAAAAAAAAAAAAAAAAAAAAAAAAA 2031-01-01 00:00:00 192.0.2.12 5001 0
s Valid
r relay3 CCCCCCCCCCCCCCCCCCCCCCCCCCC AAAAAAAAAAAAAAAAAAAAAAAAAAA 2031-01-01 00:00:00 192.0.2.13 5001 0
s
"""

# 2031-01-01 00:00:00
YEAR = 1924992000

SIGNATURES = f"""consensus-digest {"AA" * 20}
valid-after 2026-01-01 00:00:00
additional-digest microdesc sha256 {"BB" * 32}
additional-signature microdesc sha256 {FIRST} {"CC" * 20}
-----BEGIN SIGNATURE-----
AAAA
-----END SIGNATURE-----
directory-signature {FIRST} {"CC" * 20}
-----BEGIN SIGNATURE-----
AAAA
-----END SIGNATURE-----
directory-signature {THIRD} {"DD" * 20}
-----BEGIN SIGNATURE-----
AAAA
-----END SIGNATURE-----
"""

CONSENSUS = """network-status-version 3
vote-status consensus
valid-after %s
r relay1 AAAAAAAAAAAAAAAAAAAAAAAAAAA AAAAAAAAAAAAAAAAAAAAAAAAAAA 2026-01-01 00:00:00 192.0.2.11 5001 0
s Running Valid
r relay2 BBBBBBBBBBBBBBBBBBBBBBBBBBB AAAAAAAAAAAAAAAAAAAAAAAAAAA 2026-01-01 00:00:00 192.0.2.12 5001 0
s Running Valid
"""


class Stored(http.server.BaseHTTPRequestHandler):
    """What has stored answers."""

    def do_GET(self):  # pylint: disable=invalid-name
        """Answers what it has."""
        body = self.server.documents.get(self.path)
        self.send_response_only(404 if body is None else 200)
        self.send_header("Content-Length", str(len(body or "")))
        self.end_headers()
        self.wfile.write((body or "").encode("ascii"))

    def log_message(self, format, *args):  # pylint: disable=redefined-builtin
        """Nothing is told."""


class Room(unittest.TestCase):
    """A station input, and a daemon of stored answers."""

    def setUp(self):
        room = tempfile.TemporaryDirectory()
        self.addCleanup(room.cleanup)
        self.path = pathlib.Path(room.name) / "station"
        self.schedule(3600, 300, 300)
        self.server = http.server.ThreadingHTTPServer(("127.0.0.1", 0), Stored)
        self.server.documents = {}
        threading.Thread(target=self.server.serve_forever, daemon=True).start()
        self.addCleanup(self.server.server_close)
        self.addCleanup(self.server.shutdown)
        self.address = f"127.0.0.1:{self.server.server_port}"
        self.daemon = watch.Daemon(self.address)

    def schedule(self, *seconds):
        """Gives the station a schedule."""
        self.path.write_text(STATION % seconds, encoding="ascii")
        self.station = watch.station_of(self.path)

    def has(self, path, text="text"):
        """Lets the daemon have a document."""
        self.server.documents["/tor/status-vote/" + path] = text

    def numbers(self, name, now=0):
        """What a look finds, by names and labels."""
        return {(each.name, *each.labels.values()): each.value for each in watch.look(self.daemon, self.station, name, now)}


class Looks(Room):
    """What is found."""

    def test_votes_that_are_held(self):
        for path in ("next/authority", f"next/{FIRST}", f"next/{THIRD}"):
            self.has(path)
        found = self.numbers("votes")
        self.assertEqual((found["up",], found["own_vote",], found["votes",]), (1, 1, 2))
        self.assertEqual([found["vote", name] for name in (FIRST, SECOND, THIRD)], [1, 0, 1])

    def test_signatures_that_are_held(self):
        self.has("next/consensus-signatures", SIGNATURES)
        found = self.numbers("signatures")
        self.assertEqual((found["signatures", "ns"], found["signatures", "microdesc"]), (2, 1))
        self.assertEqual((found["signature", "ns", THIRD], found["signature", "microdesc", THIRD]), (1, 0))

    def test_no_signatures_before_the_computing(self):
        self.assertEqual(self.numbers("signatures")["signatures", "ns"], 0)

    def test_how_old_what_is_published_is(self):
        self.has("current/consensus", CONSENSUS % "2026-01-01 00:00:00")
        self.has("current/consensus-microdesc", CONSENSUS % "2025-12-31 23:00:00")
        found = self.numbers("consensus", 1767225605)
        self.assertEqual((found["consensus_age_seconds", "ns"], found["consensus_is_missed", "ns"]), (5, 0))
        self.assertEqual((found["consensus_age_seconds", "microdesc"], found["consensus_is_missed", "microdesc"]), (3605, 1))
        self.assertEqual(found["relays", "ns"], 2)

    def test_nothing_is_published(self):
        found = self.numbers("consensus", 1767225605)
        self.assertEqual((found["consensus_age_seconds", "ns"], found["consensus_is_missed", "ns"]), (-1, 1))

    def test_nobody_answers(self):
        self.daemon.address = "127.0.0.1:1"
        self.assertEqual(self.numbers("votes"), {("up",): 0})


class Limits(Room):
    """What is told beyond its limit."""

    def lines(self, name, now, running=50, measured=2700, certificate=14):
        """The lines that a look tells."""
        limits = argparse.Namespace(running=running, measured=measured, certificate=certificate)
        return list(watch.beyond_limits(watch.look(self.daemon, self.station, name, now), limits))

    def test_how_many_relays_run_in_the_own_vote(self):
        self.has("next/authority", VOTE)
        found = self.numbers("votes", YEAR)
        self.assertEqual((found["relays_voted",], found["relays_running",]), (3, 1))
        told = ["1 of 3 relays run in the own vote: look at what measures, and at the renewal"]
        self.assertEqual(self.lines("votes", YEAR), told)
        self.assertEqual(self.lines("votes", YEAR, running=33), [])
        self.has("next/authority", VOTE.replace("Running ", ""))
        self.assertIn("0 of 3 relays run", self.lines("votes", YEAR, running=0)[0])

    def test_how_old_the_newest_measurement_is(self):
        self.assertEqual(self.numbers("votes", YEAR)["measurement_age_seconds",], 1800)
        self.assertEqual(self.lines("votes", YEAR + 900), [])
        told = ["the newest measurement of a relay is 2701 seconds old: look at what measures, and at the renewal"]
        self.assertEqual(self.lines("votes", YEAR + 901), told)
        held = self.path.read_text(encoding="ascii").replace("measured ", f"measured-at {YEAR - 9000}\nmeasured ", 1)
        self.path.write_text(held, encoding="ascii")
        self.station = watch.station_of(self.path)
        self.assertEqual(self.numbers("votes", YEAR)["measurement_age_seconds",], 9000)

    def test_how_long_the_certificate_holds(self):
        day = 86_400
        self.assertEqual(self.numbers("consensus", YEAR)["certificate_ends_seconds",], 14 * day)
        self.assertEqual(self.lines("consensus", YEAR), [])
        self.assertEqual(self.lines("consensus", YEAR + 1), ["the own certificate ends in 13 days: make a new one"])
        self.assertEqual(self.lines("consensus", YEAR + 14 * day), ["the own certificate has ended"])


class Moments(Room):
    """When is looked."""

    def test_the_looks_of_a_period(self):
        now, looks = 7200.0, []
        for _ in range(4):
            now, name = watch.next_look(self.station, now)
            looks.append((now, name))
        wanted = [(7205, "consensus"), (10497, "votes"), (10797, "signatures"), (10805, "consensus")]
        self.assertEqual(looks, wanted)

    def test_what_is_looked_at_now(self):
        for place, looks in (
            (2, [("consensus", False)]),
            (60, [("consensus", True)]),
            (3100, [("consensus", True), ("votes", False)]),
            (3400, [("consensus", True), ("votes", True), ("signatures", False)]),
            (3599, [("consensus", True), ("votes", True), ("signatures", True)]),
        ):
            self.assertEqual(watch.looks_now(self.station, 7200 + place), looks)


class Tells(Room):
    """What is told."""

    def test_a_line_names_who_is_lacking(self):
        self.has(f"next/{SECOND}")
        found = watch.look(self.daemon, self.station, "votes", 0)
        line = watch.line_of(found, "votes", 1767225600)
        self.assertTrue(line.startswith("2026-01-01 00:00:00 votes: own_vote 0, votes 1, measurement_age_seconds "), line)
        self.assertTrue(line.endswith(", without 11111111 33333333"), line)

    def test_metrics_are_in_the_form_of_prometheus(self):
        held = {
            ("votes",): watch.Metric("votes", "How many votes are held.", {}, 2),
            ("vote", FIRST): watch.Metric("vote", "Whether the vote of an authority is held.", {"authority": FIRST}, 1),
        }
        text = (
            "# HELP dirauth_vote Whether the vote of an authority is held.\n# TYPE dirauth_vote gauge\n"
            f'dirauth_vote{{authority="{FIRST}"}} 1\n'
            "# HELP dirauth_votes How many votes are held.\n# TYPE dirauth_votes gauge\ndirauth_votes 2\n"
        )
        self.assertEqual(watch.metrics_text(held), text)

    def test_what_is_amiss(self):
        for path in ("next/authority", f"next/{FIRST}", f"next/{THIRD}"):
            self.has(path)
        self.assertFalse(watch.is_amiss(watch.look(self.daemon, self.station, "votes", 0), self.station))
        for path in ("next/authority", f"next/{THIRD}"):
            kept = self.server.documents.pop("/tor/status-vote/" + path)
            self.assertTrue(watch.is_amiss(watch.look(self.daemon, self.station, "votes", 0), self.station))
            self.has(path, kept)


class Program(Room):
    """The program itself."""

    def told(self, *words):
        """What it does with these words."""
        command = [sys.executable, HERE / "watch.py", *words]
        return subprocess.run(command, stdout=subprocess.PIPE, stderr=subprocess.PIPE, text=True, check=False)

    def test_once_tells_lines_and_metrics(self):
        # A day between two consensuses, so that votes are not due, unless it is nearly midnight.
        self.schedule(86_400, 20, 20)
        text = self.path.read_text(encoding="ascii").replace("2031-01-15", "9999-01-15")
        self.path.write_text(text.replace(" 1924990200 ", f" {2 ** 40} "), encoding="ascii")
        now = time.gmtime(int(time.time()) // 86_400 * 86_400)
        for path in ("consensus", "consensus-microdesc"):
            self.has(f"current/{path}", CONSENSUS % time.strftime("%Y-%m-%d %H:%M:%S", now))
        metrics = self.path.with_name("metrics")
        ran = self.told("--daemon", self.address, "--station", self.path, "--metrics", metrics, "--once")
        self.assertIn(" consensus: consensus_age_seconds ns ", ran.stdout)
        self.assertIn('dirauth_consensus_is_missed{flavour="ns"} 0\n', metrics.read_text(encoding="ascii"))
        if time.time() % 86_400 < 86_300:
            self.assertEqual((ran.returncode, ran.stderr), (0, ""))

    def test_what_is_missing_is_told_in_a_line(self):
        # A day between two consensuses, and a certificate and a measurement that hold for long.
        text = (STATION % (86_400, 20, 20)).replace("2031-01-15", "9999-01-15")
        self.path.write_text(text.replace(" 1924990200 ", f" {2 ** 40} "), encoding="ascii")
        none = self.path.with_name("none")
        none.write_text(STATION % (0, 0, 0), encoding="ascii")
        for words, text in (
            (("--station", "/no/station"), "/no/station: No such file"),
            (("--station", HERE / "watch.py"), "it is no station input"),
            (("--station", self.path, "--metrics", "/no/folder/metrics"), "/no/folder/metrics: No such file"),
            (("--station", self.path.parent), f"{self.path.parent}: Is a directory"),
            (("--station", none), f"watch: {none}: schedule 0 0 0: these seconds are no schedule"),
        ):
            ran = self.told("--daemon", self.address, "--once", *words)
            self.assertEqual((ran.returncode, ran.stderr.count("\n")), (1, 1), ran.stderr)
            self.assertIn(text, ran.stderr)

    def test_a_daemon_that_is_not_there_is_told(self):
        for address in ("127.0.0.1:1", "nowhere:x"):
            ran = self.told("--daemon", address, "--station", self.path, "--once")
            self.assertEqual(ran.returncode, 1)
            self.assertTrue(all("does not answer" in line for line in (ran.stdout + ran.stderr).splitlines()), ran.stdout)


if __name__ == "__main__":
    unittest.main()
