#!/usr/bin/env python3
"""Tests of the importer over a stored folder of a C tor authority: `python3 -m unittest` in this folder."""
import pathlib
import re
import shutil
import stat
import subprocess
import sys
import tempfile
import unittest

HERE = pathlib.Path(__file__).resolve().parent
sys.path.insert(0, str(HERE))

sys.path.append(str(HERE.parent / "front"))

# pylint: disable=wrong-import-position
import torrc
from holdings import Holdings

STORED, FRONT = HERE / "stored", HERE.parent / "front/stored"

# What stands for tor's cache.
CACHED = {"cached-consensus": "consensus", "cached-microdesc-consensus": "consensus-microdesc", "cached-certs": "certificates"}

# What stands for dirauth: it refuses the descriptor of the fifth relay, and by method 35 all.
PROGRAM = """#!{python}
import re, sys
names = re.findall(rb"(?m)^router (\\S+)", sys.stdin.buffer.read())
if "35" in sys.argv:
    sys.exit(print("own certificate refused: expired", file=sys.stderr) or 12)
if b"relay5" in names:
    sys.exit(print("descriptor", names.index(b"relay5") + 1, "refused: ed25519", file=sys.stderr) or 6)
"""

OWN = "2FD4E1C67A2D28FCED849EE1BB76E7391B93EB12"
FIRST, SECOND = "17CF3EBB63B08F56B546F999CB61DBD65A7BEF09", "A5BD8CDE11AA848317671408EABB669B0F82AAFE"
FOURTH, FIFTH = "EB2C11FE3F141620816A484D9FFA124328BEA67C", "404B098BD4CCEBA4F009D0B105FE22A65A375437"

# 2025-12-31 23:40:00
NOW = "1767224400"

# The vote that dirauth makes of the first relay, in what is compared.
OURS = f"""network-status-version 3
vote-status vote
published 2025-12-31 22:55:00
valid-after 2025-12-31 23:00:00
params bwweightscale=10000 cc_alg=2
dir-source auth1 {OWN} auth1.example 192.0.2.1 80 443
r relay1 F88+u2Owj1a1RvmZy2Hb1lp77wk AAAAAAAAAAAAAAAAAAAAAAAAAAA 2025-12-31 20:00:00 198.51.100.1 9001 0
s Fast Guard Running Stable Valid
w Bandwidth=900
m 32,33 sha256=AAAAAAAAAAAAAAAAAAAAAAAAAAAAAAAAAAAAAAAAAAA
directory-footer
"""


def asked(*words):
    """What the importer does with these words."""
    command = [sys.executable, HERE / "import_tor.py", *words]
    return subprocess.run(command, stdout=subprocess.PIPE, stderr=subprocess.PIPE, text=True, check=False)


class ImportCase(unittest.TestCase):
    """The stored folder."""

    def setUp(self):
        room = tempfile.TemporaryDirectory()
        self.addCleanup(room.cleanup)
        self.room = pathlib.Path(room.name)
        text = (STORED / "torrc").read_text(encoding="ascii")
        self.torrc = self.room / "torrc"
        self.torrc.write_text(text.replace("BANDWIDTHS", str(STORED / "tor/bandwidths")), encoding="ascii")


class Imports(ImportCase):
    """The station input of the stored folder."""

    def station(self, *words):
        """The lines of the station input, and what was told."""
        answer = asked("--torrc", self.torrc, "--data", STORED / "tor", "--now", NOW, *words)
        self.assertEqual(answer.returncode, 0, answer.stderr)
        return answer.stdout.splitlines(), answer.stderr

    def having(self, keyword, *words):
        """The lines of a keyword."""
        lines, _ = self.station(*words)
        return [line for line in lines if line.startswith(f"{keyword} ")]

    def test_the_own_authority_is_that_of_its_vote(self):
        lines, _ = self.station()
        own = [f"own auth1 {OWN} auth1.example 192.0.2.1 80 443", "contact operator 1", "dir-key-certificate-version 3"]
        self.assertEqual(lines[:4], ["station 1", *own])

    def test_the_certificate_stands_unchanged(self):
        certificate = (STORED / "tor/keys/authority_certificate").read_text(encoding="ascii")
        self.assertIn(certificate, "\n".join(self.station()[0]))

    def test_authorities_are_those_with_an_identity(self):
        second = "authority 84983E441C3BD26EBAAE4AA1F95129E5E54670F1 192.0.2.2:8080"
        self.assertEqual(self.having("authority"), [f"authority {OWN} 192.0.2.1:80", second])

    def test_intervals_have_units(self):
        self.assertEqual(self.having("schedule"), ["schedule 3600 300 300"])

    def test_what_is_listed_is_that_of_the_own_vote(self):
        self.assertEqual(self.having("client-versions"), ["client-versions 0.4.8.12,0.4.9.11"])
        self.assertEqual(self.having("required-relay-protocols"), ["required-relay-protocols Cons=2 Link=4-5"])
        self.assertEqual(self.having("params"), ["params bwweightscale=10000 cc_alg=2"])

    def test_relays_are_ruled_by_key_and_by_address(self):
        words = ((FIRST, "badexit"), (FIFTH, "invalid"), (SECOND, "reject"), (FOURTH, "invalid"))
        self.assertEqual(self.having("rule"), [f"rule {word} {name}" for name, word in words])

    def test_what_was_measured_is_that_of_the_vote_or_of_what_is_stored(self):
        lines = [
            f"measured {FIRST} 1767221400 650000 998765 800000 750",
            f"measured {SECOND} 1767223800 40960 834983 242400 -",
            f"measured {FOURTH} 0 3600 500000 7200 -",
        ]
        self.assertEqual(self.having("measured"), lines)

    def test_the_newest_descriptors_follow(self):
        lines, _ = self.station()
        behind = lines[lines.index("end-station") + 1 :]
        routers = [line.split()[1] for line in behind if line.startswith("router ")]
        self.assertEqual(routers, ["relay1", "relay5", "relay2", "relay4"])
        self.assertIn("published 2025-12-31 22:00:00", behind)
        self.assertFalse([line for line in lines if line.startswith("@")])

    def test_a_bandwidth_file_stands_in_front(self):
        lines, _ = self.station("--bandwidth")
        front = (STORED / "tor/bandwidths").read_text(encoding="ascii").splitlines()
        self.assertEqual(lines[: len(front) + 2], [*front, "end-bandwidth-file", "station 1"])
        self.assertIn(f"measured {FIRST} 1767221400 650000 998765 800000 -", lines)

    def test_the_signing_key_is_for_its_owner_alone(self):
        self.station("--keys", self.room / "keys")
        key = self.room / "keys/auth1-signing.pem"
        self.assertEqual(key.read_bytes(), (STORED / "tor/keys/authority_signing_key").read_bytes())
        self.assertEqual(key.stat().st_mode & 0o777, 0o600)

    def test_what_has_no_place_is_told(self):
        _, told = self.station()
        for text in ("!stripguard", "no descriptor has this key", "AuthDirMaxServersPerAddr 4", "2001:db8::/32", "1 descriptors are older"):
            self.assertIn(text, told)

    def test_without_a_vote_the_options_are_asked(self):
        vote = self.room / "no-vote"
        vote.write_text("", encoding="ascii")
        self.torrc.write_text(self.torrc.read_text(encoding="ascii") + "RecommendedVersions 0.4.8.12, 0.4.8.13\n", encoding="ascii")
        lines, _ = self.station("--vote", vote)
        self.assertEqual(lines[1], f"own auth1 {OWN} 192.0.2.1 192.0.2.1 80 443")
        self.assertIn("client-versions 0.4.8.12,0.4.8.13", lines)
        self.assertIn(f"measured {FIRST} 0 100 500000 200 750", lines)


class Store(ImportCase):
    """What the front is given, and a vote that is tried, with a program in the place of dirauth."""

    def setUp(self):
        super().setUp()
        shutil.copytree(STORED / "tor", self.room / "tor")
        for name in ("cached-consensus", "cached-microdesc-consensus", "cached-certs"):
            text = (FRONT / CACHED[name]).read_bytes()
            (self.room / "tor" / name).write_bytes(b"@downloaded-at 2026-11-30 11:46:00\n" + text)
        (self.room / "store").mkdir()
        self.program = self.room / "dirauth"
        self.program.write_text(PROGRAM.format(python=sys.executable), "ascii")
        self.program.chmod(stat.S_IRWXU)

    def told(self, *words, status=0):
        """What the importer makes and tells."""
        answer = asked("--torrc", self.torrc, "--data", self.room / "tor", "--now", NOW, *words)
        self.assertEqual(answer.returncode, status, answer.stderr)
        return answer.stdout, answer.stderr

    def test_the_front_is_given_what_the_tor_has_cached(self):
        _, told = self.told("--store", self.room / "store")
        self.assertIn("the front's store has 2 consensuses, 4 certificates, 4 descriptors\n", told)
        held = Holdings(keep=2)
        held.load(self.room / "store", int(NOW))
        for flavour in ("consensus", "consensus-microdesc"):
            self.assertEqual(held.consensuses[flavour].text, (FRONT / flavour).read_bytes())
        self.assertEqual((held.own, held.newest_certificates()[OWN].fingerprint), (OWN, OWN))
        self.assertIn(FIRST, held.relays.held)

    def test_what_the_tor_has_not_is_told(self):
        (self.room / "tor/cached-certs").unlink()
        (self.room / "tor/cached-consensus").write_bytes(b"nothing\n")
        _, told = self.told("--store", self.room / "store")
        self.assertIn("cached-certs: No such file or directory: the front is not given it\n", told)
        self.assertIn("cached-consensus is no consensus (no valid-after line): left out\n", told)
        _, told = self.told("--store", "/no/store", status=1)
        self.assertTrue(told.endswith("import-tor: /no/store is no folder that may be written to\n"), told)

    def test_descriptors_that_are_refused_are_left_out(self):
        made, told = self.told("--dirauth", self.program)
        self.assertIn("the descriptor of relay5 203.0.113.5 is refused (ed25519): left out\n", told)
        self.assertIn("a vote can be made of it, with 3 descriptors\n", told)
        self.assertEqual(re.findall(r"(?m)^router (\S+)", made), ["relay1", "relay2", "relay4"])
        self.assertIn("no vote was tried", self.told()[1])

    def test_where_no_vote_can_be_made_nothing_is_written(self):
        made, told = self.told("--dirauth", self.program, "--newest-method", "35", status=1)
        self.assertEqual(made, "")
        self.assertTrue(told.endswith("import-tor: no vote can be made of it: own certificate refused: expired\n"), told)
        made, told = self.told("--dirauth", "/no/dirauth", status=1)
        self.assertEqual(made, "")
        self.assertTrue(told.endswith("import-tor: /no/dirauth: No such file or directory\n"), told)


class Authorities(unittest.TestCase):
    """Lists of authorities."""

    def test_the_list_that_is_built_in_is_read(self):
        lines = torrc.lines_of_list((STORED / "auth_dirs.inc").read_text(encoding="ascii"))
        third = ("86F7E437FAA5A7FCE15D1DDCB9EAEAEA377667B8", "192.0.2.3:80")
        self.assertEqual(torrc.authorities(lines), [(OWN, "192.0.2.1:80"), third])

    def test_an_authority_may_have_an_address_for_votes(self):
        line = f"a v3ident={OWN} 192.0.2.1:80 vote=http://192.0.2.1:9030 download=http://192.0.2.1:80"
        self.assertEqual(torrc.authorities([line]), [(OWN, "192.0.2.1:9030")])


class Compares(unittest.TestCase):
    """What two votes differ in."""

    def setUp(self):
        room = tempfile.TemporaryDirectory()
        self.addCleanup(room.cleanup)
        self.ours, self.theirs = (pathlib.Path(room.name) / name for name in ("ours", "theirs"))
        self.ours.write_text(OURS, encoding="ascii")
        votes = (STORED / "tor/v3-status-votes").read_text(encoding="ascii")
        self.theirs.write_text(votes[votes.rindex("network-status-version ") :], encoding="ascii")

    def test_differences_are_told(self):
        answer = asked("--compare", self.ours, self.theirs)
        self.assertEqual((answer.returncode, answer.stderr), (0, ""))
        lines = answer.stdout.splitlines()
        self.assertIn("published: ours 2025-12-31 22:55:00 | tor 2025-12-31 22:50:00", lines)
        self.assertIn("relays: ours 1, tor 3", lines)
        self.assertIn(f"relay {FOURTH}: tor alone", lines)
        for line in (f"flag Guard: ours alone, 1 ({FIRST})", f"flag HSDir: tor alone, 1 ({FIRST})", "w: the same, 1"):
            self.assertIn(line, lines)
        self.assertNotIn("params", " ".join(lines))

    def test_the_same_vote_is_the_same(self):
        answer = asked("--compare", self.theirs, self.theirs)
        self.assertTrue(all(" the same, 3" in line or line.startswith("relays: ") for line in answer.stdout.splitlines()))


class Faults(unittest.TestCase):
    """What is not there, or is no such file: one line says so."""

    def told(self, *words):
        """The one line that is told."""
        answer = asked(*words)
        self.assertEqual((answer.returncode, answer.stdout), (1, ""))
        self.assertEqual(answer.stderr.count("\n"), 1, answer.stderr)
        return answer.stderr

    def test_what_is_missing_is_told(self):
        torrc_file = STORED / "torrc"
        self.assertIn("/no/torrc: there is no such file", self.told("--torrc", "/no/torrc"))
        self.assertIn("/no/folder: there is no such folder", self.told("--torrc", torrc_file, "--data", "/no/folder"))
        missing = self.told("--torrc", torrc_file, "--data", STORED)
        self.assertIn("keys/authority_certificate: there is no such file", missing)
        self.assertIn("is no vote", self.told("--compare", torrc_file, torrc_file))


if __name__ == "__main__":
    unittest.main()
