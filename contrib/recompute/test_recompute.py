#!/usr/bin/env python3
"""Tests of the recomputing over stored votes, with a program in the place of dirauth: `python3 -m unittest` in this folder."""
import base64
import hashlib
import pathlib
import stat
import subprocess
import sys
import tempfile
import unittest

HERE = pathlib.Path(__file__).resolve().parent
STORED = HERE / "stored"

# What stands for dirauth: it keeps its words and its input, and writes a text, or ends with a status and a line.
PROGRAM = """#!{python}
import pathlib, sys
room = pathlib.Path({room!r})
(room / "words").write_text("\\n".join(sys.argv[1:]))
(room / "input").write_bytes(sys.stdin.buffer.read())
if (room / "fault").exists():
    sys.exit((room / "fault").read_text())
sys.stdout.buffer.write((room / "text").read_bytes())
"""


class Room(unittest.TestCase):
    """A folder with a consensus, and a program that computes."""

    def setUp(self):
        room = tempfile.TemporaryDirectory()
        self.addCleanup(room.cleanup)
        self.room = pathlib.Path(room.name)
        self.program = self.room / "dirauth"
        self.program.write_text(PROGRAM.format(python=sys.executable, room=room.name), encoding="ascii")
        self.program.chmod(stat.S_IRWXU)
        self.published = (STORED / "consensus").read_text(encoding="ascii")
        self.computes(self.published)

    def computes(self, published):
        """The program computes what a consensus has in front of its signatures."""
        text = published.partition("\ndirectory-signature ")[0] + "\n"
        (self.room / "text").write_text(text.partition("\n")[2] if text.startswith("@") else text, encoding="ascii")

    def told(self, published=None, votes=STORED / "votes", words=()):
        """The status, and what is told."""
        path = self.room / "consensus"
        path.write_text(self.published if published is None else published, encoding="ascii")
        command = [sys.executable, HERE / "recompute.py", "--dirauth", self.program, "--keys", "/no/keys", *words, path, votes]
        ran = subprocess.run(command, stdout=subprocess.PIPE, stderr=subprocess.PIPE, text=True, check=False)
        return ran.returncode, ran.stdout, ran.stderr


class Recomputes(Room):
    """What is told of a published consensus."""

    def test_the_same_text_is_told(self):
        status, told, fault = self.told()
        line = "recompute: the signatures are not verified: the key service at /no/keys: No such file or directory\n"
        self.assertEqual((status, fault), (0, line))
        self.assertEqual(told, "ns 2026-01-01 00:00:00: the same text, 1046 bytes\n")

    def test_right_signatures_are_counted(self):
        covered = self.published.partition("\ndirectory-signature ")[0] + "\ndirectory-signature "
        covered = covered.partition("\n")[2] if covered.startswith("@") else covered
        digest = hashlib.sha1(covered.encode("ascii")).digest()
        right = base64.b64encode(hashlib.sha256(b"test-sigsign-1" + digest).digest()).decode("ascii")
        for text, count in ((self.published, 0), (self.published.replace("YWJj", right), 1)):
            status, told, fault = self.told(text, words=("--test-keys",))
            self.assertEqual((status, fault), (0, ""))
            line = f"ns 2026-01-01 00:00:00: {count} right signatures of 3 authorities, 2 stand there"
            self.assertEqual(told.splitlines()[1], line)

    def test_the_votes_that_are_named_are_given(self):
        self.told()
        roster = (
            "2FD4E1C67A2D28FCED849EE1BB76E7391B93EB12,84983E441C3BD26EBAAE4AA1F95129E5E54670F1,"
            "86F7E437FAA5A7FCE15D1DDCB9EAEAEA377667B8"
        )
        words = ["compute", "--authorities", roster, "--valid-after", "2026-01-01 00:00:00", "--flavour", "ns"]
        self.assertEqual((self.room / "words").read_text(encoding="ascii").split("\n"), words)
        votes = (STORED / "votes").read_text(encoding="ascii").replace("@type network-status-vote-3 1.0\n", "")
        self.assertEqual((self.room / "input").read_text(encoding="ascii"), votes)

    def test_a_microdesc_consensus_is_one_of_that_flavour(self):
        published = (STORED / "consensus-microdesc").read_text(encoding="ascii")
        self.computes(published)
        self.assertEqual(self.told(published)[0], 0)
        self.assertIn("--flavour\nmicrodesc", (self.room / "words").read_text(encoding="ascii"))

    def test_a_later_method_is_asked_for(self):
        for method, asked in ((32, []), (33, []), (34, ["34"]), (35, ["35"]), (36, ["35"])):
            published = self.published.replace("consensus-method 32", f"consensus-method {method}")
            self.computes(published)
            self.assertEqual(self.told(published)[0], 0)
            words = (self.room / "words").read_text(encoding="ascii").split("\n")
            self.assertEqual(words[7:], ["--newest-method", *asked] if asked else [])

    def test_a_method_that_is_not_known_differs_in_its_line_alone(self):
        self.computes(self.published.replace("consensus-method 32", "consensus-method 35"))
        status, told, _ = self.told(self.published.replace("consensus-method 32", "consensus-method 36"))
        self.assertEqual(status, 0)
        self.assertIn("but for the line of the method: published 36, computed 35", told)

    def test_a_method_that_is_known_differs(self):
        for method in (33, 34, 35):
            published = self.published.replace("consensus-method 32", f"consensus-method {method}")
            self.assertEqual(self.told(published)[0], 1)

    def test_a_method_and_a_relay_differ(self):
        published = self.published.replace("consensus-method 32", "consensus-method 36").replace("s NoEd", "s Fast NoEd")
        status, told, _ = self.told(published)
        self.assertEqual(status, 1)
        self.assertIn("2 parts differ", told)
        self.assertIn("relay 0101010101010101010101010101010101010101 relay1:\n", told)
        self.assertIn("  -s Fast NoEdConsensus Running Valid\n  +s NoEdConsensus Running Valid\n", told)

    def test_a_relay_that_one_text_has_alone_differs(self):
        relay = self.published[self.published.index("\nr ") + 1 : self.published.index("directory-footer")]
        status, told, _ = self.told(self.published.replace(relay, ""))
        self.assertEqual(status, 1)
        self.assertIn("  +r relay1 ", told)

    def test_votes_that_are_missing_or_not_named_are_told(self):
        digest = self.published.partition("\nvote-digest ")[2][:40]
        _, _, fault = self.told(self.published.replace(digest, "0" * 40))
        self.assertIn(f"the vote {'0' * 40} of auth1 is missing", fault)
        self.assertIn(f"the consensus does not name the vote {digest}: left out", fault)

    def test_all_authorities_may_be_named(self):
        self.told(words=("--authorities", "00" * 20))
        self.assertIn("--authorities\n" + "00" * 20, (self.room / "words").read_text(encoding="ascii"))


class Faults(Room):
    """What is not there, or is no such document: one line says so, with status 2."""

    def one_line(self, text, *given, **named):
        """Looks for a text in the one line that is told."""
        status, told, fault = self.told(*given, **named)
        self.assertEqual((status, told, fault.count("\n")), (2, "", 1), fault)
        self.assertIn(text, fault)

    def test_files_that_are_missing_or_others_are_told(self):
        self.one_line("/no/votes: No such file", votes="/no/votes")
        self.one_line("it has no vote", votes=STORED / "consensus")
        self.one_line("it is not one consensus", published="nothing\n")
        self.one_line("names no vote", published=self.published.replace("vote-digest", "vote"))

    def test_a_program_that_fails_or_is_missing_is_told(self):
        (self.room / "fault").write_text("verifier fault", encoding="ascii")
        self.one_line("compute ends with status 1: verifier fault")
        self.program.unlink()
        self.one_line("dirauth: No such file")


if __name__ == "__main__":
    unittest.main()
