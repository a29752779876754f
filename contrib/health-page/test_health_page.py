#!/usr/bin/env python3
"""Tests of the page of health reports: `python3 -m unittest` in this folder."""
import pathlib
import subprocess
import sys
import unittest

HERE = pathlib.Path(__file__).resolve().parent

FIRST, SECOND, THIRD = "11" * 20, "22" * 20, "33" * 20
RELAY, EXTRA = "AA" * 20, "BB" * 20

REPORT = f"""report 2026-01-01 00:00:00
authorities 3
votes 2
missing-vote {THIRD}
signer {FIRST}
missing-signer {SECOND}
missing-signer {THIRD}
param bwweightscale {FIRST}=10000 {SECOND}=10000
param cc_alg {FIRST}=2
relay {RELAY} out {FIRST} {SECOND}
flag {RELAY} Running {FIRST}
flag {RELAY} Valid {FIRST} {SECOND}
extra {EXTRA}
"""


def page(text):
    """The page of one report, and what is told."""
    command = [sys.executable, HERE / "health_page.py", "-"]
    return subprocess.run(command, input=text, stdout=subprocess.PIPE, stderr=subprocess.PIPE, text=True, check=False)


class Pages(unittest.TestCase):
    """The page of a report."""

    def test_who_voted_and_signed_is_there(self):
        ran = page(REPORT)
        self.assertEqual((ran.returncode, ran.stderr), (0, ""))
        for text in ("voted, signed", "voted, not signed", "no vote", "2026-01-01 00:00:00"):
            self.assertIn(text, ran.stdout)

    def test_what_votes_differ_in_is_there(self):
        text = page(REPORT).stdout
        self.assertIn("Running <span class=dots>●○</span>", text)
        self.assertIn("<code>cc_alg</code>", text)
        self.assertIn("1 on which all votes agree", text)
        self.assertIn(EXTRA, text)

    def test_what_a_report_says_is_no_markup(self):
        text = page(REPORT.replace("flag " + RELAY + " Running", "flag " + RELAY + " <b>")).stdout
        self.assertIn("&lt;b&gt;", text)
        self.assertNotIn("<b>", text.partition("<h3>Flags")[2])

    def test_what_is_no_report_is_refused_with_its_line(self):
        for text, told in (
            (REPORT.replace("votes 2", "votes two"), "-: line 3 is none of a report\n"),
            (REPORT.replace(f"signer {FIRST}\n", ""), "-: no whole report\n"),
            ("", "-: no whole report\n"),
        ):
            ran = page(text)
            self.assertEqual((ran.returncode, ran.stdout, ran.stderr), (2, "", told))

    def test_a_file_that_is_missing_is_told(self):
        command = [sys.executable, HERE / "health_page.py", "/no/report"]
        ran = subprocess.run(command, stdout=subprocess.PIPE, stderr=subprocess.PIPE, text=True, check=False)
        self.assertEqual((ran.returncode, ran.stderr.count("\n")), (2, 1))
        self.assertIn("/no/report", ran.stderr)


if __name__ == "__main__":
    unittest.main()
