#!/usr/bin/env python3
"""Tests of the votes that the front keeps behind their consensus: `python3 -m unittest` in this folder."""
import pathlib
import re
import tempfile
import unittest

from directory_documents import item, seconds
from holdings import Holdings
from period_votes import vote_of
from test_front import CONSENSUS, NOW, FrontCase, stored

VOTES = [stored(f"auth{number}.vote") for number in (1, 2, 3)]

NAMES = [item(vote, b"fingerprint").decode("ascii") for vote in VOTES]

DIGESTS = [word.decode("ascii") for word in re.findall(rb"(?m)^vote-digest (\S+)$", stored("consensus"))]

VALID_AFTER = seconds(item(VOTES[0], b"valid-after"))

CURRENT = "/tor/status-vote/current/"


class VoteCase(FrontCase):
    """A daemon that holds votes, and has published nothing yet."""

    def setUp(self):
        super().setUp()
        for flavour in ("consensus", "consensus-microdesc"):
            del self.daemon.documents[CURRENT + flavour]


class Kept(VoteCase):
    """Votes that a daemon holds in the voting, and has no more once their consensus is published."""

    def setUp(self):
        super().setUp()
        self.watcher.look(VALID_AFTER - 1)
        self.daemon.documents = {CURRENT + "consensus": stored("consensus")}
        self.watcher.look(VALID_AFTER)

    def test_they_are_given_when_their_period_begins(self):
        self.clock = VALID_AFTER - 1
        self.assertEqual(self.code_and_body(CURRENT + "authority")[0], 404)
        self.clock = VALID_AFTER
        self.assertEqual(self.code_and_body(CURRENT + "authority.z"), (200, VOTES[0]))
        for name, vote in zip(NAMES, VOTES):
            self.assertEqual(self.code_and_body(CURRENT + name.lower()), (200, vote))
        self.assertEqual(self.code_and_body(CURRENT + "+".join(NAMES) + ".z"), (200, b"".join(VOTES)))
        self.assertEqual(self.code_and_body(CURRENT + "A" * 40), (404, b""))

    def test_they_are_given_by_the_digests_that_the_consensus_names(self):
        self.clock = VALID_AFTER
        given = [self.code_and_body(f"{CURRENT}d/{digest}.z")[1] for digest in DIGESTS]
        self.assertEqual(sorted(given), sorted(VOTES))
        self.assertEqual(self.code_and_body(CURRENT + "d/" + "+".join(DIGESTS)), (200, b"".join(given)))
        self.assertEqual(self.code_and_body(CURRENT + "d/" + "A" * 40), (404, b""))
        self.assertEqual(self.code_and_body(CURRENT + "d/"), (404, b""))

    def test_they_go_with_the_next_consensus(self):
        later = VALID_AFTER + 300
        self.clock = later + 1
        self.assertEqual(self.code_and_body(CURRENT + "authority")[0], 200)
        moment = CONSENSUS.text.partition(b"\nvalid-after ")[2][:19]
        self.holdings.take_consensus("consensus", CONSENSUS.text.replace(moment, b"2099-01-01 00:00:00", 1))
        self.assertEqual(self.code_and_body(CURRENT + "authority")[0], 404)

    def test_the_own_one_is_told_also_where_the_daemon_has_it_no_more(self):
        self.clock = VALID_AFTER - 1
        self.assertEqual(self.code_and_body("/tor/status-vote/next/authority"), (200, VOTES[0]))

    def test_they_outlive_the_front(self):
        with tempfile.TemporaryDirectory() as room:
            self.holdings.store(pathlib.Path(room), 100)
            again = Holdings(keep=2)
            again.load(pathlib.Path(room), NOW)
        found = again.current_votes(VALID_AFTER)
        self.assertEqual([found[name].text for name in NAMES], VOTES)
        self.assertEqual(again.own, NAMES[0])


class Looked(VoteCase):
    """When the daemon is asked for votes."""

    def test_each_is_asked_for_once_and_when_it_is_frozen(self):
        frozen = vote_of(VOTES[1], 0).frozen_at
        path = f"/tor/status-vote/next/{NAMES[1]}"
        for now, count in ((frozen - 4, 1), (frozen - 2, 1), (frozen, 2), (frozen + 2, 2)):
            self.watcher.look(now)
            self.assertEqual(self.daemon.asked.count(path), count)

    def test_one_that_was_replaced_counts(self):
        frozen = vote_of(VOTES[1], 0).frozen_at
        path = f"/tor/status-vote/next/{NAMES[1]}"
        self.watcher.look(frozen - 4)
        self.daemon.documents[path] = newer = VOTES[1].replace(b"\ncontact ", b"\ncontact new ", 1)
        self.watcher.look(frozen)
        self.clock = VALID_AFTER
        self.assertEqual(self.code_and_body(CURRENT + NAMES[1]), (200, newer))

    def test_one_that_is_cut_off_is_passed_over(self):
        self.daemon.documents[f"/tor/status-vote/next/{NAMES[1]}"] = b"network-status-version 3\n"
        self.watcher.look(VALID_AFTER - 1)
        self.assertEqual(set(self.holdings.votes.next(VALID_AFTER - 1)), {NAMES[0], NAMES[2]})


if __name__ == "__main__":
    unittest.main()
