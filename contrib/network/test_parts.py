#!/usr/bin/env python3
"""Tests of the parts of the network that need neither a namespace nor a tor: `python3 -m unittest` in this folder."""
import base64
import hashlib
import pathlib
import subprocess
import sys
import tempfile
import unittest

HERE = pathlib.Path(__file__).resolve().parent
sys.path.insert(0, str(HERE))

# pylint: disable=wrong-import-position
import client
import disagree
import families
import faults
import nodes
import periods
import processes
import seen

FIRST, SECOND = "1" * 40, "2" * 40

# A vote's entry of a relay with two microdescriptors, and of one with one.
VOTE = b"""network-status-version 3
r relay1 IDENTITY1 DESCRIPTOR1 2026-01-01 00:00:00 10.77.1.1 5001 0
m 32,33,34 sha256=OLD1
m 35 sha256=NEW1
r relay4 IDENTITY4 DESCRIPTOR4 2026-01-01 00:00:00 10.77.1.4 5001 0
m 32,33,34,35 sha256=BOTH4
directory-footer
"""


def signed(text, *signers):
    """A consensus with signatures that are its digest and the signer's key."""
    covered = text.encode("ascii") + b"directory-signature "
    for number, each in enumerate(signers):
        signature = base64.b64encode(hashlib.sha1(covered[: len(text) + 20]).digest() + each.key).decode("ascii")
        words = f"{'directory-signature ' if number else ''}{each.identity} {each.key_digest()}\n"
        covered += f"{words}-----BEGIN SIGNATURE-----\n{signature}\n-----END SIGNATURE-----\n".encode("ascii")
    return covered


def why_not(key, digest, signature):
    """Whether a signature is the digest and the key."""
    return None if signature == digest + key else "it is another"


class Periods(unittest.TestCase):
    """What is looked at in a period."""

    def setUp(self):
        self.signers = [periods.Signer("auth1", FIRST, b"first"), periods.Signer("auth2", SECOND, b"second")]

    def test_the_first_period_leaves_time_to_start(self):
        for now, ready, valid_after in ((3000, 45, 3300), (3175, 45, 3300), (3175.5, 45, 3600), (3299, 0, 3600)):
            self.assertEqual(periods.first_valid_after(now, ready, (300, 40, 40)), valid_after)
        self.assertEqual(periods.first_valid_after(3215, 45, (300, 20, 20)), 3300)

    def test_no_authority_starts_before_a_voting_that_has_no_relays(self):
        for now, moment in ((3000, 3000), (3175, 3175), (3176, 3301), (3215, 3301), (3260, 3301), (3299, 3301), (3301, 3301)):
            self.assertEqual(periods.starts_at(now, 45, (300, 40, 40)), moment)
            first = periods.first_valid_after(moment, 45, (300, 40, 40))
            self.assertGreaterEqual(first - 80 - moment, 45)

    def test_a_signature_of_each_authority(self):
        text = signed("consensus-method 33\n", *self.signers)
        self.assertIsNone(periods.why_not_signed("consensus", text, self.signers, why_not))

    def test_a_signature_is_missing(self):
        text = signed("consensus-method 33\n", self.signers[1])
        self.assertEqual(periods.why_not_signed("consensus", text, self.signers, why_not), "no signature of auth1")

    def test_a_signature_is_of_a_stranger_or_another_text(self):
        text = signed("consensus-method 33\n", *self.signers)
        self.assertIn("stranger", periods.why_not_signed("consensus", text, self.signers[:1], why_not))
        other = text.replace(b"33", b"32")
        why = periods.why_not_signed("consensus", other, self.signers, why_not)
        self.assertEqual(why, "the signature of auth1: it is another")

    def test_each_signature_counts_once(self):
        text = signed("consensus-method 33\n", self.signers[0], self.signers[0])
        self.assertIn("stranger", periods.why_not_signed("consensus", text, self.signers, why_not))

    def test_no_signature_at_all(self):
        why = periods.why_not_signed("consensus", b"consensus-method 33\n", self.signers, why_not)
        self.assertIsNotNone(why)

    def test_some_may_lack_where_others_are_told(self):
        text = signed("consensus-method 33\n", self.signers[1])
        self.assertEqual(periods.wrong_and_lacking("consensus", text, self.signers, why_not), (None, ["auth1"]))

    def test_a_summary_counts_relays(self):
        told = periods.summary(b"consensus-method 33\nr a\nr b\nrx\n")
        self.assertRegex(told, r"^method 33, 2 relays, 31 bytes \([0-9a-f]{8}\.\.\)$")


class Families(unittest.TestCase):
    """What microdescriptors must say of the families of relays."""

    def setUp(self):
        self.relays = [nodes.Node(f"relay{n}", nodes.RELAY % n, pathlib.Path("/none"), n) for n in (1, 4)]
        self.relays[0].families = ["B", "A"]

    def test_a_vote_names_a_microdescriptor_by_each_method(self):
        named = list(families.voted(VOTE))
        self.assertEqual(named[:2], [("relay1", "DESCRIPTOR1", 32, "OLD1"), ("relay1", "DESCRIPTOR1", 33, "OLD1")])
        self.assertEqual([each[2:] for each in named[2:5]], [(34, "OLD1"), (35, "NEW1"), (32, "BOTH4")])
        self.assertEqual(len(named), 8)

    def test_a_consensus_names_one(self):
        consensus = b"consensus-method 35\nr relay1 IDENTITY1 2026-01-01 00:00:00 10.77.1.1 5001 0\nm NEW1\n"
        self.assertEqual(list(families.chosen(consensus)), [("relay1", 35, "NEW1")])

    def test_votes_part_where_one_descriptor_has_two_by_a_method(self):
        other = VOTE.replace(b"NEW1", b"OTHER1")
        self.assertEqual(list(families.where_votes_part({"auth1": VOTE, "auth2": VOTE})), [])
        told = ["auth1 and auth2 vote different microdescriptors of relay1 by method 35"]
        self.assertEqual(list(families.where_votes_part({"auth1": VOTE, "auth2": other})), told)
        newer = other.replace(b"DESCRIPTOR1", b"NEWER1")
        self.assertEqual(list(families.where_votes_part({"auth1": VOTE, "auth2": newer})), [])

    def test_families_are_named_from_method_35_on(self):
        old, new = b"onion-key\nfamily $A\n", b"onion-key\nfamily $A\nfamily-ids ed25519:A ed25519:B\np accept 80\n"
        given = {"OLD1": old, "NEW1": new, "BOTH4": b"onion-key\n"}
        named = {(nickname, method, digest) for nickname, _, method, digest in families.voted(VOTE)}
        self.assertEqual(list(families.why_not_given(given, named, self.relays)), [])
        told = families.summary(given, named, {("relay1", 35, "NEW1"), ("relay4", 35, "BOTH4")})
        self.assertEqual(told, "3 microdescriptors (32:2 33:2 34:2 35:2), families of 1 relays in the consensus")
        told = list(families.why_not_given({**given, "NEW1": old}, named, self.relays))
        self.assertEqual(told, ["the microdescriptor of relay1 by method 35 names no families"])
        told = list(families.why_not_given({**given, "OLD1": new}, {("relay1", 34, "OLD1")}, self.relays))
        self.assertEqual(told, ["the microdescriptor of relay1 by method 34 names ed25519:A ed25519:B"])

    def test_what_is_named_is_given_out(self):
        told = list(families.why_not_given({}, {("relay1", 35, "NEW1")}, self.relays))
        self.assertEqual(told, ["the microdescriptor of relay1 by method 35 is not given out"])


class Client(unittest.TestCase):
    """What the control port tells."""

    def test_the_path_of_the_stream_to_the_web_server(self):
        relays = ["A" * 40, "B" * 40, "C" * 40]
        path = ",".join(f"${each}~relay{number}" for number, each in enumerate(relays))
        streams = ["250-stream-status=7 SUCCEEDED 4 10.77.9.9:80", "250 OK"]
        other, built = f"3 BUILT ${'D' * 40}~other", f"4 BUILT {path} BUILD_FLAGS=NEED_CAPACITY"
        circuits = ["250+circuit-status=", other, built, ".", "250 OK"]
        self.assertEqual(client.path_of(streams, circuits), relays)
        single = ["250-circuit-status=4 BUILT " + path, "250 OK"]
        self.assertEqual(client.path_of(streams, single), relays)
        self.assertEqual(client.path_of(["250-stream-status=", "250 OK"], circuits), [])


class Nodes(unittest.TestCase):
    """What the nodes are given."""

    def setUp(self):
        folder = tempfile.TemporaryDirectory()
        self.addCleanup(folder.cleanup)
        self.folder = pathlib.Path(folder.name)
        self.ours = nodes.Node("auth1", "10.77.0.1", self.folder / "auth1", 1, "3" * 40, FIRST, True)
        self.tor = nodes.Node("auth2", "10.77.0.2", self.folder / "auth2", 2, "4" * 40, SECOND)
        self.relay = nodes.Node("relay1", "10.77.1.1", self.folder / "relay1", 1, "5" * 40)
        (self.ours.folder / "keys").mkdir(parents=True)
        (self.ours.folder / "keys" / "authority_certificate").write_text("dir-key-certificate-version 3\n", "ascii")

    def test_an_authority_of_ours_is_known_without_an_orport(self):
        lines = nodes.relay_torrc(self.folder, self.relay, [self.ours, self.tor]).splitlines()
        self.assertIn(f"DirAuthority auth1 no-v2 v3ident={FIRST} 10.77.0.1:7001 {'3' * 40}", lines)
        self.assertIn(f"DirAuthority auth2 orport=5001 no-v2 v3ident={SECOND} 10.77.0.2:7001 {'4' * 40}", lines)

    def test_a_client_comes_in_by_the_relays(self):
        node = nodes.Node("client", nodes.CLIENT, self.folder / "client", 0)
        lines = nodes.client_torrc(self.folder, node, [self.ours], [self.relay]).splitlines()
        self.assertIn(f"FallbackDir 10.77.1.1 orport=5001 id={'5' * 40}", lines)

    def test_relays_know_an_authority_by_the_mirror_before_it(self):
        self.ours.mirror = "10.77.4.1"
        lines = nodes.relay_torrc(self.folder, self.relay, [self.ours]).splitlines()
        self.assertIn(f"DirAuthority auth1 no-v2 v3ident={FIRST} 10.77.4.1:7001 {'3' * 40}", lines)
        lines = nodes.authority_torrc(self.folder, self.tor, [self.ours], "0.4.9").splitlines()
        self.assertIn(f"DirAuthority auth1 no-v2 v3ident={FIRST} 10.77.0.1:7001 {'3' * 40}", lines)

    def test_a_relay_is_given_its_families(self):
        self.assertNotIn("Family", nodes.relay_torrc(self.folder, self.relay, [self.ours]))
        self.relay.families, self.relay.listed = ["B", "A"], [FIRST, SECOND]
        lines = nodes.relay_torrc(self.folder, self.relay, [self.ours]).splitlines()
        given = [line for line in lines if "Family" in line]
        self.assertEqual(given, ["FamilyId B", "FamilyId A", f"MyFamily ${FIRST},${SECOND}"])

    def test_an_authority_keeps_its_schedule(self):
        self.ours.schedule = self.tor.schedule = (300, 20, 25)
        lines = nodes.authority_torrc(self.folder, self.tor, [self.ours, self.tor], "0.4.9").splitlines()
        for words, seconds in (("VotingInterval", 300), ("VoteDelay", 20), ("DistDelay", 25)):
            self.assertIn(f"V3Auth{words} {seconds} seconds", lines)
        self.assertIn("schedule 300 20 25", nodes.station(self.ours, [self.ours], [], []).splitlines())

    def test_a_station_has_the_network_and_the_shared_lines(self):
        vote = "client-versions 1\nflag-thresholds x\nrequired-relay-protocols Link=4\nparams a=1\n"
        shared = nodes.shared_lines(vote)
        self.assertEqual(shared, ["client-versions 1", "required-relay-protocols Link=4"])
        lines = nodes.station(self.ours, [self.ours, self.tor], [self.relay], shared, now=7).splitlines()
        self.assertEqual([line.split()[0] for line in lines].count("authority"), 2)
        self.assertIn("schedule 300 40 40", lines)
        self.assertIn(f"measured {'5' * 40} 7 864000 990000 864000 1001", lines)
        self.assertIn(f"measured {'4' * 40} 7 864000 990000 864000 -", lines)
        self.assertEqual(lines[-1], "end-station")
        for line in shared:
            self.assertIn(line, lines)


def five():
    """Three authorities of ours and two C tors."""
    numbers, none = range(1, 6), pathlib.Path("/none")
    return [nodes.Node(f"auth{n}", nodes.AUTHORITY % n, none, n, identity=str(n) * 40, is_ours=n < 4) for n in numbers]


class Faults(unittest.TestCase):
    """What is put in, and what is seen of it."""

    def test_a_plan_has_seven_periods_and_its_steps_in_order(self):
        plan = faults.plan(five())
        self.assertEqual(len(plan), 7)
        for each in plan:
            moments = [moment for moment, _ in each.steps]
            self.assertEqual(moments, sorted(moments))
            # Behind what is renewed after the period before, and in front of what is renewed after this one.
            self.assertTrue(all(-190 <= moment <= client.BEGINS_AT for moment in moments))
        self.assertEqual([each.silences for each in plan], [False, False, True, False, False, False, False])
        self.assertEqual([moment for moment, _ in plan[2].steps], [-70, -10])

    def test_a_daemon_is_killed_and_started(self):
        with tempfile.TemporaryDirectory() as folder:
            started = processes.Processes(pathlib.Path(folder))
            started.start("auth1-daemon", ["sleep", "60"])
            network = faults.Network(None, folder, started, five(), [])
            self.assertEqual(started.ended(), [])
            faults.kill("auth1")(network)
            self.assertEqual(started.ended(), [])
            started.start("auth2", ["sh", "-c", "echo why; exit 3"])
            started.started["auth2"].wait()
            self.assertEqual(started.ended(), ["auth2 ended with status 3: why"])
            self.assertRaisesRegex(SystemExit, "^network: auth2 ended with status 3: why$", started.must_live)
            started.start("auth2", ["sh", "-c", "echo Raw assertion failed; echo trace; exit 4"])
            started.started["auth2"].wait()
            self.assertEqual(started.ended(), ["auth2 ended with status 4: Raw assertion failed"])

    def test_two_votes_and_two_signatures_are_seen(self):
        watch = seen.Watch(five())
        watch.votes[300, "auth1"] |= {b"one", b"other"}
        watch.votes[600, "auth1"] |= {b"one"}
        watch.votes[300, "auth2"] |= {b"one"}
        form = "additional-signature microdesc sha256 %s KEY\n-----BEGIN SIGNATURE-----\n%s\n-----END SIGNATURE-----\n"
        self.assertEqual(watch.take((form % ("4" * 40, "AA") + form % ("5" * 40, "BB")).encode("ascii"), 300), 2)
        self.assertEqual(list(watch.twice(300)), ["2 votes of auth1 are about"])
        self.assertEqual(watch.take((form % ("4" * 40, "AC")).encode("ascii"), 300), 1)
        told = ["2 votes of auth1 are about", "2 signatures of auth4 under consensus-microdesc are about"]
        self.assertEqual(list(watch.twice(300)), told)
        self.assertEqual(list(watch.twice(600)), [])

    def test_the_signature_that_is_published_is_the_one_that_was_exchanged(self):
        watch = seen.Watch(five())
        key = periods.Signer("auth1", "1" * 40, b"first")
        text = signed("consensus-method 33\n", key)
        watch.take_published("consensus", text, 300)
        signature = text.split(b"\n")[3].decode("ascii")
        words = "directory-signature %s KEY\n-----BEGIN SIGNATURE-----\n%s\n-----END SIGNATURE-----\n"
        watch.take((words % ("1" * 40, signature)).encode("ascii"), 300)
        self.assertEqual(list(watch.twice(300)), [])
        watch.take((words % ("1" * 40, "AA")).encode("ascii"), 300)
        self.assertEqual(list(watch.twice(300)), ["2 signatures of auth1 under consensus are about"])

    def test_the_moment_of_a_document(self):
        self.assertEqual(seen.valid_after_of(b"x\nvalid-after 1970-01-01 00:05:00\n"), 300)
        self.assertIsNone(seen.valid_after_of(b"x\nvalid-after 1970-01-41 00:05:00\n"))
        self.assertIsNone(seen.valid_after_of(b""))

    def test_a_relay_that_is_listed_runs(self):
        relay = nodes.Node("relay1", "10.77.1.1", pathlib.Path("/none"), 1, fingerprint="00" * 19 + "01")
        entry = b"r relay1 " + base64.b64encode(bytes(19) + b"\x01")[:-1] + b" 2026-01-01 00:00:00 10.77.1.1 5001 0\ns %s\n"
        self.assertEqual(faults.not_listed(b"front\n" + entry % b"Fast Running V2Dir", [relay]), [])
        self.assertEqual(faults.not_listed(b"front\n" + entry % b"Fast V2Dir", [relay]), ["relay1"])
        self.assertEqual(faults.not_listed(b"front\n", [relay]), ["relay1"])


class Disagree(unittest.TestCase):
    """What authorities vote that do not vote alike."""

    def test_no_version_has_a_majority(self):
        told = {line for each in five() for line in disagree.lines_of(each, ["client-versions 1,2"])}
        self.assertEqual(told, {f"client-versions {disagree.version_of(each, '1')}" for each in five()})
        self.assertEqual(len(told), 5)

    def test_the_first_two_vote_older_protocols(self):
        line = "recommended-relay-protocols Cons=1-2 Link=4-5,7 Relay=2 Padding=1,2 Desc=1-5"
        first, second, third, *_ = five()
        self.assertEqual(disagree.lines_of(third, [line]), [line])
        older = "recommended-relay-protocols Cons=1 Link=4-5 Relay=2 Padding=1 Desc=1-4"
        self.assertEqual([disagree.lines_of(each, [line]) for each in (first, second)], [[older], [older]])

    def test_a_tor_is_away_for_two_periods(self):
        plan = disagree.plan(five())
        self.assertEqual([each.touched for each in plan], [(), ("auth5",), ("auth5",), ()])
        self.assertEqual([[moment for moment, _ in each.steps] for each in plan], [[], [-170], [45], []])


class Mirrors(unittest.TestCase):
    """What the mirrors gave."""

    def test_answers_are_counted_by_their_kind(self):
        told = (
            "200 MISS /tor/status-vote/current/consensus-microdesc/AA+BB.z\n200 - /tor/status-vote/current/consensus\n"
            "200 HIT /tor/micro/d/AA-BB\n200 HIT /tor/keys/all.z\n404 - /tor/x\n200 STALE /tor/micro/d/AA\n"
        )
        with tempfile.TemporaryDirectory() as folder:
            for each in five()[:2]:
                (pathlib.Path(folder) / f"{each.name}-mirrored").mkdir()
                (pathlib.Path(folder) / f"{each.name}-mirrored" / "asked").write_text(told, "ascii")
            counts = processes.given_by_mirrors(pathlib.Path(folder), five()[:2])
        self.assertEqual(counts, {"consensus-microdesc": 2, "micro": 4, "keys": 2, "all else": 2})


class Words(unittest.TestCase):
    """The command line."""

    def test_what_is_wrong_is_told_in_a_line(self):
        program = [sys.executable, str(HERE / "network.py")]
        few, none, short = ["--ours", "1", "--tors", "2"], ["--periods", "0"], ["--delay", "19"]
        known = [*few, "--newest-method", "34"]
        alone = [["--faults", "--tors", "1"], ["--disagree", "--ours", "1"]]
        mirrors = [["--mirrors", "/none"], ["--mirrors", "/"]]
        wrong = [few, none, short, known, *alone, *mirrors]
        for words in (["/none"], ["/"], *([sys.executable, *each] for each in wrong)):
            done = subprocess.run([*program, *words], capture_output=True, check=False, timeout=300)
            self.assertEqual(done.returncode, 1)
            self.assertRegex(done.stderr.decode("utf-8"), r"^network: [^\n]+\n$")


if __name__ == "__main__":
    unittest.main()
