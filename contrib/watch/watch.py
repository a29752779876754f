#!/usr/bin/env python3
"""Watches an authority while it runs: asks `dirauth serve`, or the front before it, at the moments of each period.

    watch.py --daemon 192.0.2.1:9131 --station /etc/dirauth/station [--metrics FILE] [--once]

It looks a moment before the votes are frozen, before the consensus is valid, and behind that, and writes lines: whether
the own vote is there, whose votes and signatures are held, how old the consensus of each flavour is, and how long answers
take. With --metrics it also writes a file in the text form that Prometheus reads (the collector of text files of its node
exporter takes it). With --once it looks at once and ends, with status 1 where something is amiss.

The schedule and the authorities are those of the station input, and so is the moment at which something was measured last
and that at which the certificate ends. Beyond its limit each of these, and how many relays run in the own vote, is told in
a line on standard error.
"""
import argparse
import collections
import contextlib
import http.client
import os
import pathlib
import re
import sys
import time

from station import moment, station_of

# How many seconds before the freeze, and before the valid-after, what is held is looked at, and how many behind the
# valid-after the consensus is.
BEFORE, BEHIND = 3, 5

# How many seconds an answer may take.
PATIENCE = 20

# The limits, where no others are named: of a hundred relays of the own vote so many run; so many seconds old is the newest
# measurement when votes are made, since it holds so long; and so many days are left to the certificate.
RUNNING, MEASURED, CERTIFICATE = 50, 2700, 14

DAY = 86_400

FLAVOURS = {"ns": "consensus", "microdesc": "consensus-microdesc"}

# One number that is told: its name, what it says, its labels, and the number.
Metric = collections.namedtuple("Metric", "name meaning labels value")


class Daemon:
    """What is asked: documents by their paths, and how long the longest answer of a look took."""

    def __init__(self, address):
        self.address = address
        self.slowest = 0.0

    def get(self, path):
        """The document at a path, or None; who does not answer is an OSError."""
        begin = time.monotonic()
        try:
            with contextlib.closing(http.client.HTTPConnection(self.address, timeout=PATIENCE)) as connection:
                connection.request("GET", path)
                response = connection.getresponse()
                body = response.read()
                return body.decode("utf-8", "replace") if response.status == 200 else None
        except (ValueError, http.client.HTTPException) as error:
            raise OSError(str(error) or type(error).__name__) from None
        finally:
            self.slowest = max(self.slowest, time.monotonic() - begin)


def signers(document):
    """Whose signatures of each flavour a document of signatures has."""
    found = {flavour: set() for flavour in FLAVOURS}
    for words in re.findall(r"(?m)^(?:directory|additional)-signature ([^\n]+)$", document):
        name = re.search(r"\b[0-9A-F]{40}\b", words)
        if name is not None:
            found["microdesc" if words.startswith("microdesc ") else "ns"].add(name.group(0))
    return found


def votes(daemon, station, now):
    """What is said of the votes that are held, and of the own one."""
    held = {name: daemon.get(f"/tor/status-vote/next/{name}") is not None for name in station.authorities}
    own = daemon.get("/tor/status-vote/next/authority")
    yield Metric("own_vote", "Whether the own vote is held.", {}, int(own is not None))
    yield Metric("votes", "How many votes are held.", {}, sum(held.values()))
    if own is not None:
        flags = re.findall(r"(?m)^s(.*)$", own)
        yield Metric("relays_voted", "How many relays the own vote lists.", {}, len(flags))
        running = sum("Running" in words.split() for words in flags)
        yield Metric("relays_running", "How many relays run in the own vote.", {}, running)
    if station.measured is not None:
        age = int(now) - station.measured
        yield Metric("measurement_age_seconds", "How old the newest measurement of a relay is.", {}, age)
    for name, is_held in held.items():
        yield Metric("vote", "Whether the vote of an authority is held.", {"authority": name}, int(is_held))


def signatures(daemon, station, _):
    """What is said of the signatures that are held."""
    found = signers(daemon.get("/tor/status-vote/next/consensus-signatures") or "")
    for flavour, names in found.items():
        yield Metric("signatures", "How many signatures are held.", {"flavour": flavour}, len(names))
        for name in station.authorities:
            labels = {"flavour": flavour, "authority": name}
            yield Metric("signature", "Whether the signature of an authority is held.", labels, int(name in names))


def consensuses(daemon, station, now):
    """What is said of what is published."""
    for flavour, path in FLAVOURS.items():
        text = daemon.get(f"/tor/status-vote/current/{path}") or ""
        found = re.search(r"(?m)^valid-after ([0-9: -]{19})$", text)
        age = -1 if found is None else int(now) - moment(found.group(1))
        missed = age < 0 or age >= station.interval
        labels = {"flavour": flavour}
        yield Metric("consensus_age_seconds", "How old what is published is; -1 where nothing is.", labels, age)
        yield Metric("consensus_is_missed", "Whether the consensus of this period is not published.", labels, int(missed))
        listed = len(re.findall(r"(?m)^r ", text))
        yield Metric("relays", "How many relays are listed.", labels, listed)
    if station.expires is not None:
        left = station.expires - int(now)
        yield Metric("certificate_ends_seconds", "How many seconds the own certificate holds.", {}, left)


# What is looked at, by the names of the looks.
LOOKS = {"votes": votes, "signatures": signatures, "consensus": consensuses}


def next_look(station, now):
    """The moment of the next look, and its name."""
    valid_after = int(now) // station.interval * station.interval
    freeze = station.interval - station.dist
    places = {"consensus": BEHIND, "votes": freeze - BEFORE, "signatures": station.interval - BEFORE}
    moments = [(valid_after + turn + place, name) for turn in (0, station.interval) for name, place in places.items()]
    return min(each for each in moments if each[0] > now)


def looks_now(station, now):
    """The looks that tell something at this moment, each with whether what it tells is settled."""
    place, freeze = now % station.interval, station.interval - station.dist
    looks = [("consensus", place >= BEHIND)]
    if place >= freeze - station.vote:
        looks.append(("votes", place >= freeze - BEFORE))
    if place >= freeze:
        looks.append(("signatures", place >= station.interval - BEFORE))
    return looks


def look(daemon, station, name, now):
    """What one look finds, or that nobody answers."""
    daemon.slowest = 0.0
    try:
        found = list(LOOKS[name](daemon, station, now))
    except OSError as error:
        print(f"watch: {daemon.address} does not answer: {error.strerror or error}", file=sys.stderr)
        return [Metric("up", "Whether it answers.", {}, 0)]
    meaning, seconds = "How long the longest answer of a look took.", round(daemon.slowest, 3)
    slowest = Metric("slowest_answer_seconds", meaning, {"look": name}, seconds)
    return [Metric("up", "Whether it answers.", {}, 1), *found, slowest]


def beyond_limits(found, limits):
    """A line for each number that is beyond its limit."""
    values = {each.name: each.value for each in found if not each.labels}
    voted, running = (values.get(name) for name in ("relays_voted", "relays_running"))
    if voted is not None and (not running or running * 100 < voted * limits.running):
        yield f"{running} of {voted} relays run in the own vote: look at what measures, and at the renewal"
    age = values.get("measurement_age_seconds", 0)
    if age > limits.measured:
        yield f"the newest measurement of a relay is {age} seconds old: look at what measures, and at the renewal"
    left = values.get("certificate_ends_seconds")
    if left is not None and left < limits.certificate * DAY:
        yield f"the own certificate ends in {left // DAY} days: make a new one" if left > 0 else "the own certificate has ended"


def is_amiss(found, station):
    """Whether something is not as it is to be: nobody answers, no own vote, too few votes or signatures, no consensus."""
    wanted = {"up": 1, "own_vote": 1}
    for each in found:
        few = each.name in ("votes", "signatures") and 2 * each.value <= len(station.authorities)
        if few or each.value != wanted.get(each.name, each.value) or (each.name == "consensus_is_missed" and each.value):
            return True
    return False


def line_of(found, name, now):
    """The line that tells what a look found."""
    told = []
    for each in found:
        if each.name not in ("vote", "signature", "up"):
            labels = "".join(f" {label}" for key, label in each.labels.items() if key != "look")
            told.append(f"{each.name}{labels} {each.value}")
    lacking = [f"{each.labels['authority'][:8]}" for each in found if each.name in ("vote", "signature") and not each.value]
    if lacking:
        told.append("without " + " ".join(dict.fromkeys(lacking)))
    up = "" if found[0].value else " does not answer"
    return f"{time.strftime('%Y-%m-%d %H:%M:%S', time.gmtime(now))} {name}{up}: {', '.join(told)}".rstrip(": ")


def metrics_text(held):
    """The text of all that was found last, in the form that Prometheus reads."""
    text, told = "", set()
    for each in sorted(held.values(), key=lambda each: each.name):
        if each.name not in told:
            text += f"# HELP dirauth_{each.name} {each.meaning}\n# TYPE dirauth_{each.name} gauge\n"
            told.add(each.name)
        labels = ",".join(f'{key}="{value}"' for key, value in each.labels.items())
        text += f"dirauth_{each.name}{{{labels}}} {each.value}\n" if labels else f"dirauth_{each.name} {each.value}\n"
    return text


def write_metrics(path, held):
    """Puts a new file of metrics in place of the old one, and says whether it could; the next look tries again."""
    new = pathlib.Path(f"{path}.new")
    try:
        new.write_text(metrics_text(held), encoding="ascii")
        os.replace(new, path)
    except OSError as error:
        with contextlib.suppress(OSError):
            new.unlink()
        print(f"watch: {path}: {error.strerror}", file=sys.stderr, flush=True)
        return False
    return True


class Watch:
    """What was found last, and where it is told."""

    def __init__(self, given):
        self.path = given.station
        self.station = station_of(given.station)
        self.daemon = Daemon(given.daemon)
        self.metrics = given.metrics
        self.limits = given
        self.held = {}

    def read_again(self):
        """Reads the station input again, which is renewed; where it is none now, the one before is kept."""
        try:
            self.station = station_of(self.path)
        except SystemExit as error:
            print(error, file=sys.stderr, flush=True)

    def take(self, name, now):
        """Looks, and tells what is found. Whether something is amiss."""
        self.read_again()
        found = look(self.daemon, self.station, name, now)
        self.held.update(((each.name, *each.labels.values()), each) for each in found)
        print(line_of(found, name, now), flush=True)
        beyond = list(beyond_limits(found, self.limits))
        for line in beyond:
            print(f"watch: {line}", file=sys.stderr, flush=True)
        is_written = self.metrics is None or write_metrics(self.metrics, self.held)
        return is_amiss(found, self.station) or bool(beyond) or not is_written

    def once(self):
        """Looks at what there is now."""
        now = time.time()
        amiss = [self.take(name, now) and settled for name, settled in looks_now(self.station, now)]
        return 1 if any(amiss) or not self.held["up",].value else 0

    def always(self):
        """Looks at each moment, until it is stopped."""
        while True:
            at, name = next_look(self.station, time.time())
            time.sleep(max(0.0, at - time.time()))
            self.take(name, time.time())


def main():
    """Watches."""
    parser = argparse.ArgumentParser(description=__doc__, formatter_class=argparse.RawDescriptionHelpFormatter)
    parser.add_argument("--daemon", required=True, metavar="IP:PORT", help="where `dirauth serve` or its front listens")
    parser.add_argument("--station", required=True, metavar="FILE", help="the station input")
    parser.add_argument("--metrics", metavar="FILE", help="where metrics are written for Prometheus")
    parser.add_argument("--once", action="store_true", help="look once, and end")
    parser.add_argument(
        "--running", type=int, default=RUNNING, metavar="N", help="of a hundred voted relays so many run (default: %(default)s)"
    )
    parser.add_argument(
        "--measured", type=int, default=MEASURED, metavar="SECONDS", help="the oldest measurement (default: %(default)s)"
    )
    parser.add_argument(
        "--certificate", type=int, default=CERTIFICATE, metavar="DAYS", help="left to the certificate (default: %(default)s)"
    )
    given = parser.parse_args()
    watch = Watch(given)
    return watch.once() if given.once else watch.always()


if __name__ == "__main__":
    try:
        sys.exit(main())
    except KeyboardInterrupt:
        pass
