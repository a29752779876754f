#!/usr/bin/env python3
"""Renews what an authority is given: what was measured of each relay, and the descriptors that its daemon has.

    renew.py --station /etc/dirauth/station --measuring 127.0.0.1:9930 --daemon 127.0.0.1:9131

puts a new station input in place of the old one: its lines stay, but for the `measured` lines, which are made of the last
vote of the C tor authority that measures, and the descriptors behind them, which are those that the daemon has now. The
kilobytes of an old `measured` line stay. With --bandwidth that bandwidth file stands in front. The daemon is to be started
anew then.

Where the measuring authority is away, has no vote, or an old one, or one that does not tell yet which relays run, what it
measured last is held: the relays that were reached then count as reached now. That is told, and is done for --hold hours
from the last measurement on, which the line `measured-at` of the input has (dirauth passes it over).

It is done between a valid-after and the next voting alone; at another moment, and where anything else is not there, the old
input stays and a line says why, with status 1. With --wait it waits for the moment.
"""
import argparse
import base64
import binascii
import calendar
import contextlib
import http.client
import os
import pathlib
import re
import sys
import time

# Where the measuring authority has its last vote: the one of the voting that is going on, or the one before.
VOTES = ("/tor/status-vote/next/authority", "/tor/status-vote/current/authority")

# How many seconds behind the valid-after, and how many before the next voting, it is too early or too late.
EARLIEST, LATEST = 10, 30

# How old the vote of the measuring authority may be, in seconds.
OLDEST_VOTE = 3600

# For how many hours what was measured is held where nothing new is; and for how many seconds a relay counts as reached.
HOLDS, REACHED_FOR = 6, 2700


class Unmeasured(Exception):
    """Why there is nothing new of the authority that measures."""


def get(address, path):
    """The document at a path, or None where it is not there; nobody who answers is an OSError."""
    try:
        with contextlib.closing(http.client.HTTPConnection(address, timeout=30)) as connection:
            connection.request("GET", path, headers={"Accept-Encoding": "identity"})
            response = connection.getresponse()
            body = response.read()
            return body if response.status == 200 else None
    except (OSError, ValueError, http.client.HTTPException) as error:
        raise OSError(f"{address} does not answer: {error or type(error).__name__}") from None


def schedule(station):
    """The seconds between two consensuses, and those in which votes and signatures are exchanged."""
    found = re.search(rb"(?m)^schedule ([0-9]+) ([0-9]+) ([0-9]+)$", station)
    if found is None:
        raise SystemExit("renew: the station input has no schedule")
    interval, vote, dist = (int(word) for word in found.groups())
    if interval < EARLIEST + LATEST + vote + dist:
        raise SystemExit(f"renew: a schedule of {interval} {vote} {dist} leaves no time for it")
    return interval, vote + dist


def seconds_to_wait(interval, exchange, now):
    """How many seconds it is to the next moment at which an input may be renewed, 0 where it is one now."""
    place = now % interval
    if place < EARLIEST:
        return EARLIEST - place
    return 0 if place <= interval - exchange - LATEST else interval - place + EARLIEST


def moment(text):
    """The seconds since 1970 of a moment as documents write it."""
    return calendar.timegm(time.strptime(text, "%Y-%m-%d %H:%M:%S"))


def item(vote, keyword):
    """The rest of the first line of a keyword in a vote."""
    found = re.search(rf"(?m)^{keyword} (.*)$", vote)
    if found is None:
        raise Unmeasured(f"the vote of the measuring authority has no {keyword} line")
    return found.group(1)


def entries(vote):
    """The relays of a vote: the fingerprint, the flags, and the words of the `stats` line."""
    for entry in re.split(r"(?m)^(?=r )", vote.partition("\ndirectory-footer\n")[0])[1:]:
        identity = re.match(r"r \S+ (\S{27}) ", entry)
        flags = re.search(r"(?m)^s(.*)$", entry)
        stats = re.search(r"(?m)^stats (.*)$", entry)
        if identity and flags and stats:
            words = dict(word.partition("=")[::2] for word in stats.group(1).split())
            yield base64.b64decode(identity.group(1) + "=").hex().upper(), flags.group(1).split(), words


def measured_lines(vote, kilobytes):
    """The `measured` lines of a vote. A relay counts as reached at the moment of the vote where it is Running there."""
    reached = moment(item(vote, "published"))
    lines = []
    for fingerprint, flags, stats in sorted(entries(vote)):
        try:
            uptime = round(float(stats["wfu"]) * 1_000_000)
            between, known = int(stats["mtbf"]), int(stats["tk"])
        except (KeyError, ValueError):
            continue
        last = reached if "Running" in flags else 0
        lines.append(f"measured {fingerprint} {last} {between} {uptime} {known} {kilobytes.get(fingerprint, '-')}")
    return lines


def own_lines(station):
    """The lines of a station input that stay, and its `measured` lines."""
    begin = re.search(rb"(?m)^station 1$", station)
    lines, end, _ = station[begin.start() if begin else 0 :].partition(b"\nend-station\n")
    if not begin or not end:
        raise SystemExit("renew: it is no station input")
    text = lines.decode("utf-8", "surrogateescape").split("\n")
    measured = [line for line in text if line.startswith("measured ")]
    return [line for line in text if not line.startswith(("measured ", "measured-at "))], measured


def measured_anew(vote, old):
    """When a vote was made, and its `measured` lines, which have the kilobytes of the old ones."""
    kilobytes = {words[1]: words[-1] for words in map(str.split, old)}
    try:
        at, lines = moment(item(vote, "published")), measured_lines(vote, kilobytes)
    except (ValueError, binascii.Error) as error:
        raise Unmeasured(f"the vote of the measuring authority is none: {error}") from None
    if not lines:
        raise Unmeasured("the vote of the measuring authority tells of no relay what was measured")
    return at, lines


def reached_at(line):
    """When the relay of a `measured` line was reached last."""
    word = line.split()[2]
    return int(word) if word.isdecimal() else 0


def measured_before(station, old, now, hours, why):
    """When something was measured last, and the old lines of it, in which what was reached then is reached now."""
    found = re.search(rb"(?m)^measured-at ([0-9]+)$", station)
    newest = max(map(reached_at, old), default=0)
    at = int(found.group(1)) if found else newest
    if not newest or not now - at <= hours * 3600:
        told = f"what was measured is {now - at} seconds old" if newest else "nothing was measured before"
        raise SystemExit(f"renew: {why}; {told}, and {hours} hours are held: the old input stays")
    lines = []
    for line in old:
        words = line.split()
        if reached_at(line) + REACHED_FOR > newest:
            words[2] = str(now)
        lines.append(" ".join(words))
    print(f"renew: {why}; what was measured {now - at} seconds ago is held, for {hours} hours", file=sys.stderr)
    return at, lines


def renewed(station, measured, descriptors, bandwidth=None):
    """The new station input."""
    lines, _ = own_lines(station)
    at, measured = measured
    front = b"" if bandwidth is None else bandwidth.rstrip(b"\n") + b"\nend-bandwidth-file\n"
    text = "\n".join([*lines, f"measured-at {at}", *measured, "end-station", ""]).encode("utf-8", "surrogateescape")
    return front + text + descriptors


def last_vote(address, now):
    """The last vote of the measuring authority, which must be new, and tell which relays run."""
    try:
        votes = (get(address, path) for path in VOTES)
        vote = next((each for each in votes if each is not None), None)
    except OSError as error:
        raise Unmeasured(str(error)) from None
    if vote is None:
        raise Unmeasured(f"the measuring authority at {address} has no vote yet")
    text = vote.decode("utf-8", "replace")
    try:
        age = now - moment(item(text, "published"))
    except ValueError as error:
        raise Unmeasured(f"the vote of the measuring authority is none: {error}") from None
    if age > OLDEST_VOTE:
        raise Unmeasured(f"the vote of the measuring authority is {age} seconds old")
    # A tor that was just started does not vote on it, for half an hour.
    if "Running" not in item(text, "known-flags").split():
        raise Unmeasured("the measuring authority does not tell yet which relays run")
    return text


def what_was_measured(given, station, now):
    """When something was measured last, and the `measured` lines: of a new vote, or those that are held."""
    _, old = own_lines(station)
    try:
        return measured_anew(last_vote(given.measuring, now), old)
    except Unmeasured as why:
        return measured_before(station, old, now, given.hold, why)


def descriptors_now(address, station):
    """The descriptors that the daemon has; where it has none, those that it was started with."""
    try:
        return get(address, "/tor/server/all") or station.partition(b"\nend-station\n")[2]
    except OSError as error:
        raise SystemExit(f"renew: {error}") from None


def read(path):
    """The bytes of a file."""
    try:
        return path.read_bytes()
    except OSError as error:
        raise SystemExit(f"renew: {path}: {error.strerror}") from None


def replace(path, text):
    """Puts a new file in place of the old one, with the same rights."""
    new = path.with_name(path.name + ".new")
    try:
        before = path.stat()
        with open(os.open(new, os.O_WRONLY | os.O_CREAT | os.O_TRUNC, 0o600), "wb") as file:
            file.write(text)
        if new.stat().st_gid != before.st_gid:
            os.chown(new, -1, before.st_gid)
        os.chmod(new, before.st_mode & 0o777)
        os.replace(new, path)
    except OSError as error:
        new.unlink(missing_ok=True)
        raise SystemExit(f"renew: {path}: {error.strerror}") from None


def wait_for_moment(station, waits):
    """Waits until the input may be renewed, where that is wanted."""
    wait = seconds_to_wait(*schedule(station), time.time())
    if wait and not waits:
        raise SystemExit(f"renew: votes are due, or were a moment ago: it may be done in {wait:.0f} seconds")
    time.sleep(wait)


def hours(text):
    """A number of hours."""
    if not text.isdecimal():
        raise argparse.ArgumentTypeError("no number of hours")
    return int(text)


def main():
    """Renews the input."""
    parser = argparse.ArgumentParser(description=__doc__, formatter_class=argparse.RawDescriptionHelpFormatter)
    parser.add_argument("--station", required=True, type=pathlib.Path, metavar="FILE", help="the station input")
    parser.add_argument("--measuring", required=True, metavar="IP:PORT", help="the DirPort of the authority that measures")
    parser.add_argument("--daemon", required=True, metavar="IP:PORT", help="where `dirauth serve` listens")
    parser.add_argument("--bandwidth", type=pathlib.Path, metavar="FILE", help="a bandwidth file, for serve --bandwidth")
    parser.add_argument(
        "--hold",
        type=hours,
        default=HOLDS,
        metavar="HOURS",
        help="for how long what was measured last is held where nothing new is (default: %(default)s)",
    )
    parser.add_argument("--wait", action="store_true", help="wait for the moment at which it may be done")
    given = parser.parse_args()
    station = read(given.station)
    wait_for_moment(station, given.wait)
    bandwidth = None if given.bandwidth is None else read(given.bandwidth)
    descriptors = descriptors_now(given.daemon, station)
    measured = what_was_measured(given, station, int(time.time()))
    replace(given.station, renewed(station, measured, descriptors, bandwidth))
    count = len(re.findall(rb"(?m)^router ", descriptors))
    print(f"renew: {len(measured[1])} relays are measured, {count} descriptors; {given.station} is new")


if __name__ == "__main__":
    main()
