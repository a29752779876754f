#!/usr/bin/env python3
"""Makes the input with which an authority's daemon is started, and looks whether it may be started with it.

    prepare.py --station /etc/dirauth/station --input /run/dirauth/input [--front 127.0.0.1:9132] [-- WORDS]

writes the station input, with the newest descriptor of each relay behind it: of those that stand there and those that the
front has (contrib/front), since a daemon that ended has lost what was uploaded to it. Then `dirauth make-vote` makes a vote
of it, which is thrown away: where the key service lacks the signing key, or the certificate has expired, `dirauth serve`
would run, tell nothing and never vote. A descriptor that it refuses is left out, and told. WORDS are further words for
`dirauth make-vote`, as `--newest-method 35`.

Where the front has a vote of the own authority for a period of which votes are not due yet, the clock has gone back: it
waits until they are, since `dirauth serve` begins with the period behind it then, and makes no second vote.

A key service that fails is waited for. Anything else that is amiss is told in a line, with status 1, or that of `dirauth`.
"""
import argparse
import calendar
import contextlib
import http.client
import os
import pathlib
import re
import sys
import time

HERE = pathlib.Path(__file__).resolve().parent
sys.path += [str(HERE.parent / "front")]

from directory_documents import newest_descriptors  # pylint: disable=wrong-import-position
from trial import KEY_SERVICE_FAILS, NoProgram, Trial, join, split  # pylint: disable=wrong-import-position

# Where the front has the own vote of the period that goes on, and of the one before.
OWN_VOTES = ("/tor/status-vote/next/authority", "/tor/status-vote/current/authority")

# How many relays, and how many bytes of their descriptors, the input has at most: `dirauth` takes no more.
MOST_RELAYS, MOST_BYTES = 16_384, 200_000_000

# How many seconds a front is given that was started with the machine too.
STARTS_WITHIN = 5

# Seconds between two tries where the key service fails.
TRIES_EVERY = 10


def tell(text):
    """Tells a line."""
    print(f"prepare: {text}", file=sys.stderr, flush=True)


def asked(front, path):
    """The document that the front has at a path, or None; who does not answer is an OSError."""
    try:
        with contextlib.closing(http.client.HTTPConnection(front, timeout=30)) as connection:
            connection.request("GET", path)
            response = connection.getresponse()
            body = response.read()
            return body if response.status == 200 else None
    except (ValueError, http.client.HTTPException) as error:
        raise OSError(str(error) or type(error).__name__) from None


def last_voted(front):
    """The valid-after of the last own vote that the front has, 0 where it has none."""
    found = [re.search(rb"(?m)^valid-after ([0-9: -]{19})$", asked(front, path) or b"") for path in OWN_VOTES]
    moments = [time.strptime(each.group(1).decode("ascii"), "%Y-%m-%d %H:%M:%S") for each in found if each]
    return max((calendar.timegm(each) for each in moments), default=0)


def seconds_to_wait(station, valid_after, now):
    """How many seconds it is until votes for a period that was voted in already are due; then `serve` begins behind it."""
    found = re.search(rb"(?m)^schedule [0-9]+ ([0-9]+) ([0-9]+)$", station)
    due = valid_after - (sum(int(word) for word in found.groups()) if found else 0)
    return max(0, due + 1 - now)


def wait_out(station, front):
    """Waits while a daemon would vote a second time for a period."""
    valid_after = last_voted(front)
    wait = seconds_to_wait(station, valid_after, time.time())
    if wait:
        moment = time.strftime("%Y-%m-%d %H:%M:%S", time.gmtime(valid_after))
        tell(f"a vote for {moment} was made already, so the clock has gone back: waits {wait:.0f} seconds")
    while wait:
        time.sleep(min(wait, 60))
        wait = seconds_to_wait(station, valid_after, time.time())


def of_front(front, station):
    """The descriptors that the front has; one that is away is told, and does without."""
    if front is None:
        return b""
    for tries in range(STARTS_WITHIN, -1, -1):
        try:
            wait_out(station, front)
            return asked(front, "/tor/server/all") or b""
        except ConnectionRefusedError as error:
            why = error.strerror
            time.sleep(1 if tries else 0)
        except OSError as error:
            why = error.strerror or error
            break
    tell(f"the front at {front} does not answer: {why}: what it has is not brought")
    return b""


def chosen(newest, known):
    """The descriptors that the input has room for: of known relays first, then those that were published last."""
    found, size = {}, 0
    for name in sorted(newest, key=lambda name: (name not in known, -newest[name].published)):
        size += len(newest[name].text)
        if len(found) == MOST_RELAYS or size > MOST_BYTES:
            tell(f"{len(newest) - len(found)} descriptors are left out: there is no room for more than {len(found)}")
            break
        found[name] = newest[name].text
    return [found[name] for name in sorted(found)]


def voted(trial, station, descriptors):
    """The descriptors of which a vote can be made; a key service that fails is waited for."""
    waits = False
    while True:
        kept = trial.acceptable(station, descriptors)
        if kept is not None:
            return kept
        if trial.status not in KEY_SERVICE_FAILS:
            tell(f"no vote can be made: {trial.told}")
            sys.exit(trial.status)
        if not waits:
            tell(f"no vote can be made: {trial.told}; it is tried again")
        waits = True
        time.sleep(TRIES_EVERY)


def write(path, text):
    """Writes the input whole, or not at all."""
    new = path.with_name(f"{path.name}.new")
    try:
        with open(os.open(new, os.O_WRONLY | os.O_CREAT | os.O_TRUNC, 0o600), "wb") as file:
            file.write(text)
        os.replace(new, path)
    except OSError as error:
        new.unlink(missing_ok=True)
        raise SystemExit(f"prepare: {path}: {error.strerror}") from None


def main():
    """Makes the input."""
    parser = argparse.ArgumentParser(description=__doc__, formatter_class=argparse.RawDescriptionHelpFormatter)
    parser.add_argument("--station", required=True, type=pathlib.Path, metavar="FILE", help="the station input")
    parser.add_argument("--input", required=True, type=pathlib.Path, metavar="FILE", help="what the daemon is given")
    parser.add_argument("--front", metavar="IP:PORT", help="where front.py listens")
    parser.add_argument("--dirauth", default="dirauth", metavar="PROGRAM", help="the program (default: %(default)s)")
    parser.add_argument("words", nargs="*", metavar="WORDS", help="further words for make-vote")
    given = parser.parse_args()
    try:
        station, behind = split(given.station.read_bytes())
    except OSError as error:
        raise SystemExit(f"prepare: {given.station}: {error.strerror}") from None
    except ValueError as error:
        raise SystemExit(f"prepare: {given.station}: {error}") from None
    newest = newest_descriptors(behind + of_front(given.front, station))
    measured = re.findall(rb"(?m)^measured ([0-9A-Fa-f]{40}) ", station)
    known = {*newest_descriptors(behind), *(name.decode("ascii").upper() for name in measured)}
    descriptors = chosen(newest, known)
    try:
        kept = voted(Trial(given.dirauth, given.words, tell), station, descriptors)
    except NoProgram as error:
        raise SystemExit(f"prepare: {error}") from None
    write(given.input, join(station, kept))
    tell(f"{len(kept)} descriptors, and a vote can be made of them")


if __name__ == "__main__":
    main()
