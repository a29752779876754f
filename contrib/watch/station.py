"""What a watch wants to know of a station input."""
import calendar
import collections
import pathlib
import re
import time

# `measured` is when something was measured last, and `expires` when the own certificate ends, None where it does not say so.
Station = collections.namedtuple("Station", "own authorities interval vote dist measured expires")


def moment(text):
    """The seconds since 1970 of a moment as documents write it."""
    return calendar.timegm(time.strptime(text, "%Y-%m-%d %H:%M:%S"))


def station_of(path):
    """The own authority, all of them, and the schedule, by a station input."""
    try:
        text = pathlib.Path(path).read_text(encoding="utf-8", errors="replace").partition("\nend-station\n")[0]
    except OSError as error:
        raise SystemExit(f"watch: {path}: {error.strerror}") from None
    own = re.search(r"(?m)^own \S+ ([0-9A-Fa-f]{40}) ", text)
    schedule = re.search(r"(?m)^schedule ([0-9]+) ([0-9]+) ([0-9]+)$", text)
    if own is None or schedule is None:
        raise SystemExit(f"watch: {path}: it is no station input")
    interval, vote, dist = (int(word) for word in schedule.groups())
    if not 0 < vote + dist < interval:
        raise SystemExit(f"watch: {path}: {schedule.group(0)}: these seconds are no schedule")
    names = [name.upper() for name in re.findall(r"(?m)^authority ([0-9A-Fa-f]{40}) ", text)]
    expires = re.search(r"(?m)^dir-key-expires ([0-9: -]{19})$", text)
    ends = None if expires is None else moment(expires.group(1))
    return Station(own.group(1).upper(), sorted(names), interval, vote, dist, measured_at(text), ends)


def measured_at(text):
    """When something was measured last by a station input, or None where nothing was."""
    found = re.search(r"(?m)^measured-at ([0-9]+)$", text)
    reached = re.findall(r"(?m)^measured [0-9A-Fa-f]{40} ([0-9]+) ", text)
    if found is not None:
        return int(found.group(1))
    return max(map(int, reached), default=0) or None
