#!/usr/bin/env python3
"""A Tor network in a network namespace: authorities of dirauth, or among C tors, relays, and a client.

    network.py ../../crates/dirauth/out/dirauth --ours 3 --tors 2 --relays 6 --periods 3

makes a network namespace in which authorities, real relays and a client run, and goes through so many periods of five
minutes. Of each it tells a line: how many votes and signatures each authority holds, what is published, and what a client
did that was new. It ends with status 0 only where in each period every authority held all votes and published the same text
of each flavour with a right signature of each, and where a client that came from nothing fetched a page through three
relays. All that it started ends with it; nothing is left behind, but the folder that --folder names.

With --newest-method 35 our authorities know the methods that C tor 0.4.9 knows. With less more than a third of all
authorities must be ours, since C tors choose a later method else. With --families relays have family keys. In each period
the microdescriptors that ours vote and give out are held against those of the others and the families of their relays.

With --measured a C tor measures the relays (contrib/measure), and between two periods each authority of ours is given a new
station input and its daemon is started anew.

With --faults faults are put into seven periods (faults.py). With --disagree authorities vote versions and protocols that
differ, and a C tor is away for two periods of four (disagree.py). With --mirrors all relays and the client know the
authorities by two mirrors before them.

It wants to be root, and Debian's tor, nginx, iproute2 and python3-cryptography.
"""
import argparse
import importlib.util
import os
import pathlib
import shutil
import signal
import subprocess
import sys
import tempfile
import time

import client
import disagree
import families
import faults
import nodes
import periods
import processes
import renewal
import starting
from starting import MOST_AUTHORITIES, MOST_RELAYS, READY

# The least relays of which a client can make a path, also where some are of one family.
LEAST_RELAYS, LEAST_OF_FAMILIES = 3, 4

# The least of ours and of C tors into whose network faults are put, and those that can disagree.
LEAST_OF_FAULTS, LEAST_OF_DISAGREE = (3, 2), (1, 2)

# The most periods: what the stations say of relays holds for 2,700 seconds.
MOST_PERIODS = 7

# How many periods there are where authorities disagree.
MOST_DISAGREE = 4

# How long votes may be exchanged, and signatures as long again, in seconds.
LEAST_DELAY, MOST_DELAY = 20, 60

# How long the whole may take beside its periods, in seconds.
BESIDE = 900

# Which package has which program.
PACKAGES = {"tor": "tor", "tor-gencert": "tor", "nginx": "nginx", "ip": "iproute2", "unshare": "util-linux"}

# What runs a command in a namespace of its own, which ends with this process, however that ends.
UNSHARE = ["setpriv", "--pdeathsig", "KILL", "unshare", "--net", "--mount", "--pid", "--fork", "--mount-proc", "--kill-child"]

# What is asked by a number, and what is asked or not.
NUMBERS = ("ours", "tors", "relays", "periods", "newest_method", "delay")
SWITCHES = ("families", "measured", "faults", "disagree")


def line_of(period, told):
    """The line of a period."""
    votes = " ".join(f"{name}:{held}" for name, held in period.votes.items())
    signatures = " ".join(f"{name}:{held}" for name, held in period.signatures.items())
    texts = "; ".join(f"{flavour} {text}" for flavour, text in period.published.items())
    head = f"{'WRONG' if period.faults else 'ok'} {period.time()}"
    return "; ".join([f"{head}: votes {votes}", f"signatures {signatures}", texts, *told])


def go_through(given, folder):
    """Goes through the periods, and says whether all was right."""
    started = processes.Processes(folder)
    starting.make_namespace()
    authorities, relays = starting.start_all(given, folder, started)
    first = periods.first_valid_after(time.time(), READY, authorities[0].schedule)
    told = f"{len(authorities)} authorities, {len(relays)} relays; the first consensus is due"
    print(f"{told} in {first - time.time():.0f} seconds", flush=True)
    holds = True
    for number in range(given.periods):
        period = periods.look_at(first + number * nodes.INTERVAL, authorities, folder)
        started.must_live()
        told = [families.look_at(period, authorities, relays), starting.used(started, authorities)]
        if number == 0:
            starting.start_anew(started, relays, given.mirrors is not None)
        periods.sleep_until(period.valid_after + client.BEGINS_AT)
        done, fault = client.new_clients(started, folder, authorities, relays, not given.measured)
        told.append(done)
        period.faults += [fault] if fault else []
        if given.measured:
            period.faults += renew_all(given, started, authorities)
        if given.mirrors:
            told.append(mirrored(period, folder, authorities))
        print(line_of(period, told), flush=True)
        for each in period.faults:
            print(f"    {each}", flush=True)
        holds = holds and not period.faults
    return holds


def renew_all(given, started, authorities):
    """Renews what our authorities are given: what went wrong."""
    told = [renewal.renew(started, given.dirauth, each) for each in authorities if each.is_ours]
    return [each for each in told if each is not None]


def mirrored(period, folder, authorities):
    """What the mirrors gave so far."""
    counts = processes.given_by_mirrors(folder, authorities)
    for each in processes.MIRRORED:
        if not counts[each]:
            period.faults.append(f"the mirrors gave nobody {each}")
    return "the mirrors gave " + ", ".join(f"{each} {count} times" for each, count in sorted(counts.items()))


def inside(given):
    """In the namespace: goes through the periods, and ends in time."""
    os.nice(10)
    signal.signal(signal.SIGINT, lambda *_: sys.exit(130))
    signal.signal(signal.SIGALRM, lambda *_: sys.exit("network: it took too long"))
    signal.alarm(given.periods * nodes.INTERVAL + BESIDE)
    folder = given.folder
    (folder / "resolv.conf").write_text("nameserver 127.0.0.1\n", "ascii")
    (folder / "run").mkdir()
    nodes.run(["mount", "--bind", str(folder / "run"), "/run"])
    goes_through = faults.go_through if given.faults else disagree.go_through if given.disagree else go_through
    return 0 if goes_through(given, folder) else 1


def outside(given, words):
    """Runs the same words in a namespace, and removes what is left. What runs there ends with its first process."""
    made = pathlib.Path(tempfile.mkdtemp(prefix="network-")) if given.folder is None else given.folder
    if given.folder is not None:
        try:
            nodes.make_folder(made)
        except OSError as error:
            raise SystemExit(f"network: {made}: {error.strerror}") from None
    signal.signal(signal.SIGTERM, lambda *_: sys.exit(143))
    again = [sys.executable, str(pathlib.Path(__file__).resolve()), *words, "--inside", "--folder", str(made.resolve())]
    process = subprocess.Popen([*UNSHARE, *again])
    try:
        return process.wait()
    except KeyboardInterrupt:
        return 130
    finally:
        process.kill()
        process.wait()
        if given.folder is None:
            shutil.rmtree(made, ignore_errors=True)


def look_before(given):
    """Looks whether all is there that is needed."""
    if os.geteuid() != 0:
        raise SystemExit("network: it wants to be root")
    for each in filter(None, (given.dirauth, given.mirrors)):
        if not os.access(each, os.X_OK) or each.is_dir():
            raise SystemExit(f"network: {each} is no program")
    for name, package in PACKAGES.items():
        if shutil.which(name) is None:
            raise SystemExit(f"network: there is no {name}: apt-get install {package}")
    if importlib.util.find_spec("cryptography") is None:
        raise SystemExit("network: there is no cryptography: apt-get install python3-cryptography")
    look_at_numbers(given)


def look_at_numbers(given):
    """Looks whether there can be such a network."""
    if given.ours < 1 or given.ours + given.tors > MOST_AUTHORITIES:
        raise SystemExit(f"network: 1 to {MOST_AUTHORITIES} authorities, one of them ours")
    if given.newest_method < nodes.NEWEST_OF_TOR and 3 * given.ours <= given.ours + given.tors:
        raise SystemExit(f"network: more than a third of the authorities ours, or --newest-method {nodes.NEWEST_OF_TOR}")
    least = LEAST_OF_FAULTS if given.faults else LEAST_OF_DISAGREE if given.disagree else (1, 0)
    if given.ours < least[0] or given.tors < least[1]:
        raise SystemExit(f"network: --ours {least[0]} --tors {least[1]}, or more of them")
    if not LEAST_DELAY <= given.delay <= MOST_DELAY:
        raise SystemExit(f"network: {LEAST_DELAY} to {MOST_DELAY} seconds for votes")
    least = LEAST_OF_FAMILIES if given.families else LEAST_RELAYS
    if not least <= given.relays <= MOST_RELAYS or not 1 <= given.periods <= MOST_PERIODS:
        raise SystemExit(f"network: {least} to {MOST_RELAYS} relays, 1 to {MOST_PERIODS} periods")


def main():
    """Goes through the periods in a namespace."""
    parser = argparse.ArgumentParser(description=__doc__, formatter_class=argparse.RawDescriptionHelpFormatter)
    parser.add_argument("dirauth", type=pathlib.Path, metavar="DIRAUTH", help="the program")
    parser.add_argument("--ours", type=int, default=3, metavar="N", help="authorities of dirauth (default: %(default)s)")
    parser.add_argument("--tors", type=int, default=0, metavar="N", help="authorities that are C tors (default: %(default)s)")
    parser.add_argument("--relays", type=int, default=6, metavar="N", help="relays (default: %(default)s)")
    parser.add_argument("--periods", type=int, default=3, metavar="N", help="how many periods (default: %(default)s)")
    parser.add_argument(
        "--newest-method",
        type=int,
        default=nodes.NEWEST_METHOD,
        choices=range(nodes.NEWEST_METHOD, nodes.NEWEST_OF_TOR + 1),
        help="the newest method that ours know (default: %(default)s)",
    )
    parser.add_argument("--families", action="store_true", help="relays have family keys")
    parser.add_argument(
        "--delay",
        type=int,
        default=nodes.DELAY,
        metavar="SECONDS",
        help="for exchanging votes, and for signatures as long again (default: %(default)s)",
    )
    parser.add_argument("--measured", action="store_true", help="renew what is measured in each period")
    parser.add_argument("--faults", action="store_true", help="put faults into seven periods")
    parser.add_argument("--disagree", action="store_true", help="vote versions and protocols that differ, in four periods")
    parser.add_argument("--mirrors", type=pathlib.Path, metavar="DIRMIRROR", help="two of this stand before all authorities")
    parser.add_argument("--folder", type=pathlib.Path, metavar="FOLDER", help="a new folder in which all is kept")
    parser.add_argument("--inside", action="store_true", help=argparse.SUPPRESS)
    given = parser.parse_args()
    if given.faults or given.disagree:
        given.periods, given.measured = (MOST_PERIODS, True) if given.faults else (MOST_DISAGREE, given.measured)
    if given.inside:
        sys.exit(inside(given))
    look_before(given)
    words = [str(given.dirauth.resolve())]
    words += [f"--{name.replace('_', '-')}={getattr(given, name)}" for name in NUMBERS]
    words += [f"--{name}" for name in SWITCHES if getattr(given, name)]
    words += [f"--mirrors={given.mirrors.resolve()}"] if given.mirrors else []
    sys.exit(outside(given, words))


if __name__ == "__main__":
    main()
