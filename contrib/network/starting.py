"""Starting a network in its namespace: authorities, relays, and what stands beside them."""
import time

import client
import families
import nodes
import periods
import processes
import renewal

# The most authorities and relays.
MOST_AUTHORITIES, MOST_RELAYS = 9, 20

# How long all is given to start before votes are due, in seconds.
READY = 45

# The schedule of a tor that is asked which lines it votes.
ASKED_SCHEDULE = (20, 4, 4)


def make_namespace():
    """Makes the addresses of the namespace in which this runs, and a /run of its own."""
    nodes.run(["ip", "link", "set", "lo", "up"])
    addresses = [form % number for form in (nodes.AUTHORITY, nodes.MIRROR) for number in range(1, MOST_AUTHORITIES + 1)]
    addresses += [nodes.RELAY % number for number in range(1, MOST_RELAYS + 1)]
    for address in [*addresses, nodes.CLIENT, nodes.WEB, nodes.ASKED, renewal.ADDRESS]:
        nodes.run(["ip", "address", "add", f"{address}/32", "dev", "lo"])


def lines_of_tor(started, folder, version):
    """The lines of a vote that must be alike, as this machine's tor votes them: one alone is asked."""
    node = nodes.make_authority(folder, "asked", nodes.ASKED, 0, False)
    node.schedule = ASKED_SCHEDULE
    processes.start_tor(started, node, nodes.authority_torrc(folder, node, [node], version))
    path = "/tor/status-vote/next/authority"
    vote = started.wait_for("the vote of a tor that is alone", lambda: processes.get(node.address, path))
    started.stop("asked")
    text = vote.decode("utf-8", "replace")
    methods = [line for line in text.splitlines() if line.startswith("consensus-methods ")]
    print(f"tor {version} votes {' '.join(methods)}", flush=True)
    return nodes.shared_lines(text)


def make_all(given, folder):
    """Makes the authorities and the relays."""
    kinds = [True] * given.ours + [False] * given.tors
    authorities = []
    for number, is_ours in enumerate(kinds, 1):
        each = nodes.make_authority(folder, f"auth{number}", nodes.AUTHORITY % number, number, is_ours)
        each.newest_method, each.schedule = given.newest_method, (nodes.INTERVAL, given.delay, given.delay)
        each.mirror = nodes.MIRROR % number if given.mirrors else ""
        authorities.append(each)
    relays = [nodes.make_relay(folder, number) for number in range(1, given.relays + 1)]
    if given.families:
        families.give_keys(folder, relays)
    return authorities, relays


def as_all(_, told):
    """What an authority votes where all vote alike."""
    return told


def start_all(given, folder, started, lines_of=as_all, version_of=as_all):
    """Makes and starts all, and gives the authorities and relays.

    An authority votes the lines and the version of tor that it is given here for those of the machine's tor.
    """
    authorities, relays = make_all(given, folder)
    version = nodes.tor_version()
    shared = lines_of_tor(started, folder, version)
    ours = [each for each in authorities if each.is_ours]
    processes.give_keys(folder, ours)
    processes.start_key_service(started, folder)
    if given.measured:
        renewal.start(started, folder, version)
    more = ["--measuring", f"{renewal.ADDRESS}:{renewal.DIR_PORT}"] if given.measured else []
    wait_for_moment(authorities[0].schedule)
    for each in ours:
        station = nodes.station(each, authorities, relays, lines_of(each, shared))
        (each.folder / "station").write_text(station, "utf-8")
        processes.start_daemon(started, given.dirauth, each)
        processes.start_front(started, each, more)
    for each in [each for each in authorities if not each.is_ours]:
        text = nodes.authority_torrc(folder, each, authorities, version_of(each, version))
        processes.start_tor(started, each, text)
    for each in ours:
        started.wait_for(f"an answer of {each.name}", lambda each=each: answers(each))
    if given.mirrors:
        processes.start_mirrors(started, given.mirrors, folder, authorities)
    for each in relays:
        processes.start_tor(started, each, nodes.relay_torrc(folder, each, authorities))
    client.start_web_server()
    return authorities, relays


def wait_for_moment(schedule):
    """Waits where votes would be made before the relays are there."""
    moment = periods.starts_at(time.time(), READY, schedule)
    if moment > time.time():
        print(f"votes are due too soon: the authorities start in {moment - time.time():.0f} seconds", flush=True)
    periods.sleep_until(moment)


def answers(node):
    """Whether an authority's front answers."""
    return processes.answer_of(node.address, "/") is not None


def used(started, authorities):
    """What the daemons of our authorities have used."""
    return ", ".join(f"{each.name} uses {started.used(f'{each.name}-daemon')}" for each in authorities if each.is_ours)


def start_anew(started, relays, is_mirrored=False):
    """Starts the relays anew: what they asked for was not there yet, and they wait long before they ask again.

    Where mirrors are before the authorities, that is done once these have the consensus, and the relays ask for all again.
    """
    if is_mirrored:
        processes.wait_for_mirrors(started)
    for each in relays:
        started.stop(each.name)
        for path in each.folder.glob("cached-*") if is_mirrored else ():
            path.unlink()
        processes.start_tor(started, each)
