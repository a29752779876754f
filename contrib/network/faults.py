"""Faults that are put into a network of ours and C tors, period for period, and whether it keeps its word in each.

Of all authorities it is asked again and again, while votes and signatures are exchanged, which of them there are. In each
period the texts of those that publish are equal, with right signatures alone and those of more than half, and no authority
has two votes, or two signatures of a flavour. All relays are listed and a client has its page in each period, but where a
fault silences so many that there can be no consensus: then from the next one on.
"""
import dataclasses
import re
import signal
import threading
import time

import client
import nodes
import periods
import processes
import renewal
import seen
import starting

# For how many hours what was measured is held while what measures is away.
HOLDS = 6

# The columns of the table.
COLUMNS = ("valid-after", "what goes wrong", "votes", "signatures", "published", "relays", "client", "measured", "")


@dataclasses.dataclass(frozen=True)
class Fault:
    """What goes wrong in a period.

    Each step is a moment in seconds from the valid-after, and what is done then to the network. Those that are touched may
    publish nothing; where so many are silenced that there can be no consensus, nobody need publish. Where what measures is
    away, what was measured is held.
    """

    title: str
    steps: tuple = ()
    touched: tuple = ()
    silences: bool = False
    holds: bool = False


@dataclasses.dataclass
class Network:
    """What runs."""

    given: object
    folder: object
    started: object
    authorities: list
    relays: list
    is_new: bool = True

    def ours(self):
        """Our authorities."""
        return [each for each in self.authorities if each.is_ours]

    def named(self, name):
        """An authority by its name."""
        return next(each for each in self.authorities if each.name == name)


def kill(*names):
    """Daemons of ours die."""
    return lambda network: [network.started.kill(f"{name}-daemon") for name in names]


def start(*names):
    """Daemons of ours are started."""
    return lambda net: [processes.start_daemon(net.started, net.given.dirauth, net.named(name)) for name in names]


def send(number, name):
    """A daemon of ours is sent a signal."""
    return lambda network: network.started.started[f"{name}-daemon"].send_signal(number)


def stop(name):
    """Something ends."""
    return lambda network: network.started.stop(name)


def start_tor(name):
    """A C tor is started again."""
    return lambda network: processes.start_tor(network.started, network.named(name))


def start_keys(network):
    """The key service is started again."""
    processes.start_key_service(network.started, network.folder)


def away(name, periods_away, schedule):
    """A C tor is away for so many periods: the fault of each."""
    begins = -schedule[1] - schedule[2] - 90
    told = [((begins, stop(name)),)] + [()] * (periods_away - 1)
    told[-1] += ((client.BEGINS_AT, start_tor(name)),)
    return [Fault(f"{name}, a C tor, is away", steps, (name,)) for steps in told]


def plan(authorities):
    """The faults of all periods of a network with these authorities."""
    ours = [each.name for each in authorities if each.is_ours]
    tors = [each.name for each in authorities if not each.is_ours]
    schedule = authorities[0].schedule
    voting, freeze = -schedule[1] - schedule[2], -schedule[2]
    first, second = ours[0], ours[1]
    return [
        Fault(
            f"{first} is killed 5 seconds behind the begin of the voting, and started 3 seconds later",
            ((voting + 5, kill(first)), (voting + 8, start(first))),
            (first,),
        ),
        Fault(
            "all of ours are killed 40 seconds before the voting, and started 5 seconds later",
            ((voting - 40, kill(*ours)), (voting - 35, start(*ours))),
        ),
        Fault(
            "the key service of ours is away from 30 seconds before the freeze until 30 seconds behind it",
            ((freeze - 30, stop("keys")), (freeze + 30, start_keys)),
            tuple(ours),
            len(tors) * 2 <= len(authorities),
        ),
        Fault(
            f"{second} is stopped from 15 seconds before the freeze until 15 seconds behind it",
            ((freeze - 15, send(signal.SIGSTOP, second)), (freeze + 15, send(signal.SIGCONT, second))),
            (second,),
        ),
        *away(tors[-1], 1, schedule),
        Fault("what measures is away", ((voting - 100, stop(renewal.NAME)),), holds=True),
        Fault("what measures is still away", holds=True),
    ]


def not_listed(text, relays):
    """The relays that a consensus does not list as running."""
    running = set()
    for entry in re.split(rb"(?m)^(?=r )", text)[1:]:
        flags = re.search(rb"(?m)^s (.*)$", entry)
        if flags and b"Running" in flags.group(1).split():
            running.add(nodes.fingerprint_of(entry.split(b" ")[2]))
    return [each.name for each in relays if each.fingerprint not in running]


def collect(period, network, keep):
    """The consensuses of this period that authorities have, by flavour and name; they are waited for."""
    found = {flavour: {} for flavour in periods.FLAVOURS}
    wanted = len(network.authorities) * len(found)
    while True:
        for each in network.authorities:
            for flavour in [flavour for flavour, texts in found.items() if each.name not in texts]:
                answer = processes.answer_of(each.address, f"/tor/status-vote/current/{flavour}")
                if answer is not None and answer[0] == 200 and seen.valid_after_of(answer[1]) == period.valid_after:
                    found[flavour][each.name] = answer[1]
                    keep(f"{each.name}.{flavour}", answer[1])
        if sum(map(len, found.values())) == wanted or time.time() > period.valid_after + client.BEGINS_AT:
            return found
        time.sleep(1)


def look_at_published(period, network, watch, fault, keep):
    """Whether what is published is one text of each flavour, rightly signed by more than half, that lists all relays."""
    from key_service import why_not_rsa  # pylint: disable=import-outside-toplevel

    signers = [periods.signer(each) for each in network.authorities]
    listed = len(network.relays)
    for flavour, texts in collect(period, network, keep).items():
        fronts = {periods.signed_part(text)[0] for text in texts.values()}
        if len(fronts) > 1:
            period.faults.append(f"{len(fronts)} texts of {flavour}")
        for name, text in texts.items():
            watch.take_published(flavour, text, period.valid_after)
            why, lacking = periods.wrong_and_lacking(flavour, text, signers, why_not_rsa)
            if why is None and 2 * len(lacking) >= len(signers):
                why = f"no signature of {', '.join(lacking)}"
            if why is not None:
                period.faults.append(f"{flavour} of {name}: {why}")
            lost = not_listed(text, network.relays)
            listed = min(listed, len(network.relays) - len(lost))
            if lost:
                period.faults.append(f"{flavour} of {name} does not list {', '.join(lost)}")
        if not fault.silences:
            for each in network.authorities:
                if each.name not in texts and each.name not in fault.touched:
                    period.faults.append(f"{each.name} has no {flavour} of this period")
        told = "; ".join(periods.summary(front) for front in fronts)
        period.published[flavour] = f"{len(texts)} of {len(network.authorities)}: {told}" if texts else "nobody"
    return listed if all(each != "nobody" for each in period.published.values()) else 0


def carry_out(network, fault, valid_after):
    """Carries out the steps of a fault at their moments, beside what is looked at."""
    def steps():
        for moment, step in fault.steps:
            periods.sleep_until(valid_after + moment)
            step(network)

    thread = threading.Thread(target=steps, daemon=True)
    thread.start()
    return thread


def renew(network, period):
    """Renews what ours are given, and says whether that was measured or held."""
    told = set()
    for each in network.ours():
        word, fault = renewal.renew_and_tell(network.started, network.given.dirauth, each, HOLDS)
        told.add(word)
        if fault is not None:
            period.faults.append(fault)
    return " and ".join(sorted(told))


def look_at(network, watch, fault, valid_after):
    """Goes through a period with its fault: what was seen, and its row of the table."""
    period = periods.Period(valid_after)
    keep = periods.keeper(network.folder, period)
    steps = carry_out(network, fault, valid_after)
    watch.follow(valid_after)
    periods.sleep_until(valid_after + periods.PUBLISHED_AT)
    listed = look_at_published(period, network, watch, fault, keep)
    for (moment, name), texts in list(watch.votes.items()):
        if moment == valid_after:
            keep(f"{name}.vote", min(texts))
    period.faults += watch.twice(valid_after)
    if network.is_new:
        starting.start_anew(network.started, network.relays)
        network.is_new = False
    periods.sleep_until(valid_after + client.BEGINS_AT)
    guards = not network.given.measured
    done, why = client.new_clients(network.started, network.folder, network.authorities, network.relays, guards)
    if why is not None and not fault.silences:
        period.faults.append(why)
    measured = renew(network, period) if network.given.measured else "-"
    if fault.holds and measured != "held":
        period.faults.append(f"what was measured is {measured}, not held")
    steps.join()
    period.faults += network.started.ended()
    published = "; ".join(f"{flavour} {told}" for flavour, told in period.published.items())
    row = [period.time(), fault.title, *watch.row(valid_after), published, str(listed), done, measured]
    return period, row


def line(row):
    """A line of the table."""
    return f"| {' | '.join(row)} |"


def go_through(given, folder, faults_of=plan, **votes):
    """Goes through the faults of a plan, and says whether all was right. `votes` is what authorities vote otherwise."""
    started = processes.Processes(folder)
    starting.make_namespace()
    authorities, relays = starting.start_all(given, folder, started, **votes)
    started.must_live()
    network = Network(given, folder, started, authorities, relays)
    first = periods.first_valid_after(time.time(), starting.READY, authorities[0].schedule)
    told = f"{len(authorities)} authorities, {len(relays)} relays; the first consensus is due"
    print(f"{told} in {first - time.time():.0f} seconds", flush=True)
    print(line(COLUMNS), line(["---"] * len(COLUMNS)), sep="\n", flush=True)
    watch = seen.Watch(authorities)
    holds = True
    for number, fault in enumerate(faults_of(authorities)):
        period, row = look_at(network, watch, fault, first + number * nodes.INTERVAL)
        print(line([*row, "WRONG" if period.faults else "ok"]), flush=True)
        for each in period.faults:
            print(f"    {each}", flush=True)
        holds = holds and not period.faults
    return holds
