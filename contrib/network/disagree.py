"""Authorities that do not vote alike, for what a consensus says then: two versions of protocols, and no version of tor that
has a majority; and a C tor is away for two periods.

In each period there is one text at all, each signature is right, and no relay ends by an assertion.
"""
import re

import faults

# The versions of tor that authorities vote, in turn, beside none of which another stands.
VERSIONS = "0.4.9.%d"

# How many of ours at most vote the protocols without the newest version of each. With two, of five authorities those that vote
# the newest are more than half, but less than two thirds, and less than half where one of them is away; with one, they are two
# thirds, and where one of them is away more than half alone.
OLDER = 2

# The lines of a vote with versions, and those with protocols.
OF_VERSIONS = re.compile(r"(client|server)-versions ")
OF_PROTOCOLS = re.compile(r"(recommended|required)-(client|relay)-protocols ")


def version_of(node, _):
    """The version of tor that an authority recommends."""
    return VERSIONS % node.number


def lines_of(node, shared):
    """The lines that an authority of ours votes, of those that a C tor votes."""
    told = []
    for each in shared:
        keyword, _, rest = each.partition(" ")
        if OF_VERSIONS.match(each):
            told.append(f"{keyword} {version_of(node, None)}")
        elif OF_PROTOCOLS.match(each) and node.number <= OLDER:
            told.append(f"{keyword} {' '.join(map(without_newest, rest.split()))}")
        else:
            told.append(each)
    return told


def without_newest(word):
    """A protocol without its newest version, where it has another."""
    name, _, versions = word.partition("=")
    front, comma, last = versions.rpartition(",")
    first, dash, newest = last.partition("-")
    if dash:
        last = first if int(newest) - 1 == int(first) else f"{first}-{int(newest) - 1}"
        return f"{name}={front}{comma}{last}"
    return f"{name}={front}" if comma else word


def plan(authorities):
    """What goes wrong in each period: a C tor is away in the second and the third."""
    name = [each.name for each in authorities if not each.is_ours][-1]
    none = faults.Fault("nothing beside")
    return [none, *faults.away(name, 2, authorities[0].schedule), none]


def go_through(given, folder):
    """Goes through the periods, and says whether all was right."""
    return faults.go_through(given, folder, plan, lines_of=lines_of, version_of=version_of)
