"""The authorities, relays and client of a network, with their keys, and what each is given: torrc or station input."""
import base64
import calendar
import dataclasses
import pathlib
import re
import secrets
import subprocess
import time

# Seconds between two consensuses, for exchanging votes, and for exchanging signatures, where nothing else is asked: the
# shortest interval, and long delays, so that a machine that is busy keeps them.
INTERVAL, DELAY = 300, 40
SCHEDULE = (INTERVAL, DELAY, DELAY)

# The newest method that an authority of ours knows, where nothing else is asked; and the newest that it can be asked to
# know, which is the newest that C tor 0.4.9 knows.
NEWEST_METHOD, NEWEST_OF_TOR = 33, 35

# Addresses in the network's namespace, all on its loopback: authorities, mirrors before them, relays, the client, the web
# server, and a tor that is asked which lines it votes.
AUTHORITY, MIRROR, RELAY = "10.77.0.%d", "10.77.4.%d", "10.77.1.%d"
CLIENT, WEB, ASKED = "10.77.2.1", "10.77.9.9", "10.77.3.1"

# The ports of all tors and authorities, and the client's. Its control port is on loopback: tor opens none elsewhere.
OR_PORT, DIR_PORT, SOCKS_PORT = 5001, 7001, 9050
CONTROL = ("127.0.0.1", 9051)

# Exit policies, which go round among relays: every second relay takes the web server's port.
POLICIES = (
    ["accept *:80", "accept *:443", "reject *:*"],
    ["reject *:*"],
    ["reject *:25", "reject *:135-139", "accept *:*"],
    ["reject *:*"],
    ["accept *:20-23", "accept *:53", "accept *:80", "accept *:993-995", "reject *:*"],
    ["reject *:*"],
)

# The lines of a vote that all authorities must vote alike, so that they part nowhere. A consensus without versions is
# none that a C tor can be given: 0.4.9.11 ends over it.
SHARED_LINES = (
    "client-versions",
    "server-versions",
    "recommended-client-protocols",
    "recommended-relay-protocols",
    "required-client-protocols",
    "required-relay-protocols",
)


@dataclasses.dataclass
class Node:
    """An authority or a relay. `fingerprint` is of the relay's identity, `identity` of the authority's.

    An authority keeps a schedule, and one of ours knows the methods up to the newest. Where a mirror stands before it, relays
    and clients know it by the address of that. `families` are the IDs of the family keys that a relay has, and `listed` are
    the relays that it lists as its family.
    """

    name: str
    address: str
    folder: pathlib.Path
    number: int
    fingerprint: str = ""
    identity: str = ""
    is_ours: bool = False
    newest_method: int = NEWEST_METHOD
    schedule: tuple = SCHEDULE
    mirror: str = ""
    families: list = dataclasses.field(default_factory=list)
    listed: list = dataclasses.field(default_factory=list)


def run(words, **more):
    """What a program prints; where it fails, its last line is told."""
    try:
        done = subprocess.run(words, check=True, capture_output=True, **more)
    except FileNotFoundError:
        raise SystemExit(f"network: there is no {words[0]}: apt-get install tor nginx iproute2 util-linux") from None
    except subprocess.CalledProcessError as error:
        told = (error.stderr or error.stdout).decode("utf-8", "replace").strip().splitlines()
        raise SystemExit(f"network: {words[0]}: {told[-1] if told else error}") from None
    return done.stdout.decode("utf-8", "replace")


def make_folder(path):
    """A new folder for its owner alone."""
    path.mkdir(mode=0o700)
    return path


def relay_fingerprint(node):
    """Makes a tor's identity key, and gives its fingerprint."""
    words = ["tor", "-f", "/dev/null", "--ignore-missing-torrc", "--quiet", "--list-fingerprint"]
    words += ["--orport", f"{node.address}:{OR_PORT}", "--nickname", node.name, "--datadirectory", str(node.folder)]
    words += ["--dirauthority", "none 127.0.0.1:1 " + "f" * 40]
    return run(words).strip().splitlines()[-1].partition(" ")[2].replace(" ", "")


def authority_keys(node):
    """Makes an authority's keys and certificate by tor's own program, and gives the fingerprint of its identity key."""
    keys = make_folder(node.folder / "keys")
    words = ["tor-gencert", "--create-identity-key", "--passphrase-fd", "0", "-m", "6"]
    words += ["-a", f"{node.address}:{DIR_PORT}"]
    for option, name in (("-i", "identity_key"), ("-s", "signing_key"), ("-c", "certificate")):
        words += [option, str(keys / f"authority_{name}")]
    run(words, input=b"passphrase\n")
    return re.search(r"(?m)^fingerprint (\S+)$", certificate(node)).group(1)


def certificate(node):
    """The text of an authority's certificate."""
    return (node.folder / "keys" / "authority_certificate").read_text("ascii")


def make_authority(folder, name, address, number, is_ours):
    """An authority with its keys. One of ours is no relay: its fingerprint as one is nobody's."""
    node = Node(name, address, make_folder(folder / name), number, is_ours=is_ours)
    node.identity = authority_keys(node)
    node.fingerprint = secrets.token_hex(20).upper() if is_ours else relay_fingerprint(node)
    return node


def make_relay(folder, number):
    """A relay with its keys."""
    name = f"relay{number}"
    node = Node(name, RELAY % number, make_folder(folder / name), number)
    node.fingerprint = relay_fingerprint(node)
    return node


def authority_line(node, is_mirrored):
    """The line by which a tor knows an authority. One of ours has no ORPort."""
    port = "" if node.is_ours else f"orport={OR_PORT} "
    address = node.mirror if is_mirrored and node.mirror else node.address
    return f"DirAuthority {node.name} {port}no-v2 v3ident={node.identity} {address}:{DIR_PORT} {node.fingerprint}"


def common_lines(folder, node, authorities, is_mirrored=True):
    """What every tor is given."""
    lines = [
        "TestingTorNetwork 1",
        f"DataDirectory {node.folder}",
        f"Log notice file {folder / 'logs' / node.name}",
        f"ServerDNSResolvConfFile {folder / 'resolv.conf'}",
        "ServerDNSDetectHijacking 0",
        "ServerDNSTestAddresses",
        "ShutdownWaitLength 0",
        "PathsNeededToBuildCircuits 0.25",
    ]
    for words, seconds in zip(("VotingInterval", "VoteDelay", "DistDelay"), node.schedule):
        lines += [f"V3Auth{words} {seconds} seconds", f"TestingV3AuthInitial{words} {seconds} seconds"]
    return lines + [authority_line(each, is_mirrored) for each in authorities]


def server_lines(node):
    """What every tor is given that others connect to."""
    return [
        f"Nickname {node.name}",
        f"Address {node.address}",
        f"OutboundBindAddress {node.address}",
        f"ORPort {node.address}:{OR_PORT} IPv4Only",
        "SocksPort 0",
        "AssumeReachable 1",
    ]


def torrc(lines):
    """The text of a torrc."""
    return "\n".join([*lines, ""])


def relay_torrc(folder, node, authorities):
    """The torrc of a relay."""
    lines = common_lines(folder, node, authorities) + server_lines(node)
    lines += [f"ContactInfo {node.name}@example.org", "ExitRelay 1", "ExitPolicyRejectPrivate 0"]
    lines += [f"FamilyId {each}" for each in node.families]
    if node.listed:
        lines.append("MyFamily " + ",".join(f"${each}" for each in node.listed))
    return torrc(lines + [f"ExitPolicy {rule}" for rule in POLICIES[(node.number - 1) % len(POLICIES)]])


def authority_torrc(folder, node, authorities, version):
    """The torrc of an authority that is a C tor, and recommends this version."""
    lines = common_lines(folder, node, authorities, False) + server_lines(node)
    lines += [
        f"ContactInfo {node.name}@example.org",
        f"DirPort {node.address}:{DIR_PORT}",
        "AuthoritativeDirectory 1",
        "V3AuthoritativeDirectory 1",
        "VersioningAuthoritativeDirectory 1",
        f"RecommendedVersions {version}",
        "ExitPolicy reject *:*",
        "TestingMinExitFlagThreshold 0",
        "TestingDirAuthVoteHSDir *",
        "TestingDirAuthVoteGuard *",
        f"ConsensusParams {params(node)}",
    ]
    return torrc(lines)


def client_torrc(folder, node, authorities, relays, guards=True):
    """The torrc of a client, which comes in by the relays: authorities of ours have no ORPort.

    Where no relay is known for long, none has the Guard flag, and the client is to do without guards.
    """
    lines = common_lines(folder, node, authorities)
    lines += [
        f"SocksPort {CLIENT}:{SOCKS_PORT}",
        "ControlPort %s:%d" % CONTROL,
        f"OutboundBindAddress {CLIENT}",
        "ClientRejectInternalAddresses 0",
        "ClientDNSRejectInternalAddresses 0",
        f"UseEntryGuards {int(guards)}",
    ]
    return torrc(lines + [f"FallbackDir {each.address} orport={OR_PORT} id={each.fingerprint}" for each in relays])


def tor_version():
    """The version of the machine's tor."""
    return re.search(r"[0-9]+(?:\.[0-9]+)+[0-9a-z-]*", run(["tor", "--version"])).group()


def params(node):
    """The params that an authority votes: one differs, so that a median is taken."""
    return f"CircuitPriorityHalflifeMsec={20000 + 1000 * node.number} bwweightscale=10000"


def station(node, authorities, relays, shared, now=None):
    """What an authority of ours is given. All relays count as reached now."""
    reached = int(time.time()) if now is None else now
    lines = [
        "station 1",
        f"own {node.name} {node.identity} {node.address} {node.address} {DIR_PORT} {OR_PORT}",
        f"contact {node.name}@example.org",
        certificate(node).rstrip("\n"),
        "schedule %d %d %d" % node.schedule,
    ]
    lines += [f"authority {each.identity} {each.address}:{DIR_PORT}" for each in authorities]
    lines += shared + [f"params {params(node)}"]
    for each in relays:
        lines.append(f"measured {each.fingerprint} {reached} 864000 990000 864000 {1000 * each.number + node.number}")
    for each in authorities:
        if not each.is_ours:
            lines.append(f"measured {each.fingerprint} {reached} 864000 990000 864000 -")
    return "\n".join([*lines, "end-station", ""])


def shared_lines(vote):
    """The lines of a vote that all must vote alike."""
    return [line for line in vote.splitlines() if line.partition(" ")[0] in SHARED_LINES]


def moment(text):
    """The seconds since 1970 of a moment as documents write it, or None."""
    try:
        return calendar.timegm(time.strptime(text, "%Y-%m-%d %H:%M:%S"))
    except ValueError:
        return None


def fingerprint_of(word):
    """The fingerprint that the identity of an `r` line spells."""
    return base64.b64decode(word + b"=").hex().upper()
