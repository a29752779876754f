"""What measures the relays, and the renewal of what our authorities are given between two periods (contrib/measure)."""
import re
import subprocess
import sys

import nodes
import processes
from processes import CONTRIB, get

# Where the authority that measures is, which is of no network but its own.
NAME, ADDRESS, DIR_PORT = "measuring", "10.77.3.2", 9930


def torrc(folder, node, version):
    """The torrc of contrib/measure, filled in, with what a network without public addresses needs besides."""
    text = (CONTRIB / "measure" / "measuring.torrc").read_text("ascii")
    for word, value in (("ADDRESS", ADDRESS), ("V3IDENT", node.identity), ("FINGERPRINT", node.fingerprint)):
        text = re.sub(rf"\b{word}\b", value, text)
    lines = [
        "TestingTorNetwork 1",
        f"DataDirectory {node.folder}",
        f"Log notice file {folder / 'logs' / node.name}",
        "AssumeReachable 0",
        "ShutdownWaitLength 0",
        "VersioningAuthoritativeDirectory 1",
        f"RecommendedVersions {version}",
        "TestingV3AuthInitialVotingInterval 5 minutes",
        "TestingV3AuthInitialVoteDelay 20 seconds",
        "TestingV3AuthInitialDistDelay 20 seconds",
    ]
    return re.sub(r"(?m)^DataDirectory .*\n", "", text) + nodes.torrc(lines)


def start(started, folder, version):
    """Starts what measures."""
    node = nodes.make_authority(folder, NAME, ADDRESS, 0, False)
    processes.start_tor(started, node, torrc(folder, node, version))


def renew(started, dirauth, node):
    """Renews the input of an authority of ours and starts its daemon anew: what went wrong, or None."""
    return renew_and_tell(started, dirauth, node, 0)[1]


def renew_and_tell(started, dirauth, node, hours):
    """Renews an input, and holds what was measured for so many hours: whether it was measured or held, and what went wrong."""
    before = get(node.address, "/tor/status-vote/current/consensus")
    words = [sys.executable, str(CONTRIB / "measure" / "renew.py"), "--station", str(node.folder / "station")]
    words += ["--measuring", f"{ADDRESS}:{DIR_PORT}", "--daemon", processes.daemon_address(node), "--hold", str(hours)]
    done = subprocess.run(words, capture_output=True, check=False, timeout=120)
    told = done.stderr.decode("utf-8", "replace").strip()
    if done.returncode:
        return "not renewed", f"{node.name}: {told}"
    word = "held" if " is held" in told else "measured"
    started.stop(f"{node.name}-daemon")
    processes.start_daemon(started, dirauth, node)
    if get(node.address, "/tor/status-vote/current/consensus") != before:
        return word, f"{node.name}: the front has not the last consensus while the daemon is started anew"
    return word, None
