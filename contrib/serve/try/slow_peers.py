#!/usr/bin/env python3
"""A mirror before slow peers: whether every client is answered, and how much the peers are asked.

    python3 try/slow_peers.py DIRMIRROR

runs DIRMIRROR twice, under the test scheme: before nine peers that each answer after 0.3 seconds, and before one that sends 1 MB a
second of a consensus of 2 MB. Meanwhile a client asks for the certificates, and again a tenth of a second behind each answer. It
tells how often the client asked and how long it waited at most, and what the peers were asked and sent, a minute. Status 0 only
where each request was answered, where the mirror has all that the peers have, and where it asked no peer for its consensus more
often than once a minute, and once when it started. All that it started is ended behind it.
"""
import argparse
import hashlib
import http.server
import pathlib
import socket
import subprocess
import sys
import threading
import time
import urllib.error
import urllib.request
from datetime import datetime, timedelta, timezone

sys.path.insert(0, str(pathlib.Path(__file__).resolve().parent.parent))
from mirrored import CONSENSUS, digest_of, wait_for  # pylint: disable=wrong-import-position
from test_network import Authority, object_text, sha1, test_signature, unpadded  # pylint: disable=wrong-import-position

# How long a client waits for an answer.
CLIENT_WAITS = 60

# How many relays there are.
RELAYS = 50

# How often a peer that sends slowly does so, in a second.
PIECES = 20


def microdescriptor(number):
    """The microdescriptor of a relay."""
    onion_key = hashlib.sha512(b"onion key %d" % number).digest() * 2
    ntor, ed25519 = (unpadded(hashlib.sha256(b"%s key %d" % (use, number)).digest()) for use in (b"ntor", b"ed25519"))
    text = f"onion-key\n{object_text('RSA PUBLIC KEY', onion_key)}ntor-onion-key {ntor}\np accept 80,443\nid ed25519 {ed25519}\n"
    return text.encode("ascii")


def consensus_front(now, authorities, digests, padding):
    """What a microdesc consensus says of the authorities, and of a relay with each of these digests, each with a line of padding."""
    lines = ["network-status-version 3 microdesc", "vote-status consensus", "consensus-method 33", f"valid-after {now}"]
    lines += [f"fresh-until {now + timedelta(hours=1)}", f"valid-until {now + timedelta(hours=3)}", "voting-delay 300 300"]
    lines += ["known-flags Fast Running Stable Valid"]
    for each in sorted(authorities, key=lambda authority: authority.fingerprint):
        lines += [f"dir-source {each.name} {each.fingerprint} {each.name}.example 127.0.0.1 80 443"]
        lines += [f"contact operator {each.number}", f"vote-digest {'A' * 40}"]
    relays = sorted((sha1(digest), number, digest) for number, digest in enumerate(digests))
    for identity, number, digest in relays:
        address = f"10.{number >> 16}.{number >> 8 & 255}.{number & 255}"
        lines += [f"r relay{number} {unpadded(identity)} 2038-01-01 00:00:00 {address} 9001 0", f"m {digest.decode('ascii')}"]
        lines += ["s Fast Running Stable Valid", "v Tor 0.4.9.11", "pr Cons=1-2 Desc=1-2 DirCache=2 FlowCtrl=1-2 HSDir=2 HSIntro=4-5 "
                  "HSRend=1-2 Link=1-5 LinkAuth=1,3 Microdesc=1-2 Padding=2 Relay=1-4", "w Bandwidth=1000"]
        lines += [f"x-padding {'0' * padding}"]
    return "\n".join([*lines, "directory-footer", "bandwidth-weights Wbd=0 Wbe=0", ""]).encode("ascii")


class Documents:
    """What peers have: certificates of three authorities, a consensus that all signed, and microdescriptors."""

    def __init__(self, padding):
        now = datetime.now(timezone.utc).replace(tzinfo=None, microsecond=0)
        authorities = [Authority(number, 80) for number in (1, 2, 3)]
        micros = [microdescriptor(number) for number in range(RELAYS)]
        self.roster = ",".join(each.fingerprint for each in authorities)
        self.micros = {digest_of(text): text for text in micros}
        self.certificates = "".join(each.certificate(now) for each in authorities).encode("ascii")
        front = consensus_front(now, authorities, list(self.micros), padding)
        digest = hashlib.sha256(front + b"directory-signature ").digest()
        self.consensus = front + "".join(
            f"directory-signature sha256 {each.fingerprint} {sha1(each.signing_key).hex().upper()}\n"
            + object_text("SIGNATURE", test_signature(each.signing_key, digest))
            for each in authorities
        ).encode("ascii")

    def at(self, path):
        """The document at a path."""
        if path == CONSENSUS:
            return self.consensus
        if path == "/tor/keys/all":
            return self.certificates
        digests = path.removeprefix("/tor/micro/d/").encode("ascii").split(b"-")
        return b"".join(self.micros.get(digest, b"") for digest in digests)


class Peer(http.server.ThreadingHTTPServer):
    """A peer that answers after `delay` seconds, and then sends `rate` bytes a second, if that is a number."""

    request_queue_size = 64

    def __init__(self, documents, delay, rate):
        super().__init__(("127.0.0.1", 0), Answer)
        self.documents, self.delay, self.rate = documents, delay, rate
        self.asked, self.rounds, self.sent = 0, 0, 0
        threading.Thread(target=self.serve_forever, daemon=True).start()

    @property
    def address(self):
        """Where it listens."""
        return "127.0.0.1:%d" % self.server_address[1]

    def handle_error(self, request, client_address):
        """Who goes away is no fault."""


class Answer(http.server.BaseHTTPRequestHandler):
    """One answer of a peer."""

    def log_message(self, *_):  # pylint: disable=arguments-differ
        """Nothing is told."""

    def do_GET(self):  # pylint: disable=invalid-name
        """Answers slowly."""
        peer = self.server
        body = peer.documents.at(self.path)
        peer.asked, peer.rounds = peer.asked + 1, peer.rounds + (self.path == CONSENSUS)
        time.sleep(peer.delay)
        self.send_response(200 if body else 404)
        self.send_header("Content-Length", str(len(body)))
        self.end_headers()
        piece = int(peer.rate / PIECES) if peer.rate else max(1, len(body))
        for at in range(0, len(body), piece):
            self.wfile.write(body[at : at + piece])
            peer.sent += len(body[at : at + piece])
            if peer.rate:
                time.sleep(1 / PIECES)


class Client:
    """Asks again and again; how long each answer took, and what was no answer."""

    def __init__(self, address):
        self.url = f"http://{address}/tor/keys/all"
        self.waits, self.faults, self.ends = [], [], False

    def ask(self):
        """Asks once."""
        began = time.monotonic()
        try:
            with urllib.request.urlopen(self.url, timeout=CLIENT_WAITS) as response:
                response.read()
        except urllib.error.HTTPError:
            pass
        except (urllib.error.URLError, OSError) as why:
            self.faults.append(str(why))
        self.waits.append(time.monotonic() - began)

    def run(self):
        """Asks until it is told to end."""
        while not self.ends:
            self.ask()
            time.sleep(0.1)


def free_address():
    """An address of this machine at which nobody listens."""
    with socket.create_server(("127.0.0.1", 0)) as free:
        return "127.0.0.1:%d" % free.getsockname()[1]


def wait_until_it_listens(mirror, address):
    """Waits until connections are taken, or the mirror has ended."""
    host, port = address.split(":")
    while mirror.poll() is None:
        try:
            socket.create_connection((host, int(port)), timeout=1).close()
            return
        except OSError:
            time.sleep(0.05)


def tell(name, seconds, client, peers, why):
    """Tells what came of it, and whether all is right."""
    minutes = seconds / 60
    print(
        f"{name}: {len(client.waits)} requests of a client, {len(client.faults)} without an answer, the longest wait "
        f"{max(client.waits, default=0):.1f} s; a peer, a minute: {max(peer.rounds for peer in peers) / minutes:.1f} rounds, "
        f"{max(peer.asked for peer in peers) / minutes:.1f} requests, {max(peer.sent for peer in peers) / minutes / 1e6:.2f} MB",
        flush=True,
    )
    for fault in [*sorted(set(client.faults))[:3], *([f"the mirror: {why}"] if why else [])]:
        print(f"slow_peers: {fault}", file=sys.stderr)
    return bool(client.waits) and not client.faults and not why and max(peer.rounds for peer in peers) <= minutes + 1


def trial(given, name, padding, count, delay, rate):
    """A mirror before some peers; whether all is right."""
    documents = Documents(padding)
    peers = [Peer(documents, delay, rate) for _ in range(count)]
    address = free_address()
    words = ["--test-keys", "--authorities", documents.roster, "--peers", ",".join(peer.address for peer in peers), "--listen", address]
    with subprocess.Popen([given.dirmirror, *words], stdin=subprocess.DEVNULL) as mirror:
        try:
            began = time.monotonic()
            wait_until_it_listens(mirror, address)
            client = Client(address)
            asking = threading.Thread(target=client.run, daemon=True)
            asking.start()
            time.sleep(given.seconds)
            client.ends = True
            asking.join(CLIENT_WAITS)
            seconds = time.monotonic() - began
            why = "it ended" if mirror.poll() is not None else wait_for(address, [documents.consensus], CLIENT_WAITS)[1]
        finally:
            mirror.kill()
    for peer in peers:
        peer.shutdown()
        peer.server_close()
    return tell(f"{name}, a consensus of {len(documents.consensus) / 1e6:.2f} MB", seconds, client, peers, why)


def main():
    """Runs both."""
    parser = argparse.ArgumentParser(description=__doc__, formatter_class=argparse.RawDescriptionHelpFormatter)
    parser.add_argument("--seconds", type=int, default=200, help="how long each lasts (default: %(default)s)")
    parser.add_argument("dirmirror", metavar="DIRMIRROR")
    given = parser.parse_args()
    try:
        right = [
            trial(given, "nine peers after 0.3 s", 1, 9, 0.3, None),
            trial(given, "one peer at 1 MB/s", 40000, 1, 0.0, 1e6),
        ]
    except OSError as why:
        raise SystemExit(f"slow_peers: {given.dirmirror}: {why.strerror}") from why
    sys.exit(0 if all(right) else 1)


if __name__ == "__main__":
    main()
