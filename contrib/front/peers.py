"""The other authorities: they are asked for a consensus that the own daemon missed."""
import contextlib
import http.client
import random
import re
import socket
import sys
import threading
import time

from directory_documents import FLAVOURS, consensus_of
from signatures import signed_by

# Seconds between two looks, and how many seconds behind the end of its freshness a consensus counts as missed.
LOOKS_EVERY, MISSED_AFTER = 30, 30

# How long a peer has for its whole answer, in seconds, and how many bytes it may have.
PATIENCE, MOST_BYTES = 60, 67_108_864

# What a consensus of each flavour begins with.
BEGINS = {
    "consensus": b"network-status-version 3\nvote-status consensus\n",
    "consensus-microdesc": b"network-status-version 3 microdesc\nvote-status consensus\n",
}


def authorities_of(path):
    """The authorities of a file of `authority` lines, as a station input has them: the address of each, or None."""
    try:
        text = path.read_text("utf-8", "replace").partition("\nend-station\n")[0]
    except OSError as error:
        raise SystemExit(f"front: {path}: {error.strerror}") from None
    found = re.findall(r"(?m)^authority ([0-9A-Fa-f]{40}) (-|[0-9.]+:[0-9]+|\[[0-9A-Fa-f:.]+\]:[0-9]+)$", text)
    if not found:
        raise SystemExit(f"front: {path}: no authority line")
    return {name.upper(): None if address == "-" else address for name, address in found}


def fetched(address, path):
    """The document that a peer has at a path, or None; one that is too slow, or too long, has none."""
    connection = http.client.HTTPConnection(address, timeout=10)
    timer = threading.Timer(PATIENCE, lambda: close(connection))
    timer.start()
    try:
        connection.request("GET", path, headers={"Accept-Encoding": "identity"})
        response = connection.getresponse()
        body = response.read(MOST_BYTES + 1)
        return body if response.status == 200 and len(body) <= MOST_BYTES else None
    except (OSError, ValueError, AttributeError, http.client.HTTPException):
        return None
    finally:
        timer.cancel()
        connection.close()


def close(connection):
    """Ends a connection, whoever waits for it."""
    with contextlib.suppress(OSError, AttributeError):
        connection.sock.shutdown(socket.SHUT_RDWR)


class Peers:
    """Looks at the other authorities where what is held is not fresh."""

    def __init__(self, authorities, watcher, key_service):
        self.authorities = authorities
        self.watcher = watcher
        self.holdings = watcher.holdings
        self.key_service = key_service
        self.failed = None

    def look(self, now):
        """Asks for each flavour that was missed, until a newer one was taken."""
        addresses = [address for name, address in self.authorities.items() if address and name != self.holdings.own]
        for flavour in FLAVOURS:
            if self.is_missed(flavour, now) and self.holdings.newest_certificates():
                for address in random.sample(addresses, len(addresses)):
                    text = fetched(address, "/tor/status-vote/current/" + flavour)
                    if text is not None and self.take(flavour, text, address, now):
                        break

    def is_missed(self, flavour, now):
        """Whether a newer consensus of a flavour is published than the one that is held."""
        held = self.holdings.consensuses.get(flavour)
        return held is None or held.fresh_until + MISSED_AFTER <= now

    def take(self, flavour, text, address, now):
        """Takes a consensus that is newer than the one that is held, and that more than half of the authorities signed."""
        try:
            found = consensus_of(text)
        except ValueError:
            return False
        held = self.holdings.consensuses.get(flavour)
        is_newer = held is None or held.valid_after < found.valid_after
        if not text.startswith(BEGINS[flavour]) or not is_newer or not found.valid_after <= now < found.valid_until:
            return False
        kept, signers = signed_by(text, self.holdings.certificate, self.key_service.is_right)
        signers &= set(self.authorities)
        if 2 * len(signers) <= len(self.authorities):
            return False
        self.holdings.take_consensus(flavour, kept)
        self.watcher.keep_named(kept)
        what = f"{flavour} of {time.strftime('%Y-%m-%d %H:%M:%S', time.gmtime(found.valid_after))}"
        signed = f"{len(signers)} of {len(self.authorities)} signed it"
        print(f"front: the {what} was missed, and is taken of {address}: {signed}", file=sys.stderr, flush=True)
        return True

    def watch(self):
        """Looks for ever; what fails is told once, until it does not."""
        while True:
            why = None
            try:
                self.look(time.time())
            except Exception as error:  # pylint: disable=broad-exception-caught
                why = str(error) or repr(error)
            if why is not None and why != self.failed:
                print(f"front: peers can not be asked: {why}", file=sys.stderr, flush=True)
            self.failed = why
            time.sleep(LOOKS_EVERY)
