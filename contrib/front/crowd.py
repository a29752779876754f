#!/usr/bin/env python3
"""Three hundred silent connections to a front, and another client beside them.

    crowd.py IP:PORT [--from IP] [--beside IP]

opens the connections, half of which send the front half of a request, asks for the consensus meanwhile, and waits until
all were closed. Then it asks two hundred times at once. With --from and --beside the silent ones and the other client come
from these addresses; limits are by address. Status 0 only where each request of the other client was answered within a
second, and all silent ones were closed in time.
"""
import argparse
import collections
import http.client
import select
import socket
import sys
import threading
import time

# How many connections are silent, and how many requests come at once.
SILENT, AT_ONCE = 300, 200

# How fast the other client must be answered, and how long a front may leave a silent connection open, in seconds.
ANSWERED_WITHIN, CLOSED_WITHIN = 1.0, 40

PATH = "/tor/status-vote/current/consensus.z"


def ask(address, source):
    """The code of an answer, and how long it took."""
    begun = time.monotonic()
    connection = http.client.HTTPConnection(*address, timeout=20, source_address=(source, 0) if source else None)
    try:
        connection.request("GET", PATH)
        response = connection.getresponse()
        response.read()
        return response.status, time.monotonic() - begun
    except OSError as error:
        return type(error).__name__, time.monotonic() - begun
    finally:
        connection.close()


def silent_ones(address, source):
    """The silent connections."""
    found = []
    for number in range(SILENT):
        peer = socket.create_connection(address, timeout=10, source_address=(source, 0) if source else None)
        if number % 2:
            peer.sendall(f"GET {PATH} HTTP/1.0\r\nX: ".encode("ascii"))
        found.append(peer)
    return found


def wait_until_closed(peers, end):
    """Waits until the front has closed these, and says how many are still open."""
    still = list(peers)
    while still and time.monotonic() < end:
        ready, _, _ = select.select(still, [], [], 0.5)
        for peer in ready:
            try:
                ended = not peer.recv(1000)
            except OSError:
                ended = True
            if ended:
                still.remove(peer)
    return len(still)


def beside(address, given):
    """Whether another client is answered while many are silent, and these are closed."""
    begun = time.monotonic()
    peers = silent_ones(address, given.source)
    answers = [ask(address, given.beside) for _ in range(10)]
    slowest = max(seconds for _, seconds in answers)
    codes = dict(collections.Counter(code for code, _ in answers))
    still = wait_until_closed(peers, begun + CLOSED_WITHIN)
    right = slowest < ANSWERED_WITHIN and all(code in (200, 404) for code in codes) and not still
    print(f"{'ok' if right else 'WRONG'} beside {SILENT} silent ones: {codes}, the slowest {slowest * 1000:.0f} ms")
    print(f"   {SILENT - still} silent ones closed after {time.monotonic() - begun:.1f} s")
    return right


def at_once(address, given):
    """Many requests at once from one address: each is answered, or refused by the limits."""
    answers = []
    threads = [threading.Thread(target=lambda: answers.append(ask(address, given.source))) for _ in range(AT_ONCE)]
    for each in threads:
        each.start()
    for each in threads:
        each.join()
    codes = dict(collections.Counter(code for code, _ in answers))
    right = all(code in (200, 404, 503) for code in codes)
    print(f"{'ok' if right else 'WRONG'} {AT_ONCE} at once from one address: {codes}")
    return right


def main():
    """Tries both."""
    parser = argparse.ArgumentParser(description=__doc__, formatter_class=argparse.RawDescriptionHelpFormatter)
    parser.add_argument("address", metavar="IP:PORT")
    parser.add_argument("--from", dest="source", metavar="IP", help="where the silent ones come from")
    parser.add_argument("--beside", metavar="IP", help="where the other client comes from")
    given = parser.parse_args()
    host, _, port = given.address.rpartition(":")
    if not host or not port.isdecimal():
        raise SystemExit(f"crowd: {given.address} is no IP:PORT")
    try:
        address = (host.strip("[]"), int(port))
        right = beside(address, given)
        right = at_once(address, given) and right
    except OSError as error:
        raise SystemExit(f"crowd: {given.address}: {error.strerror or error}") from None
    sys.exit(0 if right else 1)


if __name__ == "__main__":
    main()
