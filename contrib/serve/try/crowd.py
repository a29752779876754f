#!/usr/bin/env python3
"""Two hundred connections at once to an authority, half of which ask and half of which waste its time.

    RELAYS=2000 run.sh DIRAUTH FOLDER python3 try/crowd.py

A third of those that waste are silent, a third send a byte a second, a third ask for all descriptors and do not read. Where one
is closed, another takes its place. Those that ask do so about once a second, and each must be answered within five seconds. The
words are addresses, of which the first is asked; it lasts for `--seconds`. It tells how many were answered and how long that
took; status 0 only where each was.
"""
import argparse
import random
import socket
import sys
import threading
import time

# How long an answer may take.
LONGEST = 5.0

# What is asked, all of them small but the last.
PATHS = [
    "/tor/status-vote/next/authority",
    "/tor/status-vote/next/consensus-signatures",
    "/tor/status-vote/current/consensus",
    "/tor/status-vote/current/consensus-microdesc",
    "/tor/keys/all",
    "/tor/micro/d/x",
    "/tor/nothing",
]


def request(path):
    """A request for a path."""
    return f"GET {path} HTTP/1.0\r\n\r\n".encode("ascii")


def connection(address, room=None):
    """A connection, maybe with little room for what is received."""
    peer = socket.socket(socket.AF_INET)
    if room is not None:
        peer.setsockopt(socket.SOL_SOCKET, socket.SO_RCVBUF, room)
    peer.settimeout(LONGEST + 5)
    peer.connect(address)
    return peer


def is_closed(peer, seconds):
    """Whether the authority closed a connection within some time. What it sends is passed over."""
    peer.settimeout(seconds)
    try:
        return peer.recv(1) == b""
    except TimeoutError:
        return False
    except OSError:
        return True


class Crowd:
    """All connections, and what came of them."""

    def __init__(self, address, seconds):
        self.address = address
        self.end = time.monotonic() + seconds
        self.lock = threading.Lock()
        self.times = []
        self.codes = {}
        self.wasted = {}
        self.failures = []

    def lasts(self):
        """Whether it goes on."""
        return time.monotonic() < self.end

    def count(self, kind):
        """One more connection that wastes time."""
        with self.lock:
            self.wasted[kind] = self.wasted.get(kind, 0) + 1

    def is_silent(self):
        """Connections that send nothing."""
        while self.lasts():
            with connection(self.address) as peer:
                self.count("silent")
                while self.lasts() and not is_closed(peer, 1):
                    pass

    def drips(self):
        """Connections that send a byte a second."""
        while self.lasts():
            with connection(self.address) as peer:
                self.count("slow to ask")
                try:
                    for byte in b"GET /" + b"x" * 100000:
                        peer.sendall(bytes([byte]))
                        if not self.lasts() or is_closed(peer, 1):
                            break
                except OSError:
                    pass

    def does_not_read(self):
        """Connections that ask for much and read a byte a second."""
        while self.lasts():
            with connection(self.address, room=4096) as peer:
                self.count("slow to read")
                peer.sendall(request("/tor/server/all"))
                while self.lasts() and not is_closed(peer, 1):
                    time.sleep(1)

    def asks(self):
        """Connections that ask, read the answer, and measure."""
        time.sleep(random.random())
        while self.lasts():
            path = random.choice(PATHS)
            began = time.monotonic()
            try:
                with connection(self.address) as peer:
                    peer.sendall(request(path))
                    received = b""
                    while piece := peer.recv(65536):
                        received += piece
                code = received.split(b" ")[1].decode("ascii")
                length = int(received.split(b"Content-Length: ")[1].split(b"\r\n")[0])
                if len(received.partition(b"\r\n\r\n")[2]) != length:
                    raise ValueError("the body is cut")
            except (OSError, IndexError, ValueError) as error:
                with self.lock:
                    self.failures.append(f"{path}: {error!r}")
            else:
                with self.lock:
                    self.times.append((time.monotonic() - began, path))
                    self.codes[code] = self.codes.get(code, 0) + 1
            time.sleep(max(0.0, began + 1 - time.monotonic()))

    def run(self, count):
        """Lets so many connections ask and as many waste time, and says whether all were answered in time."""
        wasteful = [self.is_silent, self.drips, self.does_not_read]
        kinds = [self.asks] * count + [wasteful[number % 3] for number in range(count)]
        threads = [threading.Thread(target=self.goes_on, args=(kind,)) for kind in kinds]
        for thread in threads:
            thread.start()
        for thread in threads:
            thread.join()
        return self.report()

    def goes_on(self, kind):
        """One kind of connection, also where the authority refuses it."""
        while self.lasts():
            try:
                kind()
            except OSError as error:
                with self.lock:
                    self.failures.append(f"{kind.__name__}: {error!r}")
                time.sleep(1)

    def report(self):
        """Tells what came of all."""
        self.times.sort()
        if not self.times:
            print("crowd.py: nothing was answered")
            return False
        middle, late, last = (self.times[int(len(self.times) * part)][0] for part in (0.5, 0.99, 0.999999))
        print(
            f"crowd.py: {len(self.times)} answers {self.codes}, beside {self.wasted}: in the middle {middle * 1000:.0f} ms,"
            f" of a hundred the last {late * 1000:.0f} ms, of all {last * 1000:.0f} ms; {len(self.failures)} failures"
        )
        for failure in self.failures[:10]:
            print(f"crowd.py: {failure}")
        for seconds, path in [each for each in self.times if each[0] > LONGEST][:10]:
            print(f"crowd.py: {path} took {seconds:.1f} s")
        return not self.failures and last <= LONGEST


def main():
    """Makes the crowd."""
    parser = argparse.ArgumentParser(description=__doc__, formatter_class=argparse.RawDescriptionHelpFormatter)
    parser.add_argument("--seconds", type=int, default=330, help="how long it lasts (default: %(default)s)")
    parser.add_argument("--each", type=int, default=100, help="how many ask, and how many waste time (default: %(default)s)")
    parser.add_argument("address")
    parser.add_argument("others", nargs="*")
    given = parser.parse_args()
    host, _, port = given.address.rpartition(":")
    try:
        address = (host.strip("[]"), int(port))
        socket.create_connection(address, timeout=20).close()
    except (OSError, ValueError) as error:
        raise SystemExit(f"crowd: {given.address}: {getattr(error, 'strerror', None) or error}") from None
    crowd = Crowd(address, given.seconds)
    sys.exit(0 if crowd.run(given.each) else 1)


if __name__ == "__main__":
    main()
