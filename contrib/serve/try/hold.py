#!/usr/bin/env python3
"""How much others can make an authority hold: many connections that send much and stop, or ask for much and do not read.

    python3 ../test_network.py make --relays 8000 FOLDER
    dirauth --test-keys serve --listen 127.0.0.1:18081 < FOLDER/auth1.station &
    python3 hold.py 127.0.0.1:18081 $!; kill $!

The words are the address of an authority, and its process, whose memory is told. First 400 connections send 1,000,000 bytes each of
a vote and stop; then 400 ask for all descriptors and do not read. Beside each of the two a small request is answered ten times:
beside the first within five seconds, beside the second within half a minute, since the three workers have 2.8 gigabytes to make.
It takes a minute and a half; status 0 only where each was answered, and the memory stayed under twice what the limits sum up to,
since a buffer that grew may have twice the room that it needs.
"""
import argparse
import pathlib
import re
import socket
import sys
import time

# How many connections there are of each kind.
MANY = 400

# What each of them sends.
SENT = 1_000_000

# What three gates hold at most, of requests and of responses, in bytes.
MOST_OF_REQUESTS = 3 * (67_108_864 + 256 * 86_016)
MOST_OF_RESPONSES = 3 * 134_217_728


def resident(process):
    """How many bytes of memory a process has."""
    status = pathlib.Path(f"/proc/{process}/status").read_text("ascii")
    return int(re.search(r"^VmRSS:\s*(\d+) kB$", status, re.M).group(1)) * 1024


def connection(address, room=None):
    """A connection that does not wait, maybe with little room for what is received."""
    peer = socket.socket(socket.AF_INET)
    if room is not None:
        peer.setsockopt(socket.SOL_SOCKET, socket.SO_RCVBUF, room)
    peer.settimeout(10)
    peer.connect(address)
    peer.setblocking(False)
    return peer


def send_on(peers):
    """Sends what the authority takes of the bytes that are left for each connection; those that are closed go."""
    moved = False
    for peer, rest in list(peers.items()):
        try:
            count = peer.send(rest[:65536])
            peers[peer] = rest[count:]
            moved = moved or count > 0
            if not peers[peer]:
                del peers[peer]
        except BlockingIOError:
            pass
        except OSError:
            del peers[peer]
    return moved


def slowest(address):
    """How long the slowest of ten small requests took, or None where one was not answered."""
    last = 0.0
    for _ in range(10):
        began = time.monotonic()
        try:
            with socket.create_connection(address, timeout=20) as peer:
                peer.sendall(b"GET /tor/nothing HTTP/1.0\r\n\r\n")
                if not peer.recv(100).startswith(b"HTTP/1.0 404"):
                    return None
        except OSError:
            return None
        last = max(last, time.monotonic() - began)
    return last


def held(name, address, process, texts, room, most, longest):
    """What the authority holds while so many connections wait, and whether it is no more than that, and a request takes no longer."""
    before = resident(process)
    peers = [connection(address, room) for _ in texts]
    rests = dict(zip(peers, texts))
    end = time.monotonic() + 20
    grown = 0
    while time.monotonic() < end:
        if not send_on(rests):
            time.sleep(0.05)
        grown = max(grown, resident(process) - before)
    slow = slowest(address)
    for peer in peers:
        peer.close()
    time.sleep(5)
    right = slow is not None and slow < longest and grown <= 2 * most
    print(
        f"{'ok' if right else 'WRONG'} {name}: {grown / 1e6:.0f} MB more at most, of {most / 1e6:.0f} that the limits sum up to;"
        f" a small request {'was not answered' if slow is None else f'took {slow * 1000:.0f} ms at most'};"
        f" {(resident(process) - before) / 1e6:.0f} MB more five seconds behind it",
        flush=True,
    )
    return right


def answering(text):
    """The address that a word names, at which somebody must answer."""
    host, _, port = text.rpartition(":")
    try:
        address = (host.strip("[]"), int(port))
        socket.create_connection(address, timeout=20).close()
    except (OSError, ValueError) as error:
        raise SystemExit(f"hold: {text}: {getattr(error, 'strerror', None) or error}") from None
    return address


def main():
    """Holds both."""
    parser = argparse.ArgumentParser(description=__doc__, formatter_class=argparse.RawDescriptionHelpFormatter)
    parser.add_argument("address")
    parser.add_argument("process", type=int)
    given = parser.parse_args()
    if not pathlib.Path("/proc", str(given.process)).is_dir():
        raise SystemExit(f"hold: there is no process {given.process}")
    address = answering(given.address)
    front = b"POST /tor/post/vote HTTP/1.0\r\nContent-Length: 16000000\r\n\r\n"
    sends = held("senders", address, given.process, [front + bytes(SENT)] * MANY, None, MOST_OF_REQUESTS, 5)
    ask = b"GET /tor/server/all HTTP/1.0\r\n\r\n"
    reads = held("readers", address, given.process, [ask] * MANY, 4096, MOST_OF_RESPONSES, 30)
    sys.exit(0 if sends and reads else 1)


if __name__ == "__main__":
    main()
