#!/usr/bin/env python3
"""Sends an authority requests that are broken, or just not yet, and looks at the answers.

    run.sh DIRAUTH FOLDER python3 try/broken.py FOLDER/another.descriptor

The word behind the descriptor is the authority's address; what stands behind it is passed over. A line for each request, `ok` or
`WRONG`; it takes a little more than two minutes, since one peer is silent for as long as an authority waits. Status 0 only where
each is ok.
"""
import argparse
import pathlib
import socket
import sys
import threading
import time

# How long a request may take to arrive.
WAITS = 120

# The most bytes that a head may have.
HEAD_LIMIT = 16384

# The most bytes of a vote, of signatures, and of a descriptor that are posted.
LIMITS = {"/tor/post/vote": 16777216, "/tor/post/consensus-signature": 1048576, "/tor/": 65536, "/tor/other": 65536}


def exchange(address, pieces, ends, seconds):
    """What the authority sends to these pieces, sent a moment apart, and then maybe the end; and how long that took."""
    began = time.monotonic()
    received = b""
    with socket.create_connection(address, timeout=seconds) as peer:
        for piece in pieces:
            peer.sendall(piece)
            time.sleep(0.05)
        if ends:
            peer.shutdown(socket.SHUT_WR)
        try:
            while piece := peer.recv(65536):
                received += piece
        except ConnectionResetError:
            received += b"(reset)"
        except TimeoutError:
            received += b"(silent)"
    return received, time.monotonic() - began


def told(response):
    """The code and the body of a response, or what came in place of one."""
    head, _, body = response.partition(b"\r\n\r\n")
    words = head.split(b" ")
    if not response.startswith(b"HTTP/1.0 ") or len(words) < 2:
        return response.decode("latin-1")
    word = body.decode("latin-1").rstrip("\n")
    word = word if len(word) < 30 and "\n" not in word else f"{len(body)} bytes"
    return f"{words[1].decode('ascii')} {word}".rstrip()


def post(path, length, body):
    """A POST that says that its body has this length."""
    return f"POST {path} HTTP/1.0\r\nContent-Length: {length}\r\n\r\n".encode("ascii") + body


def padded(size, fields=0):
    """The head of a GET with so many bytes, and so many fields besides the one that fills it."""
    front = b"GET /tor/server/all HTTP/1.0\r\n" + b"".join(b"X-%d: y\r\n" % number for number in range(fields)) + b"X-Fills: "
    return front + b"z" * (size - len(front) - 4) + b"\r\n\r\n"


def requests(descriptor):
    """The requests: a name, the pieces, whether the end is sent, and what must come."""
    length = len(descriptor)
    get = b"GET /tor/server/all HTTP/1.0\r\n\r\n"
    yield "a descriptor", [post("/tor/", length, descriptor)], False, ("200 kept", "200 have")
    yield "in single bytes of its head", [bytes([byte]) for byte in post("/tor/", length, b"")] + [descriptor], False, ("200 have",)
    yield "a body with a byte more than said", [post("/tor/", length, descriptor + b"\n")], False, ("200 have",)
    yield "a body with a byte more, later", [post("/tor/", length, descriptor), b"\n"], False, ("200 have",)
    yield "a length of one less", [post("/tor/", length - 1, descriptor)], False, ("400 document",)
    yield "a byte less than said, and the end", [post("/tor/", length + 1, descriptor)], True, ("400 truncated",)
    yield "no body, and the end", [post("/tor/", length, b"")], True, ("400 truncated",)
    yield "half a head, and the end", [get[:20]], True, ("400 head",)
    yield "nothing, and the end", [], True, ("",)
    yield "a head of the limit", [padded(HEAD_LIMIT)], False, ("200",)
    yield "a head of a byte more", [padded(HEAD_LIMIT + 1)], False, ("400 head",)
    yield "a head of two bytes more, without its end", [padded(HEAD_LIMIT + 2)[:-1]], False, ("400 head",)
    yield "64 fields", [padded(8000, 63)], False, ("200",)
    yield "65 fields", [padded(8000, 64)], False, ("400 head",)
    yield "a GET with a body", [get.replace(b"\r\n\r\n", b"\r\nContent-Length: 5\r\n\r\nxxxxx")], False, ("200",)
    yield "a second request behind the first", [get + get], False, ("200",)
    yield "HTTP/1.1 with a host", [get.replace(b"1.0\r\n", b"1.1\r\nHost: x\r\n")], False, ("200",)
    yield "HTTP/2.0", [get.replace(b"1.0", b"2.0")], False, ("400 head",)
    yield "no version", [b"GET /tor/server/all\r\n\r\n"], False, ("400 head",)
    yield "no request", [b"\x16\x03\x01\x02\x00\x01\x00\x01\xfc\x03\x03\r\n\r\n"], False, ("400 head",)
    yield "a POST without a length", [b"POST /tor/ HTTP/1.0\r\n\r\n"], False, ("411",)
    yield "two lengths", [b"POST /tor/ HTTP/1.0\r\nContent-Length: 1\r\nContent-Length: 1\r\n\r\nx"], False, ("400 head",)
    yield "a length that is no number", [b"POST /tor/ HTTP/1.0\r\nContent-Length: -1\r\n\r\nx"], False, ("400 head",)
    yield "a length of thirty digits", [post("/tor/", "9" * 30, b"x")], False, ("413", "400 head")
    yield "HEAD", [get.replace(b"GET", b"HEAD")], False, ("405",)
    for path, limit in LIMITS.items():
        yield f"a byte above the limit of {path}", [post(path, limit + 1, b"x")], False, ("413",)


def is_as_wanted(got, wanted):
    """Whether an answer is one of those, or has the code alone that stands there."""
    return any(got == each or (each.isdigit() and got.split(" ")[0] == each) for each in wanted)


def silent(address, descriptor, lines):
    """A peer that says a byte more than it sends, and is silent then: the connection ends after the wait, without an answer."""
    got, seconds = exchange(address, [post("/tor/", len(descriptor) + 1, descriptor)], False, WAITS + 20)
    lines.append((told(got) == "" and WAITS - 2 <= seconds <= WAITS + 10, f"silent, a byte less than said: '{told(got)}' after {seconds:.1f} s"))


def answering(text):
    """The address that a word names, at which somebody must answer."""
    host, _, port = text.rpartition(":")
    try:
        address = (host.strip("[]"), int(port))
        socket.create_connection(address, timeout=20).close()
    except (OSError, ValueError) as error:
        raise SystemExit(f"broken: {text}: {getattr(error, 'strerror', None) or error}") from None
    return address


def main():
    """Sends all."""
    parser = argparse.ArgumentParser(description=__doc__, formatter_class=argparse.RawDescriptionHelpFormatter)
    parser.add_argument("descriptor", type=pathlib.Path)
    parser.add_argument("address")
    parser.add_argument("others", nargs="*")
    given = parser.parse_args()
    address = answering(given.address)
    try:
        descriptor = given.descriptor.read_bytes()
    except OSError as error:
        raise SystemExit(f"broken: {given.descriptor}: {error.strerror}") from None
    lines = []
    waiting = threading.Thread(target=silent, args=(address, descriptor, lines))
    waiting.start()
    holds = True
    for name, pieces, ends, wanted in requests(descriptor):
        response, seconds = exchange(address, pieces, ends, 20)
        got = told(response)
        right = is_as_wanted(got, wanted) and seconds < 5 + 0.06 * len(pieces)
        holds = holds and right
        print(f"{'ok' if right else 'WRONG'} {name}: {got}, {seconds:.2f} s{'' if right else f', wanted {wanted}'}", flush=True)
    waiting.join()
    for right, line in lines:
        holds = holds and right
        print(f"{'ok' if right else 'WRONG'} {line}")
    sys.exit(0 if holds and lines else 1)


if __name__ == "__main__":
    main()
