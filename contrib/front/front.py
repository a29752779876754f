#!/usr/bin/env python3
"""Answers, between nginx and `dirauth serve`, the directory paths that the daemon has not.

    front.py --listen 127.0.0.1:9132 --daemon 127.0.0.1:9131 --store FOLDER [--authorities FILE --verifier SOCKET]

    GET /tor/status-vote/current/consensus, consensus-microdesc, each also with /FP+FP..
                                          what was published last, until its valid-until, with Last-Modified
        /tor/status-vote/next/authority, next/FP+FP..
                                          the votes that the daemon holds, one behind the other
        /tor/status-vote/next/consensus-signatures
                                          the signatures that the daemon holds, once there is one
        /tor/status-vote/current/authority, current/FP+FP.., current/d/DIGEST+DIGEST..
                                          the votes of the last period, until the next consensus is there
        /tor/server/all                   the newest descriptor of each relay, also where the daemon has it no more
        /tor/server/fp/FP+FP..            descriptors by identity
        /tor/server/d/DIGEST+DIGEST..     descriptors by digest, also of the last consensuses
        /tor/micro/d/DIGEST-DIGEST..      microdescriptors, also of the last consensuses
        /tor/keys/all, authority, fp/FP+.., sk/DIGEST+.., fp-sk/FP-DIGEST+..
                                          certificates, also of votes that the daemon holds no more
    POST /tor/, /tor/post/vote, /tor/post/consensus-signature
                                          are brought to the daemon, again while it is started anew, or its key service
                                          is; signatures that come a moment before it has computed are brought again too.
                                          The word of a refusal stands behind the code 400 too, since tors log that alone

Each GET with or without `.z`. All that is held comes from the daemon, but a consensus that it missed: with --authorities the
others are asked for it, and it is taken where more than half of all signed it, as the key service says. What is stored in
FOLDER outlives the front. A daemon that was started anew is brought the descriptors that it lacks.
"""
import argparse
import email.utils
import http.server
import os
import pathlib
import re
import signal
import sys
import threading
import time

from answers import Answers
from daemon import Daemon
from holdings import Holdings
from peers import Peers, authorities_of
from restorer import Restorer
from signatures import KeyService
from watcher import Watcher

# The most bytes of a post, by its path. A relay posts its descriptor and behind it its extra-info document.
MOST_BYTES = {"/tor/": 131_072, "/tor/post/vote": 16_777_216, "/tor/post/consensus-signature": 1_048_576}

# The word of a refusal, as the daemon says it. Tors log what stands behind the code, and no more.
REFUSAL = re.compile(rb"([a-z0-9-]{1,40})\n")

# For how many seconds nginx may give out a consensus without asking again.
CACHED_FOR = 2


class Handler(http.server.BaseHTTPRequestHandler):
    """One request."""

    timeout = 30

    def do_GET(self):  # pylint: disable=invalid-name
        """Answers a GET."""
        path = self.path.removesuffix(".z")
        now = int(time.time())
        consensus = self.server.answers.consensus(path, now)
        if consensus is None:
            self.answer(self.server.answers.document(path))
            return
        self.answer(
            consensus.text,
            {
                "Last-Modified": email.utils.formatdate(consensus.valid_after, usegmt=True),
                "X-Accel-Expires": str(min(CACHED_FOR, consensus.valid_until - now)),
            },
        )

    def do_POST(self):  # pylint: disable=invalid-name
        """Brings a POST to the daemon."""
        length = self.headers.get("Content-Length", "")
        if self.path not in MOST_BYTES:
            self.answer(None)
        elif not re.fullmatch(r"[0-9]{1,9}", length):
            self.answer(b"", code=411)
        elif int(length) > MOST_BYTES[self.path]:
            self.answer(b"", code=413)
        else:
            body = self.rfile.read(int(length))
            if len(body) == int(length):
                self.bring(without_extra_info(body) if self.path == "/tor/" else body)

    def bring(self, body):
        """Brings a post to the daemon, and keeps a descriptor that it takes."""
        told = self.server.daemon.bring(self.path, body)
        if told.code == 200 and self.path == "/tor/":
            self.server.answers.holdings.take_relays(body, time.time())
        self.answer(told.body, code=told.code)

    def answer(self, body, fields=None, code=200):
        """Sends an answer; where there is no document, that it was not found. A refusal has its word in the first line too."""
        word = REFUSAL.fullmatch(body or b"") if code == 400 else None
        self.send_response_only(404 if body is None else code, word and word[1].decode("ascii"))
        for name, value in (fields or {}).items():
            self.send_header(name, value)
        self.send_header("Content-Type", "text/plain")
        self.send_header("Content-Length", str(len(body or b"")))
        self.send_header("Connection", "close")
        self.end_headers()
        self.wfile.write(body or b"")

    def log_message(self, format, *args):  # pylint: disable=redefined-builtin
        """Nothing is told of those who ask."""


def without_extra_info(body):
    """The descriptor that a relay posts, without the extra-info document behind it, which the daemon does not take."""
    return body.partition(b"\nextra-info ")[0].rstrip(b"\n") + b"\n"


class Server(http.server.ThreadingHTTPServer):
    """The front: a thread for each connection; nginx limits how many there are."""

    request_queue_size = 128

    def __init__(self, address, daemon, holdings, watcher):
        self.daemon = daemon
        self.answers = Answers(daemon, holdings, watcher)
        super().__init__(address, Handler)

    def handle_error(self, request, client_address):
        """Whoever asked has gone, or is too slow; what else goes wrong is told in a line."""
        error = sys.exc_info()[1]
        if not isinstance(error, OSError):
            print(f"front: a request failed: {error!r}", file=sys.stderr, flush=True)


def an_address(text):
    """The address and port that a word names."""
    host, _, port = text.rpartition(":")
    if not host or not port.isdecimal() or not 1 <= int(port) <= 65535:
        raise SystemExit(f"front: {text} is no IP:PORT")
    return host.strip("[]"), int(port)


def main():
    """Serves until it is stopped."""
    parser = argparse.ArgumentParser(description=__doc__, formatter_class=argparse.RawDescriptionHelpFormatter)
    parser.add_argument("--listen", required=True, metavar="IP:PORT", help="where nginx finds it")
    parser.add_argument("--daemon", required=True, metavar="IP:PORT", help="where the daemon listens")
    parser.add_argument("--store", type=pathlib.Path, metavar="FOLDER", help="where what is held outlives this program")
    parser.add_argument("--keep", type=int, default=8, metavar="N", help="of how many consensuses (default: %(default)s)")
    parser.add_argument(
        "--authorities", type=pathlib.Path, metavar="FILE", help="`authority` lines: who is asked for a consensus that was missed"
    )
    parser.add_argument("--verifier", metavar="SOCKET", help="the key service that verifies what these give")
    given = parser.parse_args()
    listen, _ = an_address(given.listen), an_address(given.daemon)
    if given.store is not None and not (given.store.is_dir() and os.access(given.store, os.W_OK)):
        raise SystemExit(f"front: {given.store} is no folder that it may write to")
    if (given.authorities is None) != (given.verifier is None):
        raise SystemExit("front: --authorities and --verifier go together")
    authorities = authorities_of(given.authorities) if given.authorities else {}
    daemon, holdings = Daemon(given.daemon), Holdings(given.keep)
    watcher = Watcher(daemon, holdings)
    try:
        if given.store is not None:
            holdings.load(given.store, time.time())
    except OSError as error:
        raise SystemExit(f"front: {error.filename}: {error.strerror}") from None
    try:
        server = Server(listen, daemon, holdings, watcher)
    except OSError as error:
        raise SystemExit(f"front: {given.listen}: {error.strerror or error}") from None
    looks = [lambda: watcher.watch(given.store), Restorer(daemon, holdings).restore]
    if authorities:
        looks.append(Peers(authorities, watcher, KeyService(given.verifier)).watch)
    serve(server, looks, watcher, given.store)


def serve(server, looks, watcher, store):
    """Serves and looks until it is stopped, and stores what it has then."""
    signal.signal(signal.SIGTERM, lambda *_: sys.exit(0))
    for each in looks:
        threading.Thread(target=each, daemon=True).start()
    try:
        server.serve_forever()
    except KeyboardInterrupt:
        pass
    finally:
        if store is not None:
            watcher.store(store, float("inf"))


if __name__ == "__main__":
    main()
