#!/usr/bin/env python3
"""A thousand uploads while the key service is started anew again and again: none is answered that it failed (503).

    uploads.py ../../crates/dirauth/out/dirauth [--uploads 1000] [--workers 4]

makes an authority and relays with real keys, and starts the daemon and a key service, in a mount namespace with a /run of its
own. The socket is held as systemd holds it: who dials while the service is away waits until it is there again. Each worker
posts descriptors, each newer than the one of its relay before. Meanwhile the service is ended, every second time in the midst
of what it does, and started again, a second after it listens. It tells how each upload was answered, and ends with status 0
only where each was taken. It wants to be root, and python3-cryptography. Nothing of it is left behind.
"""
import argparse
import collections
import http.client
import importlib.util
import os
import pathlib
import socket
import subprocess
import sys
import tempfile
import threading
import time
from datetime import datetime, timedelta, timezone

KEY_SERVICE = pathlib.Path(__file__).resolve().parent.parent.parent / "key-service"

# Where the daemon listens, and where it dials the key service, in a namespace of its own.
ADDRESS, SOCKET = "127.0.0.1:18181", "/run/dirauth-keys"

# How long the key service lives, and how long a worker waits between two uploads, in seconds.
LIVES, PAUSE = 1.0, 0.1

# The least number of new starts that count as again and again, and how long the daemon may take until it answers.
LEAST_STARTS, STARTS_WITHIN = 10, 60


class Service:
    """The key service over a socket that outlives it."""

    def __init__(self, keys):
        self.keys = keys
        self.starts = 0
        self.listener = socket.socket(socket.AF_UNIX, socket.SOCK_STREAM)
        self.listener.bind(SOCKET)
        self.listener.listen(128)
        self.process = None

    def start(self):
        """Starts it with the socket in hand, as systemd does, and waits until it has told its line."""
        handed = self.listener.fileno()
        words = ["sh", "-c", f'exec 3<&{handed}; LISTEN_PID=$$ LISTEN_FDS=1 exec "$@"', "sh", sys.executable]
        words += [str(KEY_SERVICE / "key_service.py"), "--quiet", "--keys", str(self.keys)]
        self.process = subprocess.Popen(words, pass_fds=[handed], stderr=subprocess.PIPE)
        told = self.process.stderr.readline()
        if not told.endswith(f"listening on {SOCKET}\n".encode("ascii")):
            raise SystemExit(f"uploads: the key service: {told.decode('utf-8', 'replace').strip() or 'it ended'}")
        threading.Thread(target=self.process.stderr.read, daemon=True).start()

    def end(self):
        """Ends it, every second time in the midst of what it does."""
        if self.starts % 2:
            self.process.kill()
        else:
            self.process.terminate()
        self.process.wait()

    def again(self, goes_on):
        """Starts it anew while something goes on."""
        while goes_on():
            time.sleep(LIVES)
            self.end()
            self.start()
            self.starts += 1


def post(body):
    """The code of the answer to an upload, and its word."""
    connection = http.client.HTTPConnection(ADDRESS, timeout=60)
    try:
        connection.request("POST", "/tor/", body)
        response = connection.getresponse()
        word = response.read(60).decode("ascii", "replace").strip()
        return f"{response.status} {word}".strip() if response.status != 200 else "200"
    except (OSError, http.client.HTTPException) as error:
        return type(error).__name__
    finally:
        connection.close()


class Uploads:
    """All uploads, and what came of them."""

    def __init__(self, count, now):
        self.left = count
        self.now = now
        self.lock = threading.Lock()
        self.codes = collections.Counter()
        self.longest = 0.0

    def next(self):
        """Whether one more is due."""
        with self.lock:
            self.left -= 1
            return self.left >= 0

    def work(self, relay):
        """Uploads descriptors of a relay, each a second newer than the one before."""
        number = 0
        while self.next():
            number += 1
            body = relay.descriptor(self.now + timedelta(seconds=number)).encode("ascii")
            begun = time.monotonic()
            code = post(body)
            with self.lock:
                self.codes[code] += 1
                self.longest = max(self.longest, time.monotonic() - begun)
            time.sleep(PAUSE)


def wait_for_daemon(daemon):
    """Waits until the daemon answers."""
    end = time.monotonic() + STARTS_WITHIN
    host, _, port = ADDRESS.rpartition(":")
    while True:
        try:
            socket.create_connection((host, int(port)), timeout=5).close()
            return
        except OSError as error:
            if daemon.poll() is not None or time.monotonic() > end:
                raise SystemExit(f"uploads: the daemon at {ADDRESS}: {error.strerror or error}") from None
            time.sleep(0.2)


def go_through(given, folder):
    """Uploads all, and says whether each was taken."""
    sys.path.insert(0, str(KEY_SERVICE))
    from example_stations import Relay, Station  # pylint: disable=import-outside-toplevel,import-error

    keys = folder / "keys"
    keys.mkdir(mode=0o700)
    now = datetime.now(timezone.utc).replace(tzinfo=None, microsecond=0)
    station, relays = Station(1, keys), [Relay(number + 1, True) for number in range(given.workers)]
    (folder / "station").write_text(station.text(now, [station], relays), "ascii")
    service = Service(keys)
    service.start()
    with open(folder / "station", "rb") as text:
        daemon = subprocess.Popen([given.dirauth, "serve", "--listen", ADDRESS], stdin=text)
    try:
        wait_for_daemon(daemon)
        uploads = Uploads(given.uploads, now)
        workers = [threading.Thread(target=uploads.work, args=(each,)) for each in relays]
        for each in workers:
            each.start()
        service.again(lambda: any(each.is_alive() for each in workers))
    finally:
        daemon.kill()
        daemon.wait()
        service.process.kill()
        service.process.wait()
    right = uploads.codes["200"] == given.uploads and service.starts >= LEAST_STARTS
    told = ", ".join(f"{count} answered {code}" for code, count in uploads.codes.most_common())
    more = f"the key service was started anew {service.starts} times, and the slowest answer took {uploads.longest:.1f} s"
    print(f"{'ok' if right else 'WRONG'} {given.uploads} uploads: {told}; {more}")
    return right


def main():
    """Looks at what is given, and goes through it in a mount namespace."""
    parser = argparse.ArgumentParser(description=__doc__, formatter_class=argparse.RawDescriptionHelpFormatter)
    parser.add_argument("dirauth", type=pathlib.Path, metavar="DIRAUTH", help="the program")
    parser.add_argument("--uploads", type=int, default=1000, metavar="N", help="how many (default: %(default)s)")
    parser.add_argument("--workers", type=int, default=4, metavar="N", help="how many at once (default: %(default)s)")
    parser.add_argument("--inside", type=pathlib.Path, help=argparse.SUPPRESS)
    given = parser.parse_args()
    if not os.access(given.dirauth, os.X_OK) or given.dirauth.is_dir():
        raise SystemExit(f"uploads: {given.dirauth} is no program")
    if os.geteuid() != 0:
        raise SystemExit("uploads: it wants to be root")
    if importlib.util.find_spec("cryptography") is None:
        raise SystemExit("uploads: there is no cryptography: apt-get install python3-cryptography")
    if given.inside is not None:
        sys.exit(0 if go_through(given, given.inside) else 1)
    with tempfile.TemporaryDirectory(prefix="uploads-") as room:
        os.mkdir(f"{room}/run")
        again = [sys.executable, os.path.abspath(__file__), str(given.dirauth.resolve()), "--inside", room]
        again += ["--uploads", str(given.uploads), "--workers", str(given.workers)]
        mounted = f'mount --bind {room}/run /run && exec "$@"'
        sys.exit(subprocess.call(["unshare", "--mount", "--pid", "--fork", "--kill-child", "sh", "-c", mounted, "sh", *again]))


if __name__ == "__main__":
    main()
