"""Starting what a network consists of. All of it ends with the namespace in which it runs."""
import collections
import http.client
import os
import pathlib
import re
import subprocess
import sys
import time

import nodes

CONTRIB = pathlib.Path(__file__).resolve().parent.parent

# Where dirauth dials the key service.
KEY_SERVICE = "/run/dirauth-keys"

# How many mirrors there are, what they must have given, and what nginx tells of each answer: what the mirrors gave has a
# status of the cache.
MIRRORS = 2
MIRRORED = ("consensus-microdesc", "micro")
ASKED_LOG = """log_format asked '$status $upstream_cache_status $uri';
    access_log asked asked;"""

# How long what was started may take until it answers, in seconds, and how often an authority is asked that does not answer.
STARTS_WITHIN, TRIES = 90, 3


class Processes:
    """What was started, by name, with a log each."""

    def __init__(self, folder):
        self.folder = folder
        self.started = {}
        (folder / "logs").mkdir()

    def start(self, name, words, stdin=None):
        """Starts a program."""
        with open(self.folder / "logs" / f"{name}.out", "ab") as log, open(stdin or "/dev/null", "rb") as given:
            self.started[name] = subprocess.Popen(words, stdin=given, stdout=log, stderr=subprocess.STDOUT)

    def stop(self, name):
        """Ends one, and waits for it."""
        process = self.started.pop(name)
        process.terminate()
        try:
            process.wait(10)
        except subprocess.TimeoutExpired:
            process.kill()
            process.wait()

    def kill(self, name):
        """Ends one in the midst of what it does."""
        process = self.started.pop(name)
        process.kill()
        process.wait()

    def used(self, name):
        """What one has used so far: memory that is resident, and processor time."""
        room = pathlib.Path("/proc", str(self.started[name].pid))
        resident = re.search(r"VmRSS:\s+(\d+) kB", (room / "status").read_text("ascii"))
        ticks = (room / "stat").read_text("ascii").rpartition(")")[2].split()[11:13]
        seconds = sum(map(int, ticks)) / os.sysconf("SC_CLK_TCK")
        return f"{int(resident.group(1)) / 1024:.1f} MB and {seconds:.1f} s of processor" if resident else "nothing"

    def ended(self):
        """What of it has ended of itself, in words: with the line of an assertion where it told one, else with its last."""
        told = []
        for name, process in list(self.started.items()):
            if process.poll() is not None:
                lines = (self.folder / "logs" / f"{name}.out").read_text("utf-8", "replace").strip().splitlines()
                asserted = [line for line in lines if "assertion" in line.lower()]
                line = (asserted[:1] or lines[-1:] or ["it told nothing"])[0]
                told.append(f"{name} ended with status {process.returncode}: {line}")
        return told

    def must_live(self):
        """Ends all where one has ended."""
        for each in self.ended():
            raise SystemExit(f"network: {each}")

    def wait_for(self, what, holds):
        """Waits until something holds."""
        end = time.monotonic() + STARTS_WITHIN
        while not (found := holds()):
            self.must_live()
            if time.monotonic() > end:
                raise SystemExit(f"network: {what} did not come within {STARTS_WITHIN} seconds")
            time.sleep(0.3)
        return found


def get(address, path):
    """The document at a path of an authority, or None where it is not there; where nobody answers, it is asked again."""
    for _ in range(TRIES):
        answer = answer_of(address, path)
        if answer is not None:
            code, body = answer
            if code == 200:
                return body
            if code == 404:
                return None
        time.sleep(1)
    return None


def answer_of(address, path, port=nodes.DIR_PORT):
    """The code and the body of the answer of an authority, or None where there is none."""
    connection = http.client.HTTPConnection(address, port, timeout=10)
    try:
        connection.request("GET", path, headers={"Accept-Encoding": "identity"})
        response = connection.getresponse()
        return response.status, response.read()
    except (OSError, http.client.HTTPException):
        return None
    finally:
        connection.close()


def start_tor(processes, node, text=None):
    """Starts a tor with a torrc, or with the one that it had."""
    if text is not None:
        (node.folder / "torrc").write_text(text, "utf-8")
    processes.start(node.name, ["tor", "--quiet", "-f", str(node.folder / "torrc")])


def give_keys(folder, authorities):
    """Gives the key service the signing keys of our authorities."""
    keys = nodes.make_folder(folder / "signing")
    for each in authorities:
        (keys / f"{each.name}.pem").write_bytes((each.folder / "keys" / "authority_signing_key").read_bytes())


def start_key_service(processes, folder):
    """Starts the key service at the path at which dirauth dials it."""
    service = CONTRIB / "key-service" / "key_service.py"
    processes.start("keys", [sys.executable, str(service), "--keys", str(folder / "signing")])
    processes.wait_for("the key service", pathlib.Path(KEY_SERVICE).is_socket)


def daemon_address(node):
    """Where the daemon of an authority of ours listens."""
    return f"127.0.0.1:{9100 + node.number}"


def start_daemon(processes, dirauth, node):
    """Starts the daemon of an authority of ours."""
    words = [str(dirauth), "serve", "--listen", daemon_address(node)]
    if node.newest_method != nodes.NEWEST_METHOD:
        words += ["--newest-method", str(node.newest_method)]
    processes.start(f"{node.name}-daemon", words, node.folder / "station")


def start_front(processes, node, more):
    """Starts nginx and the front's program before a daemon; `more` is further words of the configuration."""
    daemon, front = daemon_address(node), f"127.0.0.1:{9200 + node.number}"
    programs = CONTRIB / "front"
    store, nginx = nodes.make_folder(node.folder / "store"), nodes.make_folder(node.folder / "nginx")
    words = [sys.executable, str(programs / "front.py"), "--listen", front, "--daemon", daemon, "--store", str(store)]
    words += ["--authorities", str(node.folder / "station"), "--verifier", KEY_SERVICE]
    processes.start(f"{node.name}-front", words)
    words = [sys.executable, str(programs / "configure.py"), "--listen", f"{node.address}:{nodes.DIR_PORT}"]
    words += ["--daemon", daemon, "--front", front, "--station", str(node.folder / "station"), *more]
    (nginx / "nginx.conf").write_text(nodes.run(words), "ascii")
    words = ["nginx", "-p", str(nginx), "-c", str(nginx / "nginx.conf"), "-e", "stderr"]
    processes.start(f"{node.name}-nginx", [*words, "-g", "user root;"])


def start_mirrors(processes, dirmirror, folder, authorities):
    """Starts the mirrors, and before each authority an nginx that has what it can of one of them, and else of the authority."""
    peers = ",".join(f"{each.address}:{nodes.DIR_PORT}" for each in authorities)
    words = [str(dirmirror), "--authorities", ",".join(each.identity for each in authorities), "--peers", peers]
    for number in range(MIRRORS):
        processes.start(f"mirror{number + 1}", [*words, "--listen", mirror_address(number)])
    for each in authorities:
        room = nodes.make_folder(folder / f"{each.name}-mirrored")
        listen, rest = f"{each.mirror}:{nodes.DIR_PORT}", f"{each.address}:{nodes.DIR_PORT}"
        configure = [sys.executable, str(CONTRIB / "front" / "configure.py"), "--listen", listen, "--authority", rest]
        text = nodes.run([*configure, "--mirror", mirror_address(each.number % MIRRORS), "--free", "10.77.0.0/16"])
        (room / "nginx.conf").write_text(text.replace("access_log off;", ASKED_LOG), "ascii")
        words = ["nginx", "-p", str(room), "-c", str(room / "nginx.conf"), "-e", "stderr"]
        processes.start(f"{each.name}-mirrored", [*words, "-g", "user root;"])


def wait_for_mirrors(processes):
    """Waits until each mirror has a consensus."""
    for number in range(MIRRORS):
        host, _, port = mirror_address(number).partition(":")
        path = "/tor/status-vote/current/consensus-microdesc"
        answer = lambda: answer_of(host, path, int(port)) or (404, b"")  # pylint: disable=unnecessary-lambda-assignment
        processes.wait_for(f"a consensus at mirror{number + 1}", lambda answer=answer: answer()[0] == 200)


def mirror_address(number):
    """Where a mirror listens."""
    return f"127.0.0.1:{9300 + number}"


def given_by_mirrors(folder, authorities):
    """How often the mirrors gave a kind of document to relays and clients, and how often `all else` came of authorities."""
    counts = collections.Counter()
    for each in authorities:
        for line in (folder / f"{each.name}-mirrored" / "asked").read_text("ascii", "replace").splitlines():
            code, cached, path = line.split(" ", 2)
            if code == "200":
                counts[kind_of(path) if cached != "-" else "all else"] += 1
    return counts


def kind_of(path):
    """The kind of document that a path of a mirror names."""
    return re.match(r"/tor/(?:status-vote/current/)?([a-z-]*)", path).group(1)
