"""A client that is new: it comes into the network from nothing, and fetches a page through three relays."""
import http.server
import re
import shutil
import socket
import threading
import time

import nodes
import processes

# The page, and the port at which the web server has it.
PAGE, WEB_PORT = b"a page of the network\n", 80

# When a client begins, in seconds from the valid-after: once the relays have the consensus. How long it may take
# until it has the page, and how many are tried.
BEGINS_AT, FETCHES_WITHIN, TRIES = 45, 60, 2


class Page(http.server.BaseHTTPRequestHandler):
    """The web server: it has one page."""

    def do_GET(self):  # pylint: disable=invalid-name
        """Answers with the page."""
        self.send_response_only(200)
        self.end_headers()
        self.wfile.write(PAGE)

    def log_message(self, format, *args):  # pylint: disable=redefined-builtin
        """Nothing is told."""


def start_web_server():
    """Starts the web server."""
    server = http.server.ThreadingHTTPServer((nodes.WEB, WEB_PORT), Page)
    threading.Thread(target=server.serve_forever, daemon=True).start()


class Control:
    """The control port of a tor."""

    def __init__(self, address):
        self.socket = socket.create_connection(address, timeout=10)
        self.lines = self.socket.makefile("r", encoding="ascii", errors="replace")
        self.ask("AUTHENTICATE")

    def ask(self, line):
        """The lines of an answer, up to the one that ends it."""
        self.socket.sendall(f"{line}\r\n".encode("ascii"))
        answer = []
        while text := self.lines.readline():
            answer.append(text.rstrip("\r\n"))
            if re.match(r"[0-9]{3} ", text):
                break
        return answer

    def close(self):
        """Ends the connection."""
        self.socket.close()


def path_of(streams, circuits):
    """The relays of the circuit that has the stream to the web server, of two answers of the control port."""
    target = re.escape(f"{nodes.WEB}:{WEB_PORT}")
    found = [re.search(rf"(?:^|=)\d+ \S+ (\d+) {target}", line) for line in streams]
    numbers = {each.group(1) for each in found if each}
    for line in circuits:
        words = line.rpartition("circuit-status=")[2].split()
        if len(words) > 2 and words[0] in numbers and words[1] == "BUILT":
            return re.findall(r"\$([0-9A-F]{40})", words[2])
    return []


def connect(proxy, target, port):
    """A connection to a target through a SOCKS proxy (version 4, by address)."""
    connection = socket.create_connection(proxy, timeout=60)
    connection.sendall(b"\x04\x01" + port.to_bytes(2, "big") + socket.inet_aton(target) + b"\x00")
    answer = connection.recv(8)
    if len(answer) < 2 or answer[1] != 90:
        connection.close()
        raise ConnectionError(f"the proxy said {answer.hex() or 'nothing'}")
    return connection


def fetch():
    """The page and the relays through which it came."""
    with connect((nodes.CLIENT, nodes.SOCKS_PORT), nodes.WEB, WEB_PORT) as connection:
        control = Control(nodes.CONTROL)
        path = path_of(control.ask("GETINFO stream-status"), control.ask("GETINFO circuit-status"))
        control.close()
        connection.sendall(f"GET / HTTP/1.0\r\nHost: {nodes.WEB}\r\n\r\n".encode("ascii"))
        page = b""
        while piece := connection.recv(4096):
            page += piece
    return page.partition(b"\r\n\r\n")[2], path


def try_until(end):
    """Fetches until it works, and gives the relays; or why it did not in time."""
    why = "nothing was tried"
    while time.monotonic() < end:
        try:
            page, path = fetch()
        except OSError as error:
            why = str(error)
        else:
            if page == PAGE and len(set(path)) == 3:
                return path, None
            why = f"the page has {len(page)} bytes, and came through {len(set(path))} relays"
        time.sleep(1)
    return [], why


def new_clients(started, folder, authorities, relays, guards):
    """A client from nothing, and where that fails another: what the last one did, and the fault where there is one."""
    for _ in range(TRIES):
        told, fault = new_client(started, folder, authorities, relays, guards)
        if fault is None:
            break
    return told, fault


def new_client(started, folder, authorities, relays, guards):
    """Starts a client from nothing, fetches the page, and ends it: what it did, and the fault where there is one."""
    names = {each.fingerprint: each.name for each in [*relays, *authorities]}
    node = nodes.Node("client", nodes.CLIENT, nodes.make_folder(folder / "client"), 0)
    begun = time.monotonic()
    processes.start_tor(started, node, nodes.client_torrc(folder, node, authorities, relays, guards))
    try:
        path, why = try_until(begun + FETCHES_WITHIN)
    finally:
        started.stop("client")
        shutil.rmtree(node.folder)
    if why is not None:
        return "no page", f"a new client fetched no page within {FETCHES_WITHIN} seconds: {why}"
    through = " ".join(names.get(each, each) for each in path)
    return f"page after {time.monotonic() - begun:.1f} s through {through}", None
