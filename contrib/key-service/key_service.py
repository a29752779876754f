#!/usr/bin/env python3
"""An example of a key service for dirauth: answers over a Unix socket whether signatures are right, and makes them.

One line each way. The kinds of key are `identity`, `signing` and `ed25519`; keys, messages and signatures are hex digits in
lower case, `-` for an empty one.

    verify <kind> <key> <message> <signature>    is answered `yes` or `no`
    sign <kind> <key> <message>                  is answered `ok <signature>`

Any other request is answered `error <why>`, which dirauth counts as a fault. Why a signature is not right, or a request
refused, is told on standard error; without --quiet what went well too.

The service makes its socket at a path, or takes the one that systemd listens at for it (dirauth-keys.socket).

`identity` and `signing` keys are RSA, as a PKCS#1 DER public key. Their message is a digest, and the signature is PKCS#1 v1.5
with type 1 padding round the bare digest, without a DigestInfo. `ed25519` keys are the 32 bytes of the public key.
"""
import argparse
import contextlib
import os
import pathlib
import socket
import socketserver
import stat
import sys

from cryptography.exceptions import InvalidSignature, UnsupportedAlgorithm
from cryptography.hazmat.primitives import serialization
from cryptography.hazmat.primitives.asymmetric import ed25519, padding, rsa

# How many bytes a line may have, with its line end.
LINE_LIMIT = 65_536

KINDS = ("identity", "signing", "ed25519")

# The descriptor of the first socket that systemd hands over.
FIRST_HANDED = 3


class Refused(Exception):
    """A request that gets no answer but `error`, and why."""


def value(text, name):
    """The bytes that hex digits in lower case spell, `-` for none."""
    if text == "-":
        return b""
    if not text or len(text) % 2 or any(c not in "0123456789abcdef" for c in text):
        raise Refused(f"{name} is no lower-case hex")
    return bytes.fromhex(text)


def rsa_key(key):
    """The RSA public key of a PKCS#1 DER text."""
    try:
        found = serialization.load_der_public_key(key)
    except (ValueError, TypeError, UnsupportedAlgorithm):
        return None
    if not isinstance(found, rsa.RSAPublicKey) or public_text(found) != key:
        return None
    return found


def public_text(key):
    """The text that names a public key in requests."""
    if isinstance(key, rsa.RSAPublicKey):
        return key.public_bytes(serialization.Encoding.DER, serialization.PublicFormat.PKCS1)
    return key.public_bytes(serialization.Encoding.Raw, serialization.PublicFormat.Raw)


def why_not_rsa(key, message, signature):
    """Why an RSA signature is not right, or None where it is."""
    public = rsa_key(key)
    if public is None:
        return "the key is no PKCS#1 RSA public key"
    # The library takes one whose leading zero bytes are cut off for the same signature.
    if len(signature) != (public.key_size + 7) // 8:
        return "the signature is not as long as the key"
    try:
        found = public.recover_data_from_signature(signature, padding.PKCS1v15(), None)
    except InvalidSignature:
        return "the signature has not the padding of this key"
    return None if found == message else "the signature is over another digest"


def why_not_ed25519(key, message, signature):
    """Why an Ed25519 signature is not right, or None where it is."""
    try:
        ed25519.Ed25519PublicKey.from_public_bytes(key).verify(signature, message)
    except ValueError:
        return "the key is no Ed25519 public key"
    except InvalidSignature:
        return "the signature is not of this key and message"
    return None


def sign_rsa(private, message):
    """The signature round the bare digest: the library signs none without a DigestInfo."""
    numbers = private.private_numbers()
    modulus = numbers.public_numbers.n
    size = (modulus.bit_length() + 7) // 8
    if len(message) + 11 > size:
        raise Refused("the message is too long for the key")
    padded = b"\x00\x01" + b"\xff" * (size - len(message) - 3) + b"\x00" + message
    return pow(int.from_bytes(padded, "big"), numbers.d, modulus).to_bytes(size, "big")


def private_key(path):
    """The private key of a file."""
    try:
        return serialization.load_pem_private_key(path.read_bytes(), None)
    except (OSError, ValueError, TypeError, UnsupportedAlgorithm) as error:
        raise SystemExit(f"{path}: it is no private key without a password: {error}") from None


class Keys:
    """The private keys of a folder, by the text of their public keys."""

    def __init__(self, folder):
        self.private = {}
        try:
            paths = sorted(pathlib.Path(folder).iterdir())
        except OSError as error:
            raise SystemExit(f"{folder}: {error.strerror}") from None
        for path in paths:
            if path.suffix != ".pem":
                continue
            key = private_key(path)
            if not isinstance(key, (rsa.RSAPrivateKey, ed25519.Ed25519PrivateKey)):
                raise SystemExit(f"{path}: neither an RSA nor an Ed25519 key")
            self.private[public_text(key.public_key())] = key

    def sign(self, kind, key, message):
        """The signature by the private key of this public one."""
        private = self.private.get(key)
        if private is None:
            raise Refused("no private key of this public key is in the folder")
        if isinstance(private, rsa.RSAPrivateKey) == (kind == "ed25519"):
            raise Refused("the key is of another kind")
        return private.sign(message) if kind == "ed25519" else sign_rsa(private, message)


def answer(keys, line, tell):
    """The answer to a request."""
    words = line.split(" ")
    if len(words) < 2 or words[1] not in KINDS:
        raise Refused("no request of a known kind of key")
    kind = words[1]
    if words[0] == "verify" and len(words) == 5:
        key, message, signature = (value(w, n) for w, n in zip(words[2:], ("the key", "the message", "the signature")))
        check = why_not_ed25519 if kind == "ed25519" else why_not_rsa
        why = check(key, message, signature)
        tell(f"verify {kind}: {'yes' if why is None else 'no, ' + why}")
        return "yes" if why is None else "no"
    if words[0] == "sign" and len(words) == 4:
        key, message = (value(w, n) for w, n in zip(words[2:], ("the key", "the message")))
        signature = keys.sign(kind, key, message)
        tell(f"sign {kind}: ok")
        return "ok " + signature.hex()
    raise Refused("neither `verify` with four words behind it nor `sign` with three")


class Connection(socketserver.StreamRequestHandler):
    """One connection: a line, its answer, and so on until the other side closes."""

    def handle(self):
        while True:
            line = self.rfile.readline(LINE_LIMIT)
            if not line:
                return
            if not line.endswith(b"\n"):
                self.server.tell("closed: a line that is too long, or cut off")
                return
            try:
                text = answer(self.server.keys, line[:-1].decode("ascii"), self.server.tell)
            except UnicodeDecodeError:
                text = "error the request is no ASCII text"
            except Refused as refused:
                text = f"error {refused}"
            if text.startswith("error"):
                self.server.tell(text)
            self.wfile.write(text.encode("ascii") + b"\n")


class Service(socketserver.ThreadingMixIn, socketserver.UnixStreamServer):
    """The service over a socket that listens: a thread for each connection."""

    daemon_threads = True

    def __init__(self, listener, keys, quiet):
        self.keys = keys
        self.quiet = quiet
        super().__init__(listener.getsockname(), Connection, bind_and_activate=False)
        self.socket.close()
        self.socket = listener

    def tell(self, text):
        """Tells a line, in one write: lines of several threads stand whole. What went well is not told where it is quiet."""
        if not (self.quiet and text.endswith((": yes", ": ok"))):
            with contextlib.suppress(OSError):
                os.write(sys.stderr.fileno(), f"{text}\n".encode("utf-8", "replace"))


def handed_listener():
    """The socket at which systemd listens for the service, or None where it hands over none (sd_listen_fds(3))."""
    if os.environ.get("LISTEN_PID") != str(os.getpid()):
        return None
    if os.environ.get("LISTEN_FDS") != "1":
        raise SystemExit("systemd hands over other than one socket")
    listener = socket.socket(fileno=FIRST_HANDED)
    listens = listener.getsockopt(socket.SOL_SOCKET, socket.SO_ACCEPTCONN)
    if (listener.family, listener.type) != (socket.AF_UNIX, socket.SOCK_STREAM) or not listens:
        raise SystemExit("systemd hands over no Unix stream socket that listens")
    return listener


def remove_old_socket(path):
    """Removes the socket that stands at a path; whatever else stands there, a link too, is left and refused."""
    try:
        mode = os.lstat(path).st_mode
    except FileNotFoundError:
        return
    if not stat.S_ISSOCK(mode):
        raise SystemExit(f"{path}: it is there and is no socket")
    os.unlink(path)


def new_listener(path):
    """A new socket at a path, for its owner alone, in place of an old one."""
    listener = socket.socket(socket.AF_UNIX, socket.SOCK_STREAM)
    before = os.umask(0o177)
    try:
        remove_old_socket(path)
        listener.bind(path)
    except OSError as error:
        raise SystemExit(f"{path}: {error.strerror or error}") from None
    finally:
        os.umask(before)
    listener.listen()
    return listener


def main():
    """Serves until it is stopped."""
    parser = argparse.ArgumentParser(description="An example of a key service for dirauth.")
    parser.add_argument("--keys", required=True, help="the folder with the private keys, as NAME.pem without a password")
    parser.add_argument(
        "--socket",
        default="/run/dirauth-keys",
        help="the path of the socket, where systemd hands over none (default: %(default)s)",
    )
    parser.add_argument("--quiet", action="store_true", help="tell only what is no, or no request")
    given = parser.parse_args()
    keys = Keys(given.keys)
    handed = handed_listener()
    listener = new_listener(given.socket) if handed is None else handed
    service = Service(listener, keys, given.quiet)
    service.tell(f"{len(keys.private)} private keys, listening on {listener.getsockname()}")
    try:
        service.serve_forever()
    except KeyboardInterrupt:
        pass
    finally:
        # The socket that systemd hands over is systemd's to remove.
        if handed is None:
            os.unlink(given.socket)


if __name__ == "__main__":
    main()
