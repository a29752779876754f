#!/usr/bin/env python3
"""Authorities with real keys, for some periods, and a mirror: what each publishes, and what it takes.

    python3 ../key-service/example_stations.py --authorities 3 FOLDER
    sed -i 's/^schedule .*/schedule 300 40 40/; s/^\\(authority .*\\) 192.0.2.\\(.\\):80$/\\1 127.0.0.1:1808\\2/' FOLDER/*.station
    python3 try/periods.py DIRAUTH FOLDER --periods 5

starts DIRAUTH for each FOLDER/authN.station, with the key service that listens at /run/dirauth-keys, at the address that the
stations have for it. A moment behind each valid-after it fetches both flavours from each authority, and looks whether all are the
same bytes in front of the signatures, and whether each has one right RSA signature of each authority. It tells a line for each
period and flavour, and at the end how much memory and time each authority took; status 0 only where all was right. With
`--mirror DIRMIRROR` that program runs beside them and asks all of them: within 75 seconds behind each valid-after it has to have the
new microdesc consensus, every microdescriptor that it names, and the certificates of its signers. Needs `python3-cryptography`. All
that it started is ended behind it.
"""
import argparse
import base64
import hashlib
import os
import pathlib
import re
import shutil
import subprocess
import sys
import time
import urllib.error
import urllib.request
from datetime import datetime, timezone

sys.path.insert(0, str(pathlib.Path(__file__).resolve().parent.parent.parent / "key-service"))
from key_service import why_not_rsa  # pylint: disable=wrong-import-position
from mirrored import named, wait_for  # pylint: disable=wrong-import-position

# The flavours: the end of the path, and the digest that the signatures cover.
FLAVOURS = {"consensus": "sha1", "consensus-microdesc": "sha256"}

# How long behind the valid-after a consensus may be published.
PUBLISHED_WITHIN = 10

# How long behind it a mirror may have it, which asks once a minute.
MIRRORED_WITHIN = 75

# Where the mirror listens.
MIRROR_ADDRESS = "127.0.0.1:18090"


class Authority:
    """An authority of the folder: who it is, where it listens, and its process."""

    def __init__(self, path):
        text = path.read_text("ascii")
        self.path = path
        self.name = path.stem
        self.fingerprint = re.search(r"^own \S+ (\S+) ", text, re.M).group(1)
        self.address = re.search(rf"^authority {self.fingerprint} (\S+)$", text, re.M).group(1)
        self.schedule = [int(number) for number in re.search(r"^schedule (.*)$", text, re.M).group(1).split()]
        key = re.search(r"^dir-signing-key\n-----BEGIN RSA PUBLIC KEY-----\n([^-]*)-----END", text, re.M).group(1)
        self.signing_key = base64.b64decode(key)
        self.process = None

    def start(self, dirauth):
        """Starts its process."""
        with open(self.path, "rb") as station, open(self.path.with_suffix(".err"), "wb") as errors:
            self.process = subprocess.Popen(
                [dirauth, "serve", "--listen", self.address], stdin=station, stdout=errors, stderr=errors
            )

    def get(self, path):
        """The document at a path, or None."""
        try:
            with urllib.request.urlopen(f"http://{self.address}{path}", timeout=20) as response:
                return response.read()
        except (urllib.error.URLError, OSError):
            return None


class Mirror:
    """A mirror of the authorities, and its process."""

    def __init__(self, folder):
        self.name = "mirror"
        self.errors = folder / "mirror.err"
        self.process = None

    def start(self, dirmirror, authorities):
        """Starts its process, which asks all authorities."""
        roster = ",".join(each.fingerprint for each in authorities)
        peers = ",".join(each.address for each in authorities)
        words = ["--authorities", roster, "--peers", peers, "--listen", MIRROR_ADDRESS]
        with open(self.errors, "wb") as errors:
            self.process = subprocess.Popen([dirmirror, *words], stdin=subprocess.DEVNULL, stdout=errors, stderr=errors)


def taken(program):
    """The most memory that an authority or a mirror had, and the time of processors that it took."""
    status = pathlib.Path(f"/proc/{program.process.pid}/status").read_text("ascii")
    most = re.search(r"^VmHWM:\s*(.*)$", status, re.M).group(1)
    fields = pathlib.Path(f"/proc/{program.process.pid}/stat").read_text("ascii").rpartition(")")[2].split()
    ticks = int(fields[11]) + int(fields[12])
    return f"{program.name}: {most} of memory at most, {ticks / os.sysconf('SC_CLK_TCK'):.1f} s of processors"


def why_not_signed(flavour, text, authorities):
    """The bytes in front of the signatures, and why these are not one of each authority, or None where they are."""
    word = b"\ndirectory-signature "
    place = text.find(word)
    if place < 0:
        return text, "it has no signature"
    covered = text[: place + len(word)]
    digest = hashlib.new(FLAVOURS[flavour], covered).digest()
    signers = []
    for part in text[place + 1 :].split(word[1:])[1:]:
        words, begin, *lines, end = part.decode("ascii").rstrip("\n").split("\n")
        if (begin, end) != ("-----BEGIN SIGNATURE-----", "-----END SIGNATURE-----"):
            return covered, "it has a signature that is no object"
        *_, fingerprint, key_digest = words.split(" ")
        signers.append(fingerprint)
        signer = next((each for each in authorities if each.fingerprint == fingerprint), None)
        if signer is None or hashlib.sha1(signer.signing_key).hexdigest().upper() != key_digest:
            return covered, f"it has a signature of another key: {words}"
        why = why_not_rsa(signer.signing_key, digest, base64.b64decode("".join(lines)))
        if why is not None:
            return covered, f"{signer.name}: {why}"
    if sorted(signers) != sorted(each.fingerprint for each in authorities):
        return covered, f"it has {len(signers)} signatures"
    return covered, None


def fetched(authority, flavour, moment, until):
    """The consensus of a flavour that is valid from a moment on, once it is there, and when that was. None where it is not in time."""
    wanted = f"\nvalid-after {datetime.fromtimestamp(moment, timezone.utc):%Y-%m-%d %H:%M:%S}\n".encode("ascii")
    while time.time() < until:
        text = authority.get(f"/tor/status-vote/current/{flavour}")
        if text is not None and wanted in text[:1000]:
            return text, time.time()
        time.sleep(0.2)
    return None, time.time()


def look_at(authorities, moment):
    """Looks at what all publish for a moment, and says whether it is right."""
    holds = True
    for flavour in FLAVOURS:
        fronts, whys, last = set(), [], 0.0
        for each in authorities:
            text, when = fetched(each, flavour, moment, moment + PUBLISHED_WITHIN)
            last = max(last, when - moment)
            front, why = (None, "it is not there") if text is None else why_not_signed(flavour, text, authorities)
            fronts.add(front)
            if why is not None:
                whys.append(f"{each.name}: {why}")
            if text is not None:
                each.path.with_suffix(f".{flavour}").write_bytes(text)
        right = not whys and len(fronts) == 1
        holds = holds and right
        began = f"{datetime.fromtimestamp(moment, timezone.utc):%H:%M:%S}"
        print(
            f"{'ok' if right else 'WRONG'} {began} {flavour}: {len(fronts)} text, with one right signature of each of"
            f" {len(authorities) - len(whys)}, {last:.1f} s behind the valid-after {whys or ''}",
            flush=True,
        )
    return holds


def look_at_mirror(authorities, moment):
    """Looks whether the mirror has what the authorities published for a moment, and says whether it has."""
    texts = [each.path.with_suffix(".consensus-microdesc").read_bytes() for each in authorities]
    _, why = wait_for(MIRROR_ADDRESS, texts, moment + MIRRORED_WITHIN - time.time())
    began = f"{datetime.fromtimestamp(moment, timezone.utc):%H:%M:%S}"
    print(
        f"{'ok' if why is None else 'WRONG'} {began} mirror: {len(named(texts[0]))} microdescriptors named,"
        f" {time.time() - moment:.1f} s behind the valid-after {why or ''}",
        flush=True,
    )
    return why is None


def authority_of(path):
    """The authority of a station input."""
    try:
        return Authority(path)
    except OSError as error:
        raise SystemExit(f"periods: {path}: {error.strerror}") from None
    except (AttributeError, ValueError):
        raise SystemExit(f"periods: {path}: it is no station input") from None


def main():
    """Starts, looks, and ends."""
    parser = argparse.ArgumentParser(description=__doc__, formatter_class=argparse.RawDescriptionHelpFormatter)
    parser.add_argument("dirauth", metavar="DIRAUTH")
    parser.add_argument("folder", metavar="FOLDER", type=pathlib.Path)
    parser.add_argument("--periods", type=int, default=5, metavar="N", help="how many (default: %(default)s)")
    parser.add_argument("--mirror", metavar="DIRMIRROR", help="a mirror beside them")
    given = parser.parse_args()
    authorities = [authority_of(path) for path in sorted(given.folder.glob("auth*.station"))]
    if not authorities:
        raise SystemExit(f"periods: {given.folder}: it has no auth*.station")
    for program in filter(None, (given.dirauth, given.mirror)):
        if shutil.which(program) is None:
            raise SystemExit(f"periods: {program} is no program")
    programs = list(authorities)
    interval, vote, dist = authorities[0].schedule
    holds = True
    try:
        moment = -(-(time.time() + 1 + vote + dist) // interval) * interval
        for each in authorities:
            each.start(given.dirauth)
        if given.mirror is not None:
            programs.append(Mirror(given.folder))
            programs[-1].start(given.mirror, authorities)
        for number in range(given.periods):
            at = moment + number * interval
            time.sleep(max(0.0, at + 0.2 - time.time()))
            published = look_at(authorities, at)
            holds = published and holds
            if published and given.mirror is not None:
                holds = look_at_mirror(authorities, at) and holds
        for each in programs:
            if each.process.poll() is None:
                print(taken(each))
            else:
                print(f"WRONG {each.name} ended with status {each.process.returncode}")
                holds = False
    finally:
        for each in programs:
            if each.process is not None:
                each.process.kill()
                each.process.wait()
    sys.exit(0 if holds else 1)


if __name__ == "__main__":
    main()
