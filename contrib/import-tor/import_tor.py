#!/usr/bin/env python3
"""Makes the station input of dirauth of the folder of a C tor directory authority, and compares two votes.

    import_tor.py --torrc /etc/tor/torrc [--data /var/lib/tor] [--keys FOLDER] [--store FOLDER] [--dirauth PROGRAM] > station
    import_tor.py --compare OUR_VOTE TOR_VOTE

--torrc may be said several times, the defaults first. Where none has DirAuthority lines, --authorities names a file of
them, or the list that is built into tor (src/app/config/auth_dirs.inc). --vote is an own vote in place of that in the
folder's v3-status-votes. With --bandwidth the file of V3BandwidthsFile stands in front, for `--bandwidth` of dirauth;
else its kilobytes stand in the `measured` lines. --keys is where the signing key is put, for a key service. --store is the
folder of the front (contrib/front), which is given the consensuses, the certificates and the descriptors that the tor has.
With --dirauth a vote is made of the station input and thrown away: descriptors that are refused are left out, and told.

What has no place in a station input is told on standard error, with what stands for it. FIELDS.md has each field.
"""
import argparse
import os
import pathlib
import re
import sys
import time

import compare_votes
import front_store
import no_place
import rulings
import tor_folder
import torrc

sys.path.append(str(pathlib.Path(__file__).resolve().parent.parent / "serve"))

from trial import NoProgram, Trial  # pylint: disable=wrong-import-position

# The lines that an own vote has as the station input has them, with the options that say the same.
LISTS = {
    "client-versions": ("RecommendedClientVersions", "RecommendedVersions"),
    "server-versions": ("RecommendedServerVersions", "RecommendedVersions"),
    "recommended-client-protocols": (),
    "recommended-relay-protocols": (),
    "required-client-protocols": (),
    "required-relay-protocols": (),
}


def tell(text):
    """Tells something of what is made."""
    print(f"import-tor: {text}", file=sys.stderr)


def read(path, needed=False):
    """The bytes of a file, none where it may be missing and is."""
    try:
        return pathlib.Path(path).read_bytes()
    except FileNotFoundError:
        if not needed:
            return b""
        raise SystemExit(f"import-tor: {path}: there is no such file") from None
    except OSError as error:
        raise SystemExit(f"import-tor: {path}: {error.strerror}") from None


def text_of(path, needed=False):
    """The text of a file, whose other bytes stay what they are."""
    return read(path, needed).decode("utf-8", "surrogateescape")


class Authority:
    """A C tor authority: its options, its folder, its certificate and its last own vote."""

    def __init__(self, given):
        self.options = torrc.Options([text_of(path, True) for path in given.torrc])
        folder = given.data or self.options.one("DataDirectory")
        if folder is None or not pathlib.Path(folder).is_dir():
            raise SystemExit(f"import-tor: {folder or 'DataDirectory'}: there is no such folder (--data)")
        self.folder = pathlib.Path(folder)
        self.certificate = self.read_certificate()
        self.fingerprint = tor_folder.item(self.certificate, "fingerprint").upper()
        self.vote = self.read_vote(given.vote)
        self.roster = self.read_roster(given.authorities)

    def read_certificate(self):
        """The certificate, from its first line on."""
        path = self.folder / "keys/authority_certificate"
        _, first, rest = text_of(path, True).partition("dir-key-certificate-version ")
        if not first or not re.search(r"(?m)^fingerprint [0-9A-Fa-f]{40}$", rest):
            raise SystemExit(f"import-tor: {path}: it is no certificate")
        return first + rest.rstrip("\n") + "\n"

    def read_vote(self, path):
        """The own vote, or an empty text where there is none."""
        if path is not None:
            return text_of(path, True)
        votes = tor_folder.documents(text_of(self.folder / "v3-status-votes"), "network-status-version")
        for vote in votes:
            if re.search(rf"(?m)^dir-source \S+ {self.fingerprint} ", vote):
                return vote
        tell("v3-status-votes has no own vote: no protocol lines, and what was measured of router-stability alone")
        return ""

    def read_roster(self, path):
        """The authorities, with their addresses."""
        lines = self.options.all("DirAuthority") + self.options.all("AlternateDirAuthority")
        if path is not None and not lines:
            lines = torrc.lines_of_list(text_of(path, True))
        roster = torrc.authorities(lines)
        if not roster:
            raise SystemExit("import-tor: no DirAuthority line with v3ident: name a file of them by --authorities")
        if self.fingerprint not in (name for name, _ in roster):
            tell(f"no DirAuthority line has the own fingerprint {self.fingerprint}")
        return roster

    def source(self):
        """The words of the own authority: nickname, fingerprint, host, address, DirPort, ORPort."""
        line = tor_folder.item(self.vote, "dir-source")
        if line is not None:
            return line.split()
        address = self.options.one("Address")
        if address is None:
            raise SystemExit("import-tor: neither an own vote nor the option Address tells where the authority is")
        name, ports = self.options.one("Nickname", "Unnamed"), (("DirPort", "80"), ("ORPort", "443"))
        return [name, self.fingerprint, address, address, *(self.options.port(*port) for port in ports)]

    def contact(self):
        """The contact, or None."""
        found = re.search(r"(?m)^dir-source .*\ncontact (.*)$", self.vote)
        return self.options.one("ContactInfo") if found is None else found.group(1)

    def listed(self, keyword):
        """What the authority lists behind a keyword, or an empty text."""
        if self.vote:
            return tor_folder.item(self.vote, keyword) or ""
        for option in LISTS[keyword]:
            if self.options.all(option):
                return ",".join(self.options.all(option)).replace(" ", "")
        return ""

    def params(self):
        """The params."""
        if self.vote:
            return tor_folder.item(self.vote, "params") or ""
        return " ".join(sorted(" ".join(self.options.all("ConsensusParams")).split()))

    def schedule(self):
        """The seconds between two consensuses, for votes, and for signatures."""
        names = (("V3AuthVotingInterval", 3600), ("V3AuthVoteDelay", 300), ("V3AuthDistDelay", 300))
        return [self.options.seconds(*name) for name in names]

    def kilobytes(self):
        """The kilobytes of each relay in the bandwidth file."""
        found = {}
        for line in text_of(self.bandwidth_file()).splitlines() if self.bandwidth_file() else ():
            words = dict(word.partition("=")[::2] for word in line.split())
            name = words.get("node_id", "").lstrip("$").upper()
            if re.fullmatch(r"[0-9A-F]{40}", name) and words.get("bw", "").isdigit() and words.get("vote") != "0":
                found[name] = words["bw"]
        return found

    def bandwidth_file(self):
        """The path of the bandwidth file, or None."""
        return self.options.one("V3BandwidthsFile")


def head_lines(authority):
    """The lines in front of the rulings."""
    contact, source = authority.contact(), " ".join(authority.source())
    yield from ("station 1", f"own {source}", *([] if contact is None else [f"contact {contact}"]))
    yield from authority.certificate.splitlines()
    yield "schedule " + " ".join(str(seconds) for seconds in authority.schedule())
    yield from (f"authority {name} {address}" for name, address in authority.roster)
    for keyword, text in ((keyword, authority.listed(keyword)) for keyword in LISTS):
        if text:
            yield f"{keyword} {text}"
    if authority.params():
        yield f"params {authority.params()}"


def measured_lines(authority, names, now, kilobytes):
    """The `measured` line of each of these relays of which something was measured."""
    text = text_of(authority.folder / "router-stability")
    stable, stored = tor_folder.stability(text, now) if text else ({}, 0)
    entries = tor_folder.entries(authority.vote)
    published = tor_folder.moment(tor_folder.item(authority.vote, "published")) if authority.vote else 0
    voted = kept = 0
    for name in names:
        found, at = tor_folder.voted_measures(entries.get(name, {})), published
        voted += found is not None
        if found is None and name in stable:
            found, at, kept = stable[name], stored, kept + 1
        if found is not None:
            uptime = min(round(found.uptime * 1_000_000), 1_000_000)
            words = (at if found.is_up else 0, found.between_failures, uptime, found.known, kilobytes.get(name, "-"))
            yield " ".join(["measured", name, *(str(word) for word in words)])
    tell(f"measured: {voted} relays by the own vote, {kept} by router-stability, {len(names) - voted - kept} by neither")


def station_of(authority, given, now):
    """The station input, and the descriptors that stand behind it."""
    caches = [read(authority.folder / name) for name in ("cached-descriptors", "cached-descriptors.new")]
    descriptors = tor_folder.newest_descriptors(caches, now, tell)
    approved = text_of(authority.folder / "approved-routers")
    rules = rulings.rulings(approved, authority.options, descriptors, tell)
    kilobytes = {} if given.bandwidth else authority.kilobytes()
    lines = [
        *head_lines(authority),
        *(f"rule {word} {name}" for name, word in rules.items()),
        *measured_lines(authority, descriptors, now, kilobytes),
        "end-station",
    ]
    no_place.tell_what_has_no_place(authority.options, tell)
    tell(f"{len(descriptors)} descriptors, {len(authority.roster)} authorities, {len(rules)} relays are ruled")
    text = "".join(f"{line}\n" for line in lines).encode("utf-8", "surrogateescape")
    return text, [each.text for each in descriptors.values()]


def tried(given, station, descriptors):
    """The descriptors of which dirauth makes a vote, which is thrown away; those that it refuses are told."""
    if given.dirauth is None:
        tell("no vote was tried of it: name the program by --dirauth, while the key service has the signing key")
        return descriptors
    words = ["--bandwidth"] * given.bandwidth + ["--newest-method", given.newest_method] * bool(given.newest_method)
    trial = Trial(given.dirauth, words, tell)
    try:
        kept = trial.acceptable(station, descriptors)
    except NoProgram as error:
        raise SystemExit(f"import-tor: {error}") from None
    if kept is None:
        raise SystemExit(f"import-tor: no vote can be made of it: {trial.told}")
    tell(f"a vote can be made of it, with {len(kept)} descriptors")
    return kept


def front_of(authority):
    """The bandwidth file, and the line that ends it."""
    if authority.bandwidth_file() is None:
        raise SystemExit("import-tor: no V3BandwidthsFile is set, so there is none for --bandwidth")
    return read(authority.bandwidth_file(), True).rstrip(b"\n") + b"\nend-bandwidth-file\n"


def put_key(authority, folder):
    """Puts the signing key into a folder, for its owner alone."""
    key = read(authority.folder / "keys/authority_signing_key", True)
    path = pathlib.Path(folder) / f"{authority.source()[0]}-signing.pem"
    try:
        path.parent.mkdir(mode=0o700, parents=True, exist_ok=True)
        path.unlink(missing_ok=True)
        with open(os.open(path, os.O_WRONLY | os.O_CREAT | os.O_EXCL, 0o600), "wb") as file:
            file.write(key)
    except OSError as error:
        raise SystemExit(f"import-tor: {path}: {error.strerror}") from None


def main():
    """Writes a station input, or what two votes differ in."""
    parser = argparse.ArgumentParser(description=__doc__, formatter_class=argparse.RawDescriptionHelpFormatter)
    parser.add_argument("--torrc", action="append", metavar="FILE", help="the tor's options; several, the defaults first")
    parser.add_argument("--data", metavar="FOLDER", help="its DataDirectory, where the torrc does not name it")
    parser.add_argument("--authorities", metavar="FILE", help="DirAuthority lines, where the torrc has none")
    parser.add_argument("--vote", metavar="FILE", help="an own vote, in place of that of v3-status-votes")
    parser.add_argument("--bandwidth", action="store_true", help="put the bandwidth file in front")
    parser.add_argument("--keys", metavar="FOLDER", help="where the signing key is put")
    parser.add_argument("--store", metavar="FOLDER", help="the store of the front, which is given what the tor has cached")
    parser.add_argument("--dirauth", metavar="PROGRAM", help="the program, to try a vote of what is made")
    parser.add_argument("--newest-method", metavar="N", help="the newest method that the program is to know")
    parser.add_argument("--now", type=int, default=int(time.time()), help=argparse.SUPPRESS)
    parser.add_argument("--compare", nargs=2, metavar=("OURS", "TORS"), help="tell what two votes differ in")
    given = parser.parse_args()
    if given.compare:
        ours, theirs = (text_of(path, True) for path in given.compare)
        text = "".join(f"{line}\n" for line in compare_votes.differences(ours, theirs))
        sys.stdout.buffer.write(text.encode("utf-8", "surrogateescape"))
        return
    if not given.torrc:
        parser.error("say --torrc, or --compare")
    authority = Authority(given)
    front = front_of(authority) if given.bandwidth else b""
    text, descriptors = station_of(authority, given, given.now)
    if given.keys:
        put_key(authority, given.keys)
    kept = tried(given, front + text, descriptors)
    if given.store:
        front_store.fill(authority, b"".join(kept), given.store, given.now, tell)
    try:
        sys.stdout.buffer.write(front + text + b"".join(kept))
        sys.stdout.buffer.flush()
    except OSError as error:
        raise SystemExit(f"import-tor: the station input can not be written: {error.strerror}") from None


if __name__ == "__main__":
    try:
        main()
    except ValueError as error:
        raise SystemExit(f"import-tor: a file is not as tor writes it: {error}") from None
