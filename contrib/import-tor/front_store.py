"""What of a C tor authority's folder goes into the store of the front (contrib/front): what tors ask for at once."""
import os
import pathlib
import re
import shutil
import sys

sys.path.append(str(pathlib.Path(__file__).resolve().parent.parent / "front"))

from holdings import Holdings  # pylint: disable=wrong-import-position

# The files of tor's cache, by the flavour of the consensus that each has.
CONSENSUSES = {"consensus": "cached-consensus", "consensus-microdesc": "cached-microdesc-consensus"}


def cached(folder, name, tell):
    """The text of a file of tor's cache, without its `@` lines; empty where it is missing, which is told."""
    try:
        return re.sub(rb"(?m)^@.*\n", b"", (folder / name).read_bytes())
    except OSError as error:
        tell(f"{name}: {error.strerror}: the front is not given it")
        return b""


def fill(authority, descriptors, store, now, tell):
    """Puts consensuses, certificates, descriptors, and which authority is the own one, into a store. What is newer stays."""
    store = pathlib.Path(store)
    if not store.is_dir() or not os.access(store, os.W_OK):
        raise SystemExit(f"import-tor: {store} is no folder that may be written to")
    holdings = Holdings(keep=8)
    try:
        holdings.load(store, now)
        for flavour, name in CONSENSUSES.items():
            take_consensus(holdings, flavour, cached(authority.folder, name, tell), tell)
        certificates = cached(authority.folder, "cached-certs", tell) + authority.certificate.encode("ascii", "replace")
        holdings.take_certificates(certificates, now)
        holdings.take_relays(descriptors, now)
        holdings.take_own(authority.fingerprint)
        holdings.store(store, float("inf"))
        give_to_owner(store)
    except OSError as error:
        raise SystemExit(f"import-tor: {store}: {error.strerror}") from None
    told = f"{len(holdings.consensuses)} consensuses, {len(holdings.certificates)} certificates"
    tell(f"the front's store has {told}, {len(holdings.relays.all())} descriptors")


def take_consensus(holdings, flavour, text, tell):
    """Takes a consensus of the cache; what is none is told."""
    try:
        if text:
            holdings.take_consensus(flavour, text)
    except ValueError as error:
        tell(f"{CONSENSUSES[flavour]} is no consensus ({error}): left out")


def give_to_owner(store):
    """Lets the files belong to whom the folder belongs, where root writes them."""
    if os.geteuid() == 0:
        owner = store.stat()
        for path in store.iterdir():
            shutil.chown(path, owner.st_uid, owner.st_gid)
