"""The newest descriptor of each relay: what was uploaded, and what the daemon has."""
import threading

from directory_documents import newest_descriptors

# How many seconds a descriptor is held from when it was published: tors vote about none that is older than two days.
OLDEST = 172_800


class Relays:
    """Descriptors by fingerprint, of each relay the newest. Any thread may take and ask."""

    def __init__(self):
        self.lock = threading.Lock()
        self.held = {}

    def take(self, text, now):
        """Takes the descriptors of a text, and lets go of those that are too old. Whether something has changed."""
        newer = newest_descriptors(text)
        with self.lock:
            changed = False
            for fingerprint, found in newer.items():
                before = self.held.get(fingerprint)
                if found.published + OLDEST >= now and (before is None or before.published < found.published):
                    # The one that was taken last stands last.
                    self.held.pop(fingerprint, None)
                    self.held[fingerprint] = found
                    changed = True
            for fingerprint in [name for name, each in self.held.items() if each.published + OLDEST < now]:
                del self.held[fingerprint]
                changed = True
        return changed

    def all(self):
        """All descriptors, the one that was taken last behind the others."""
        with self.lock:
            return list(self.held.values())

    def text(self):
        """All descriptors, one behind the other."""
        return b"".join(each.text for each in self.all())
