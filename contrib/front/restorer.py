"""Brings the daemon the descriptors that it lost: one that is started anew has none that relays uploaded to it."""
import random
import sys
import time

from directory_documents import newest_descriptors

# Seconds between two looks at the daemon.
LOOKS_EVERY = 2

# From how many seconds before votes are made on all descriptors are looked at, whatever the probes said.
BEFORE_VOTING = 60


class Restorer:
    """Looks whether the daemon has what the front has."""

    def __init__(self, daemon, holdings):
        self.daemon = daemon
        self.holdings = holdings
        # What the daemon refused since it was away last, by relay and moment.
        self.refused = set()
        self.must_look = True
        self.looked_before = None

    def look(self, now):
        """Brings what the daemon lacks, where it may lack something."""
        held = [each for each in self.holdings.relays.all() if (each.fingerprint, each.published) not in self.refused]
        if not held:
            return
        if not (self.must_look or self.voting_is_near(now)):
            probes = [held[-1], random.choice(held)]
            self.must_look = any(self.lacks(each) for each in dict.fromkeys(probes))
        if self.must_look:
            self.must_look = not self.bring_all(held)

    def voting_is_near(self, now):
        """Whether votes are made soon, and nothing was looked at for them."""
        moment = self.holdings.voting_begins()
        if moment is None or not moment - BEFORE_VOTING <= now < moment or self.looked_before == moment:
            return False
        self.looked_before = moment
        self.must_look = True
        return True

    def away(self):
        """The daemon does not answer: what it refused may hold with the next one, by other rules."""
        self.refused.clear()
        self.must_look = True
        return True

    def lacks(self, descriptor):
        """Whether the daemon has not this descriptor, nor a newer one of the relay."""
        answer = self.daemon.exchange("GET", "/tor/server/fp/" + descriptor.fingerprint)
        if answer is None:
            return self.away()
        return is_behind(newest_descriptors(answer.body), descriptor)

    def bring_all(self, held):
        """Brings each that the daemon lacks, and says whether each was taken or refused."""
        answer = self.daemon.exchange("GET", "/tor/server/all")
        if answer is None or answer.code not in (200, 404):
            self.away()
            return False
        there = newest_descriptors(answer.body)
        lacking = [each for each in held if is_behind(there, each)]
        taken = 0
        for each in lacking:
            answer = self.daemon.exchange("POST", "/tor/", each.text)
            if answer is None:
                self.away()
                break
            if answer.code not in (200, 400):
                break
            taken += answer.code == 200
            if answer.code == 400:
                self.refused.add((each.fingerprint, each.published))
        return self.tell(lacking, taken)

    def tell(self, lacking, taken):
        """Tells what was brought, and says whether nothing is left."""
        refused = sum((each.fingerprint, each.published) in self.refused for each in lacking)
        left = len(lacking) - taken - refused
        if taken or refused:
            more = f", refused {refused}" * bool(refused) + f", {left} are left" * bool(left)
            print(f"front: the daemon lacked {len(lacking)} descriptors: took {taken}{more}", file=sys.stderr, flush=True)
        return not left

    def restore(self):
        """Looks for ever."""
        while True:
            try:
                self.look(time.time())
            except Exception as error:  # pylint: disable=broad-exception-caught
                # Whatever is wrong with one look, the next may be right.
                print(f"front: bringing descriptors failed: {error!r}", file=sys.stderr, flush=True)
            time.sleep(LOOKS_EVERY)


def is_behind(there, descriptor):
    """Whether these have not this descriptor, nor a newer one of the relay."""
    found = there.get(descriptor.fingerprint)
    return found is None or found.published < descriptor.published
