"""Tries whether `dirauth make-vote` makes a vote of a station input, and leaves out the descriptors that it refuses."""
import re
import subprocess

# The statuses of a key service that could not be asked, or did not answer as it must.
KEY_SERVICE_FAILS = (8, 10)

# The status of a descriptor that is refused, and the line.
REFUSED, REFUSAL = 6, re.compile(r"descriptor ([0-9]+) refused: (\S+)")

# How many descriptors are tried at once where one of all is refused.
AT_ONCE = 64

END = b"\nend-station\n"


def split(text):
    """A station input up to its end, and the descriptors behind it."""
    front, end, behind = text.partition(END)
    if not end or not re.search(rb"(?m)^station 1$", front):
        raise ValueError("it is no station input")
    return front + end, behind


def join(station, descriptors):
    """A station input with descriptors behind it."""
    return station + b"".join(descriptors)


class NoProgram(Exception):
    """There is no program that makes votes."""


class Trial:
    """Votes that are made and thrown away. `status` and `told` are what the last one came to."""

    def __init__(self, dirauth, words, tell):
        self.command = [dirauth, "make-vote", *words]
        self.tell = tell
        self.status, self.told = 0, ""

    def vote(self, text):
        """Makes a vote of an input, and says whether it could be made."""
        try:
            ran = subprocess.run(self.command, input=text, stdout=subprocess.DEVNULL, stderr=subprocess.PIPE, check=False)
        except OSError as error:
            raise NoProgram(f"{self.command[0]}: {error.strerror}") from None
        self.status = ran.returncode
        told = ran.stderr.decode("utf-8", "replace").strip()
        self.told = told or f"{self.command[0]} ends with status {ran.returncode}"
        return self.status == 0

    def acceptable(self, station, descriptors):
        """These descriptors without those that are refused, or None where no vote can be made without them either."""
        if self.vote(join(station, descriptors)):
            return descriptors
        if self.status != REFUSED:
            return None
        kept = []
        for begin in range(0, len(descriptors), AT_ONCE):
            few = self.without_refused(station, descriptors[begin : begin + AT_ONCE])
            if few is None:
                return None
            kept += few
        return kept if self.vote(join(station, kept)) else None

    def without_refused(self, station, descriptors):
        """These descriptors without those that are refused, each of which is told; None where that is not what is amiss."""
        kept = list(descriptors)
        while not self.vote(join(station, kept)):
            found = REFUSAL.search(self.told)
            if self.status != REFUSED or found is None or not 0 < int(found[1]) <= len(kept):
                return None
            refused = kept.pop(int(found[1]) - 1)
            self.tell(f"the descriptor of {name_of(refused)} is refused ({found[2]}): left out")
        return kept


def name_of(descriptor):
    """The nickname and the address of a relay, by its descriptor."""
    words = descriptor.partition(b"\n")[0].decode("ascii", "replace").split(" ")
    return " ".join(words[1:3])
