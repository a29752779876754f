"""The daemon behind the front: what it is asked, and what is brought to it."""
import dataclasses
import http.client
import sys
import time

# How long an answer is waited for, in seconds.
ANSWERS_WITHIN = 30

# How long a post is tried again while nobody answers, as when the daemon is started anew.
AWAY = 20

# How long signatures are brought again that come before the daemon has computed: others compute at the very same
# second, and bring their signatures once. And how long what met a fault of the key service is.
NOT_COMPUTED = FAILED = 3

# How long is waited between two tries.
PAUSE = 0.25


@dataclasses.dataclass(frozen=True)
class Answer:
    """What came back of a request."""

    code: int
    body: bytes


# The answer to a post where the daemon gave none.
GAVE_NONE = Answer(502, b"")


class Daemon:
    """`dirauth serve` at an address."""

    def __init__(self, address):
        self.address = address
        self.is_there = True

    def exchange(self, method, path, body=None):
        """The answer to a request, or None where there is none; a line is told when it goes, and when it comes back."""
        answer = self.answer_to(method, path, body)
        if self.is_there != (answer is not None):
            self.is_there = answer is not None
            told = "answers again" if self.is_there else "does not answer"
            print(f"front: the daemon at {self.address} {told}", file=sys.stderr, flush=True)
        return answer

    def answer_to(self, method, path, body):
        """The answer to a request, or None."""
        connection = http.client.HTTPConnection(self.address, timeout=ANSWERS_WITHIN)
        try:
            connection.request(method, path, body)
            response = connection.getresponse()
            return Answer(response.status, response.read())
        except (OSError, http.client.HTTPException):
            return None
        finally:
            connection.close()

    def get(self, path):
        """The document at a path, or None."""
        answer = self.exchange("GET", path)
        return answer.body if answer is not None and answer.code == 200 else None

    def bring(self, path, body):
        """The answer to a post, which is tried again for as long as it may help."""
        begun = time.monotonic()
        while True:
            answer = self.exchange("POST", path, body)
            if time.monotonic() - begun >= longest_for(answer):
                return answer or GAVE_NONE
            time.sleep(PAUSE)


def longest_for(answer):
    """For how long a post that was answered so is tried again."""
    if answer is None:
        return AWAY
    if answer.code == 503:
        return FAILED
    return NOT_COMPUTED if answer.body == b"not-computed\n" else 0
