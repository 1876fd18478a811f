"""How a replica ends: at once, with a line that says why and a status that says whether it may be started again."""
import os
import sys
import time

# As of `mls serve` and mlsd: 1, 4 and a signal may be started again; the others need somebody's look first.
FILES, WORDS, REFUSED, CORE_DIED, DISK = 1, 2, 3, 4, 5


def tell(text):
    print(f"mls-replica: {text}", file=sys.stderr, flush=True)


def stop(status, why):
    """Ends the process. Nobody is answered after this, and the core ends with its input."""
    tell(why)
    os._exit(status)


class WentBack(Exception):
    """The log isn't what it was: it lacks what this machine has fed, so that no machine may go on with it."""


class Complaints:
    """Tells of a fault that comes again and again once a second at most."""

    def __init__(self):
        self.told = 0.0

    def tell(self, text):
        if time.monotonic() - self.told > 1:
            self.told = time.monotonic()
            tell(text)
