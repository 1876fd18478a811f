"""What all checks share: the cluster that is begun, what was asked in it, and a bare exchange with a machine."""
import socket

import oracle
from cluster import Cluster
from load import Load


class World(Cluster):
    """A cluster with all that clients were answered in it."""

    def __init__(self, **how):
        super().__init__(**how)
        self.deeds, self.loads = [], 0

    def load(self, clients=6, **how):
        """Clients that ask, in a `with`; what they were answered is judged later."""
        self.loads += 1
        found = Load(self, clients, seed=self.loads, **{"pause": 0.02, **how})
        found.deeds = self.deeds
        return found

    def are_same(self):
        """All machines are at one place, and have the same journal."""
        self.rests()
        oracle.same_journals(self)

    def is_right(self):
        """All that was answered, and all journals, are as the log says."""
        return oracle.check(self, self.deeds)


def exchange(path, *lines):
    """Writes lines to a machine, one after the other, and returns the answers. {0} is the session's number."""
    found, session = [], ""
    with socket.socket(socket.AF_UNIX) as sock:
        sock.settimeout(60)
        sock.connect(path)
        text = sock.makefile()
        for line in lines:
            sock.sendall(line.format(session).encode() + b"\n")
            found.append(text.readline().rstrip("\n"))
            session = session or found[0].split()[-1]
    return found
