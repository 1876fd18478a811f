"""A client of mls-replica: one file, without dependencies, for Python 3.9 and later.

    with Session(["/run/mls-replica/socket"], "web1") as mls:
        if mls.ask("ann get-read plans").startswith("yes"):
            ...

Each line is asked once, however often it must be sent: where a machine fails, the session goes on at the next of its
sockets, if they are several, or waits until its own is back. An answer is as README.md has it. No call of one session
may overlap with another.
"""
import secrets
import socket
import time

# Seconds for which a machine may owe an answer, and between two tries.
PATIENCE, PAUSE = 2.0, 0.1


class Forgotten(Exception):
    """The log no longer knows the session: what was asked last may have been done or not."""


class Session:
    """A session of the log."""

    def __init__(self, sockets, who="client", patience=PATIENCE):
        self.sockets, self.patience = list(sockets), patience
        self.name = f"{who}.{secrets.token_hex(8)}"
        self.number, self.seq, self._socket, self._input = None, 0, None, None

    def __enter__(self):
        return self

    def __exit__(self, *_):
        self.close()

    def close(self):
        if self._socket:
            self._socket.close()
        self._socket = None

    def _connect(self):
        self._socket = socket.socket(socket.AF_UNIX, socket.SOCK_STREAM)
        self._socket.settimeout(self.patience)
        self._socket.connect(self.sockets[0])
        self._input = self._socket.makefile("rb")
        number = self._exchanged(f"hello {self.name}", f"hello {self.name}")
        if self.number not in (None, number) or not number.isdigit():
            raise Forgotten(f"session {self.number} is {number} now")
        self.number = number

    def _exchanged(self, line, front):
        """Sends a line, and returns what stands behind its front in the answer."""
        self._socket.sendall(line.encode() + b"\n")
        for answer in self._input:
            if answer.startswith(front.encode() + b" ") and answer.endswith(b"\n"):
                return answer[len(front) + 1 : -1].decode()
        raise ConnectionError("the replica has ended")

    def _asked(self, tag, sign, line):
        """Asks at one machine after another until there is an answer."""
        if "\n" in line:
            raise ValueError(f"no line: {line!r}")
        while True:
            try:
                if not self._socket:
                    self._connect()
                front = f"{self.number} {tag}"
                answer = self._exchanged(f"{front} {sign}{line}", front + (" ?" if sign else ""))
                if answer == "forgotten":
                    raise Forgotten(f"session {self.number}")
                return answer
            except OSError:
                self.close()
                self.sockets.append(self.sockets.pop(0))
                time.sleep(PAUSE)

    def ask(self, line):
        """Asks a line, once, and returns its answer, which ends with the number of its entry, where it has one."""
        self.seq += 1
        return self._asked(self.seq, "", line.strip(" "))

    def would(self, line):
        """What a line would be answered, after all that was answered anywhere before this call; behind that how many
        entries there were."""
        return self._asked(0, "? ", line)

    def would_about(self, line):
        """The same by what this machine has, which is at most two seconds old; `stale` where it can't tell."""
        return self._asked(0, "~ ", line)
