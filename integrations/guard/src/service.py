"""The monitor: `mls serve`, as a child of the guard, so that nobody else asks it anything."""
import contextlib
import fcntl
import os
import subprocess
import time

from stop import AGAIN, DIFFERS, IN_USE, Stop

# How long a service whose guard was killed may take to end.
SECONDS = 10
# The replies that have an entry.
REPLIES = ("yes", "created", "no", "undefined")


class Service:
    """`next` is the number of the next entry."""

    def __init__(self, program, journal, start):
        self.program, self.journal, self.start = program, journal, start
        wait_for(journal)
        words = ["serve", "--sessions", "--numbers", "--recover", "--journal", journal, start]
        pipe = subprocess.PIPE
        try:
            # (in a session of its own: a key that interrupts the guard doesn't end it)
            self.run = subprocess.Popen([program, *words], stdin=pipe, stdout=pipe, start_new_session=True)
        except OSError as fault:
            raise Stop(AGAIN, f"{program}: {fault.strerror}") from fault
        self.next = int(self.line().split()[1])

    def line(self):
        line = self.run.stdout.readline()
        if not line.endswith(b"\n"):
            raise self.ended()
        return line.decode("ascii").rstrip("\n")

    def ended(self):
        """Why the guard stops where the service has ended. Its own words are on standard error."""
        with contextlib.suppress(OSError):
            self.run.stdin.close()
        status = self.run.wait()
        return Stop(status if status > 0 else AGAIN, f"the service ended: {status}")

    def ask(self, session, request):
        """The answer to a request, whose entry is on the disk by then."""
        try:
            self.run.stdin.write(f"{session} {request}\n".encode("ascii"))
            self.run.stdin.flush()
        except OSError as fault:
            raise self.ended() from fault
        asked, *words = self.line().split()
        if asked != str(session):
            raise Stop(DIFFERS, f"the service answers {asked}, and {session} asked")
        if words[0] in REPLIES:
            self.next = int(words.pop()) + 1
        return " ".join(words)

    def granted(self, session):
        """The requests of a session that the journal has as granted, in their order, each with its reply."""
        words = [self.program, "journal", "--session", str(session), self.start, self.journal]
        done = subprocess.run(words, stdout=subprocess.PIPE, text=True, check=False)
        # (4 says that there is none)
        if done.returncode not in (0, 4):
            raise Stop(DIFFERS, f"{self.journal}: not to be read")
        entries = [line.split(" ", 3)[3].rpartition(": ") for line in done.stdout.splitlines()]
        return [(request, reply) for request, _, reply in entries if reply.startswith(("yes", "created"))]

    def end(self):
        """Ends it, once it has answered all."""
        self.run.stdin.close()
        if self.run.wait():
            raise self.ended()


def wait_for(journal):
    """Waits until nobody has the journal. No other guard has it, since this one holds the log; but the service of one
    that was killed ends only once it has seen the end of its input."""
    ends = time.monotonic() + SECONDS
    fd = os.open(journal, os.O_RDWR | os.O_CREAT, 0o600)
    try:
        while True:
            try:
                fcntl.flock(fd, fcntl.LOCK_EX | fcntl.LOCK_NB)
                return
            except BlockingIOError as fault:
                if time.monotonic() > ends:
                    raise Stop(IN_USE, f"{journal}: in use") from fault
            time.sleep(0.02)
    finally:
        os.close(fd)
