"""The filter: any program that reads a message on its standard input. Status 0 says that it may go down; whatever else
comes of it says that it may not."""
import hashlib
import os
import signal
import subprocess

from stop import AGAIN, DIFFERS, Stop


class Filter:
    """`box` are words that stand before the program: what shuts it in."""

    def __init__(self, program, box, seconds):
        self.program, self.box, self.seconds = os.path.abspath(program), box, seconds

    def verdict(self, message):
        """The verdict on an open file and what it came of, with the digest of the program."""
        try:
            with open(self.program, "rb") as file:
                digest = digest_of(file.read())
            run = self.begun(message)
        except FileNotFoundError as fault:
            raise Stop(DIFFERS, f"{fault.filename}: is gone") from fault
        except OSError as fault:
            raise Stop(AGAIN, f"{fault.filename}: {fault.strerror}") from fault
        try:
            status = run.wait(self.seconds)
        except subprocess.TimeoutExpired:
            os.killpg(run.pid, signal.SIGKILL)
            run.wait()
            return False, "timeout", digest
        return status == 0, f"status-{status}" if status >= 0 else f"signal-{-status}", digest

    def begun(self, message):
        none = subprocess.DEVNULL
        return subprocess.Popen([*self.box, self.program], stdin=message, stdout=none, stderr=none, cwd="/",
                                env={"PATH": "/usr/bin:/bin"}, start_new_session=True)


def digest_of(content):
    return hashlib.sha256(content).hexdigest()
