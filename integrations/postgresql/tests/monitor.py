"""The monitor of the checks: mlsd with mls behind it, over a start with a container for each pair of labels."""
import glob
import os
import re
import shutil
import signal
import socket
import subprocess
import time

from server import HERE, SECONDS, SOURCE, database_user

TOP = os.path.dirname(os.path.dirname(SOURCE))
MLS = os.environ.get("MLS_PROGRAM") or subprocess.run(
    [f"{TOP}/bin/built", "file", "proved", "trial"], stdout=subprocess.PIPE, text=True, check=False).stdout.strip()
MLSD = f"{TOP}/mlsd/out/mlsd"


def missing():
    """What of the monitor isn't there, or None."""
    if not os.access(MLS, os.X_OK):
        return "mls (bin/prove builds it)"
    if not shutil.which("rustc"):
        return "rustc"
    newest = max((os.stat(source).st_mtime for source in glob.glob(f"{TOP}/mlsd/src/*.rs")), default=None)
    if newest is None:
        return "mlsd's source"
    if not os.path.exists(MLSD) or os.stat(MLSD).st_mtime < newest:
        subprocess.run([f"{TOP}/bin/build-mlsd", MLSD], check=True, stdin=subprocess.DEVNULL)
    return None


class Monitor:
    """mlsd over a journal in a folder."""

    def __init__(self, folder, name="journal", start=None, users=None, flags=()):
        self.folder, self.journal, self.start_file = folder, f"{folder}/{name}", start or f"{folder}/start.json"
        self.socket, self.users, self.flags, self.process = f"{folder}/mlsd.sock", f"{folder}/users", flags, None
        who = {database_user().pw_uid, os.getuid()}
        self.rules = users or "".join(f"{uid} = * rate=0 clients=400\n" for uid in sorted(who))
        self.allow(self.rules)

    def write_start(self):
        """The start with the containers of the office."""
        with open(self.start_file, "wb") as file:
            subprocess.run([f"{SOURCE}/containers", f"{HERE}/office.json"], stdout=file, check=True)

    def allow(self, users):
        with open(self.users, "w", encoding="utf-8") as file:
            file.write(users)
        os.chmod(self.users, 0o644)

    def start(self):
        words = [MLSD, "--socket", self.socket, "--users", self.users, "--release-on-close", *self.flags, "--"]
        words += [MLS, "serve", "--sessions", "--names", "--recover", "--journal", self.journal, self.start_file]
        with open(f"{self.folder}/mlsd.log", "ab") as log:
            self.process = subprocess.Popen(words, stdin=subprocess.DEVNULL, stdout=log, stderr=log,
                                            env={**os.environ, "MLS_PROGRAM": MLS})
        end = time.monotonic() + SECONDS
        while not self.is_there():
            assert self.process.poll() is None, f"mlsd ended: {open(log.name, encoding='utf-8').read()}"
            assert time.monotonic() < end, "mlsd has no socket"
            time.sleep(0.01)

    def is_there(self):
        with socket.socket(socket.AF_UNIX) as probe:
            try:
                probe.connect(self.socket)
            except OSError:
                return False
            return True

    def core(self):
        """The process of mls serve."""
        with open(f"/proc/{self.process.pid}/task/{self.process.pid}/children", encoding="ascii") as file:
            return int(file.read().split()[0])

    def kill_core(self):
        os.kill(self.core(), signal.SIGKILL)
        self.process.wait(timeout=SECONDS)

    def kill(self):
        core = self.core()
        self.process.kill()
        self.process.wait(timeout=SECONDS)
        while os.path.exists(f"/proc/{core}"):  # it ends with its input, and with it the lock on the journal
            time.sleep(0.01)

    def stop(self):
        if self.process and self.process.poll() is None:
            self.process.terminate()
            self.process.wait(timeout=SECONDS)

    def entries(self):
        """The journal so far: for each entry its number, its session, and the rest, with names."""
        words = [MLS, "journal", self.start_file, self.journal]
        text = subprocess.run(words, capture_output=True, text=True, check=True).stdout
        return text.splitlines()

    def accesses(self):
        """What is held, but for what the start gives."""
        words = [MLS, "state", self.start_file, self.journal]
        text = subprocess.run(words, capture_output=True, text=True, check=True).stdout
        return [line for line in text.splitlines() if line.startswith("access ")]

    def ask(self, lines):
        """Asks as a client of mlsd, and returns its answers."""
        with socket.socket(socket.AF_UNIX) as client:
            client.connect(self.socket)
            client.sendall(lines.encode())
            client.shutdown(socket.SHUT_WR)
            return client.makefile().read().splitlines()[1:]

    def open_sessions(self):
        """The numbers of the sessions that are open, as the sessions file has them since mlsd started."""
        found = set()
        with open(f"{self.journal}.sessions", encoding="ascii") as file:
            for session, what, *_ in (line.split() for line in file if line.endswith("\n")):
                if (session, what) == ("0", "started"):
                    found.clear()
                if what == "opened":
                    found.add(int(session))
                if what == "closed":
                    found.discard(int(session))
        return found

    def settle(self):
        """Waits until no client is connected, and what is released for them is in the journal: nobody is told of a
        release at the end of a transaction, or of a session."""
        end = time.monotonic() + SECONDS
        while left := self.open_sessions():
            assert time.monotonic() < end, f"sessions {left} stay open"
            time.sleep(0.01)
        # (the core answers in order, so that all that was asked before is answered)
        assert self.ask("probe\n") == ["yes"]

    def count(self):
        with open(self.journal, "rb") as file:
            return file.read().count(b"\n")

    def notes(self):
        """Of each note of the sessions file: the session, the number of the next entry, and the text."""
        with open(f"{self.journal}.sessions", encoding="ascii") as file:
            found = [re.match(r"(\d+) note \S+ entry (\d+) (.*)", line) for line in file]
        return [(int(note[1]), int(note[2]), note[3]) for note in found if note]
