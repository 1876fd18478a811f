"""A store with threads that loses no answer, as examples/store.c: threads ask, and one writes the journal and syncs it,
for all that asked meanwhile at once, and then forgets it, so that memory doesn't grow. A thread acts on an answer once
its entry is synced: here it prints its line.

    MLS_LIBRARY=FOLDER/lib/libmls.so PYTHONPATH=python python3 examples/store.py START JOURNAL

It goes on with JOURNAL, its own file or none yet (of another file it may cut off the end), until it is killed. After
status 5, a failed write or sync, start nothing over that file until its file system was unmounted and mounted again.
"""
import fcntl
import itertools
import os
import sys
import threading
import traceback

import mls

# The writer syncs at most so many bytes at once: a crash takes no more.
THREADS, ROOM, MODES = 4, 1 << 16, ("execute", "read", "append", "write")


class Store:
    def __init__(self, start, path):
        self.file = open(path, "a+b", buffering=0, opener=lambda *how: os.open(*how, 0o600))
        fcntl.flock(self.file, fcntl.LOCK_EX | fcntl.LOCK_NB)
        for each in (os.open(os.path.dirname(os.path.abspath(path)), os.O_RDONLY), self.file):
            os.fsync(each)  # what a killed process wrote may not be synced yet
        self.file.seek(0)
        text = self.file.read()
        kept = whole(text)
        monitor = mls.Monitor.resume(start, text[:kept])
        if kept < len(text):
            os.ftruncate(self.file.fileno(), kept)
            os.fsync(self.file)
        self.asked = self.synced = monitor.entry_count  # the writer begins there
        self.office = mls.Office(monitor, THREADS + 1)  # this closes the monitor
        self.lock = threading.Lock()
        self.more, self.grown = threading.Condition(self.lock), threading.Condition(self.lock)

    def write_entries(self):
        """Sleeps until a thread waits for an entry, then writes and syncs what all sessions added, and forgets it."""
        session = self.office.sessions[THREADS]
        while True:
            with self.more:
                self.more.wait_for(lambda: self.asked > self.synced)
            lines, after = session.lines(self.synced, ROOM)
            if self.file.write(lines) != len(lines):
                raise OSError("a short write")
            os.fsync(self.file)
            with self.lock:
                self.synced = after
                self.grown.notify_all()
            session.forget(after)

    def wait_synced(self, entries):
        """Waits until so many entries are on the disk."""
        with self.lock:
            if self.asked < entries:
                self.asked = entries
                self.more.notify()
            self.grown.wait_for(lambda: self.synced >= entries)

    def ask_all(self, session):
        """Each session asks for one subject, and acts on no answer before it is synced."""
        for mode, object in itertools.cycle(itertools.product(MODES, range(4))):
            for ask, asked in ((session.get, f"get-{mode}"), (session.release, f"release {mode}")):
                answer = ask(session.number, mode, object)
                self.wait_synced(answer.number + 1)
                os.write(1, f"{answer.number} {session.number} {session.number} {asked} {object} {answer}\n".encode())


def whole(text):
    """How much of a journal was synced whole. A crash may leave a last line without its end, and zeros in place of
    bytes that weren't synced, with whole lines behind them. Nobody acted on any of these lines."""
    front = max(len(text) - ROOM, 0)
    zero = text.find(0, front)
    return max(text.rfind(b"\n", front, len(text) if zero < 0 else zero) + 1, front)


def guarded(work, *arguments):
    """A thread that fails ends the program: the others would wait for it."""
    try:
        work(*arguments)
    except BaseException as fault:
        traceback.print_exc()
        os._exit(5 if isinstance(fault, OSError) else 1)


if __name__ == "__main__":
    try:
        with open(sys.argv[1], "rb") as start_file:
            store = Store(start_file.read(), sys.argv[2])
    except (mls.Error, OSError) as fault:
        sys.exit(f"store: {fault}")
    for each in store.office.sessions[:THREADS]:
        threading.Thread(target=guarded, args=(store.ask_all, each)).start()
    guarded(store.write_entries)
