"""Runs the guard, and lets it die at one of its calls on files, or before one of its requests.

    crashing.py PLACE kill | lose | kill-late | lose-late WORD ..

PLACE is the number of the call or request, or a text that is in the request or in what is written. With `kill` it dies
as by kill -9: what was done is there. With `lose` the machine dies: what was done and not synced is undone, names and
bytes. With `-late` a file of somebody else appears in the low folder under a message's name, just before that gets it.
Either way the service, which has synced what it answered, ends with its input. A request that is asked while
something isn't synced is a fault of its own: status 99. Where there is no such place the guard ends as it would, and
says how many calls there were.
"""
import os
import runpy
import signal
import stat
import sys

sys.dont_write_bytecode = True
GUARD = f"{os.path.dirname(os.path.dirname(os.path.realpath(__file__)))}/guard"
PLACE, MODE, LATE = sys.argv[1], *(sys.argv[2].split("-") + [""])[:2]
REAL = {name: getattr(os, name) for name in ("open", "write", "rename", "unlink", "fsync", "mkdir", "ftruncate")}
# Of what isn't synced: what has to be synced for it, and how it is undone.
PENDING = []
COUNT = 0


def place(name, folder):
    return name if folder is None else f"{os.readlink(f'/proc/self/fd/{folder}')}/{name}"


def call(text=""):
    """Counts a call, and dies before the one that is due."""
    global COUNT
    COUNT += 1
    if str(COUNT) != PLACE and (PLACE.isdigit() or PLACE not in text):
        return
    if MODE == "lose":
        for _, undo in reversed(PENDING):
            undo()
    os.kill(os.getpid(), signal.SIGKILL)


def pend(paths, undo):
    PENDING.append(({os.path.realpath(path) for path in paths}, undo))


def opened(path, flags, mode=0o777, *, dir_fd=None):
    if not flags & os.O_CREAT:
        return REAL["open"](path, flags, mode, dir_fd=dir_fd)
    whole = place(path, dir_fd)
    is_new = not os.path.lexists(whole)
    call()
    fd = REAL["open"](path, flags, mode, dir_fd=dir_fd)
    # (the journal is the service's, which syncs its folder)
    if is_new and not whole.endswith("/journal"):
        pend([os.path.dirname(whole)], lambda: REAL["unlink"](whole))
    return fd


def write(fd, data):
    if not stat.S_ISREG(os.fstat(fd).st_mode):
        return REAL["write"](fd, data)
    call(data[:1000].decode("latin-1"))
    path, length = os.readlink(f"/proc/self/fd/{fd}"), os.fstat(fd).st_size

    def undo():
        """A part of the bytes is missing, and a part is zeros."""
        if os.path.exists(path):
            os.chmod(path, 0o600)
            os.truncate(path, length)
            os.truncate(path, length + len(data) // 2)

    pend([path], undo)
    return REAL["write"](fd, data)


def rename(old, new, *, src_dir_fd=None, dst_dir_fd=None):
    call()
    before, after = place(old, src_dir_fd), place(new, dst_dir_fd)
    appears(after)
    REAL["rename"](old, new, src_dir_fd=src_dir_fd, dst_dir_fd=dst_dir_fd)
    pend([os.path.dirname(before), os.path.dirname(after)], lambda: REAL["rename"](after, before))


def renamed_new(old, new, fd):
    call()
    before, after = place(old, fd), place(new, fd)
    appears(after)
    rename_new(old, new, fd)
    pend([os.path.dirname(after)], lambda: REAL["rename"](after, before))


def appears(path):
    """Somebody else lays a file where a message is to come."""
    if LATE and os.path.basename(path).isdigit() and "/low" in path and not os.path.lexists(path):
        with open(path, "wb") as file:
            file.write(b"mine")


def unlink(path, *, dir_fd=None):
    whole = place(path, dir_fd)
    if not os.path.lexists(whole):
        return REAL["unlink"](path, dir_fd=dir_fd)
    call()
    # (what was unlinked and may come back is kept where nothing looks)
    grave = f"{os.path.dirname(os.path.dirname(whole))}/.grave-{os.getpid()}-{COUNT}"
    os.link(whole, grave, follow_symlinks=False)
    # (its bytes need no sync any more)
    PENDING[:] = [item for item in PENDING if os.path.realpath(whole) not in item[0]]
    REAL["unlink"](path, dir_fd=dir_fd)
    pend([os.path.dirname(whole)], lambda: REAL["rename"](grave, whole))


def mkdir(path, mode=0o777, *, dir_fd=None):
    call()
    REAL["mkdir"](path, mode, dir_fd=dir_fd)
    whole = place(path, dir_fd)
    pend([os.path.dirname(whole)], lambda: os.rmdir(whole))


def ftruncate(fd, length):
    if os.fstat(fd).st_size != length:
        call()
    REAL["ftruncate"](fd, length)


def fsync(fd):
    call()
    REAL["fsync"](fd)
    path = os.path.realpath(f"/proc/self/fd/{fd}")
    for item in [*PENDING]:
        item[0].discard(path)
        if not item[0]:
            PENDING.remove(item)


def asked(ask):
    def wrapped(self, session, request):
        call(request)
        if PENDING:
            print(f"{request}: before it wasn't synced: {[sorted(paths) for paths, _ in PENDING]}", file=sys.stderr)
            sys.stderr.flush()
            os._exit(99)
        return ask(self, session, request)
    return wrapped


for NAME, CALL in (("open", opened), ("write", write), ("rename", rename), ("unlink", unlink), ("fsync", fsync),
                   ("mkdir", mkdir), ("ftruncate", ftruncate)):
    setattr(os, NAME, CALL)
sys.path.insert(0, f"{os.path.dirname(GUARD)}/src")
import folder
import service

rename_new, folder.rename_new = folder.rename_new, renamed_new
service.Service.ask = asked(service.Service.ask)
sys.argv = [GUARD, *sys.argv[3:]]
try:
    runpy.run_path(GUARD, run_name="__main__")
finally:
    print(f"calls {COUNT}", file=sys.stderr)
