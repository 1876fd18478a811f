"""Open descriptors and mappings: that change hands, that a level or a label changes under, that only name a file."""
import fcntl
import os

from rows_names import laid
from world import same


def test_a_level_that_changes_under_a_descriptor(world):
    """What is open to write keeps the level; what was read keeps it from falling, to the session's end."""
    _, low, _ = laid(world)
    ann = world.session("games")
    fd = ann.open("f", os.O_RDONLY)
    same([(ann, "put", ".mls", b"secret\n", "put"), (ann, "read", fd, 9, b"public"),
          (ann, "put", ".mls", b"public\n", "put"), (ann, "put", "g", b"x", "put")])
    written = ann.open("g", os.O_RDWR)
    same([(ann, "put", ".mls", b"secret\n", "EACCES"), (ann, "write", written, b"y", 1),
          (ann, "map", written, True, written), (ann, "close", written, None),
          (ann, "put", ".mls", b"secret\n", "EACCES"), (ann, "unmap", written, written),
          (ann, "put", ".mls", b"secret\n", "put"), (ann, "get", "s/y", b"attack at dawn"),
          (ann, "put", ".mls", b"public\n", "EACCES"), (ann, "put", "g", b"leak", "EACCES"), (low, "get", "g", b"y")])


def test_a_label_that_changes_under_a_descriptor(world):
    """Each read and write of a descriptor is decided for the label that the file has then."""
    high, low, _ = laid(world)
    ann = world.session("man")
    reading, writing, mapped = low.open("f", os.O_RDONLY), low.open("f", os.O_RDWR), low.open("f", os.O_RDWR)
    same([(low, "map", mapped, mapped), (low, "touch", mapped, b"p"),
          (low, "setxattr", "f", "user.mls", b"secret_any", None), (high, "put", "f", b"SECRET", "put"),
          (low, "pread", reading, 9, 0, "EACCES"), (low, "touch", mapped, b"p"),
          (low, "pwrite", writing, b"x", 0, "EACCES"), (low, "fstat", reading, "EACCES"),
          (low, "ftruncate", writing, 0, "EACCES"), (low, "touch", mapped, "killed"), (ann, "get", "f", "ENOENT"),
          (high, "get", "f", b"SECRET")])


def test_what_is_written_to_memory(world):
    """A mapped page that is written goes to its place in the file, also by a descriptor that appends, or nowhere."""
    high, low, _ = laid(world)
    fd = low.open("f", os.O_RDWR | os.O_APPEND)
    same([(low, "map", fd, True, fd), (low, "store", fd, b"P", "stored"), (high, "get", "f", b"Public"),
          (low, "write", fd, b"!", 1), (high, "get", "f", b"Public!"),
          (low, "store", fd, b"p", "stored"),
          (low, "setxattr", "f", "user.mls", b"secret_any", None), (low, "store", fd, b"x", "killed"),
          (high, "get", "f", b"public!")])


def test_descriptors_that_only_name(world):
    """O_PATH: what it names is hidden once its label has risen, also by /proc/self/fd."""
    high, low, _ = laid(world)
    fd, folder = low.open("f", os.O_PATH), low.open(".", os.O_PATH)
    same([(low, "setxattr", "f", "user.mls", b"secret_any", None), (low, "fstat", fd, "EACCES"),
          (low, "open", f"/proc/self/fd/{fd}", os.O_RDONLY, "EACCES"),
          (low, "stat", f"/proc/self/fd/{folder}/s", "ENOENT"),
          (low, "getxattr", f"/proc/self/fd/{fd}", "user.mls", "EACCES")])


def test_descriptors_that_change_hands(world):
    """By SCM_RIGHTS and by /proc/PID/fd: a descriptor is of its session, and no other reads, writes or maps by it."""
    high, low, sys = laid(world)
    os.makedirs(f"{world.folder}/hands", exist_ok=True)
    os.chmod(f"{world.folder}/hands", 0o777)
    place = f"{world.folder}/hands/socket"
    same([(low, "listen", place, "listens")])
    secret, public = high.open("s/y", os.O_RDONLY), high.open("f", os.O_RDONLY)
    for fd in (secret, public):
        same([(high, "send", place, fd, "sent")])
        got = low.fetched()
        same([(low, "pread", got, 9, 0, "EACCES"), (low, "fstat", got, "EACCES"), (low, "map", got, got),
              (low, "touch", got, "killed"), (low, "stat", f"/proc/self/fd/{got}", "EACCES")])
    mate = world.session("games")
    pid = high.getpid()
    same([(mate, "open", f"/proc/{pid}/fd/{secret}", os.O_RDONLY, "EACCES"),
          (mate, "open", f"/proc/{pid}/root{world.mount}/s/y", os.O_RDONLY, "EACCES"),
          (mate, "listdir", f"/proc/{pid}/cwd", "EACCES"), (mate, "listed", ["d", "f"])])


def test_what_is_told_of_opens(world):
    """inotify and leases of one session see nothing of another's opens and reads."""
    high, low, sys = laid(world)
    fd, own = low.open("f", os.O_RDONLY), low.open("d/x", os.O_RDONLY)
    leased = low.lease(fd)
    same([(low, "watch", "f", "watches"), (low, "events_seen", 0), (high, "get", "f", b"public"),
          (low, "events_seen", 0)])
    assert leased in (0, "EINVAL", "EAGAIN"), leased
    # (a lease of the same mount's would break where the trusted session opens the file to write)
    same([(low, "lease", own, 0), (sys, "chmod", "d/x", 0o666, "EPERM"), (low, "chmod", "d/x", 0o666, None),
          (sys, "put", "d/x", b"more", "put"), (low, "leased", own, fcntl.F_RDLCK), (low, "get", "f", b"public")])
    assert low.events_seen() > 0


def test_who_has_no_session(world):
    """A process without the mount's audit session is denied all, root's too."""
    high, _, _ = laid(world)
    try:
        os.listdir(f"/proc/{high.getpid()}/root{world.mount}")
        raise AssertionError("root listed it")
    except PermissionError:
        pass
