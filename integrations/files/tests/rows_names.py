"""What a session at public sees and does of files at secret, and the other way round: by names, links, attributes."""
import os
import stat

from world import same

# Calls that name a hidden file, or a name that isn't there: each must answer both alike.
CALLS = [("stat",), ("lstat",), ("get",), ("readlink",), ("listdir",), ("unlink",), ("rmdir",), ("chmod", 0o600),
         ("truncate", 0), ("listxattr",), ("getxattr", "user.mls"), ("setxattr", "user.x", b"y"), ("utime",),
         ("removexattr", "user.x"), ("open", os.O_WRONLY), ("open", os.O_PATH),
         ("rename", "other"), ("link", "other"), ("chdir",)]


def laid(world):
    """A public file and folder, a secret file and folder beside them, and a file in each folder."""
    high, low, sys = world.three()
    same([(low, "put", "f", b"public", "put"), (low, "mkdir", "d", 0o777, None), (low, "mkdir", "s", 0o777, None),
          (low, "put", "d/x", b"low", "put"), (low, "put", "h", b"old", "put"), (low, "chmod", "h", 0o666, None),
          (low, "setxattr", "s", "user.mls", b"secret_any", None),
          (low, "setxattr", "h", "user.mls", b"secret_any", None), (high, "put", "s/y", b"attack at dawn", "put"),
          (high, "put", "h", b"attack", "put")])
    return high, low, sys


def test_labels_levels_and_the_three_sessions(world):
    """Each reads what its level dominates, and writes at its level; the trusted one everywhere."""
    high, low, sys = laid(world)
    same([(high, "listed", ["d", "f", "h", "s"]), (low, "listed", ["d", "f"]), (sys, "listed", ["d", "f", "h", "s"]),
          (high, "get", "f", b"public"), (high, "get", "s/y", b"attack at dawn"), (low, "get", "s/y", "ENOENT"),
          (low, "get", "h", "ENOENT"), (sys, "get", "h", b"attack"),
          (high, "put", "f", b"x", "EACCES"), (high, "put", "new", b"x", "EACCES"),
          (high, "put", "d/new", b"x", "EACCES"), (high, "mkdir", "d/k", "EACCES"),
          (high, "symlink", "attack", "d/k", "EACCES"), (high, "unlink", "f", "EACCES"),
          (high, "truncate", "f", 0, "EACCES"),
          (high, "setxattr", "f", "user.x", b"y", "EACCES"), (high, "rename", "d/x", "d/z", "EACCES"),
          (high, "rename", "s/y", "d/y", "EACCES"), (high, "link", "s/y", "d/y", "EACCES"),
          (high, "getxattr", "s/y", "user.mls", b"secret_any"), (high, "getxattr", "f", "user.mls", b"public_any"),
          (low, "get", "f", b"public"), (low, "put", "f", b"again", "put"), (high, "get", "f", b"again"),
          (high, "get", ".mls", b"games secret\n"), (low, "put", ".mls", b"secret\n", "EACCES"),
          (low, "put", ".mls", b"nothing\n", "EINVAL"), (high, "put", ".mls", b"public\n", "EACCES")])
    # (its own file, which Unix lets it change)
    ann = world.session("games")
    same([(ann, "put", "own", b"x", "put"), (ann, "chmod", "own", 0o640, None),
          (ann, "put", ".mls", b"secret\n", "put"), (ann, "get", "own", b"x"),
          (ann, "chmod", "own", 0o600, "EACCES"), (ann, "utime", "own", (1, 2), "EACCES"),
          (ann, "setxattr", "own", "user.mls", b"secret_any", "EACCES")])


def test_hidden_names_are_names_that_are_not_there(world):
    """Over each call a hidden name answers as one that isn't there."""
    high, low, _ = laid(world)
    for name, *more in CALLS:
        for hidden in ("h", "s"):
            found = [getattr(low, name)(it, *more) for it in (hidden, "none")]
            assert found == ["ENOENT", "ENOENT"], f"{name} {hidden}: {found}"
    same([(low, "mkdir", "h", "EEXIST"), (low, "put", "h", b"x", "EACCES"), (low, "symlink", "x", "h", "EEXIST"),
          (low, "rename", "f", "h", "EACCES"), (low, "link", "f", "h", "EEXIST"), (low, "rename", "d", "s", "EACCES"),
          (high, "get", "h", b"attack"), (low, "get", "f", b"public"), (low, "rmdir", "s", "ENOENT")])


def test_links_and_renames(world):
    """Neither a hard link, a symbolic one nor a rename takes a file to where its label doesn't fit."""
    high, low, sys = laid(world)
    same([(low, "symlink", "s/y", "to", None), (low, "get", "to", "ENOENT"), (high, "get", "to", b"attack at dawn"),
          (low, "readlink", "to", "s/y"), (low, "symlink", "/proc/self/cwd/h", "about", None),
          (low, "get", "about", "ENOENT"), (low, "link", "f", "d/f", None), (low, "get", "d/f", b"public"),
          (low, "setxattr", ".", "user.mls", b"secret_any", "EACCES"), (low, "unlink", "d/f", None),
          (high, "link", "f", "s/f", "EACCES"), (high, "rename", "f", "s/f", "EACCES"),
          (sys, "rename", "f", "s/f", "EACCES"), (sys, "rename", "h", "s/h", None), (sys, "rename", "s/y", "d/y", None),
          (low, "listed", "d", ["x"]), (high, "listed", "d", ["x", "y"]), (low, "get", "d/y", "ENOENT")])


def test_relabelling(world):
    """Up by who may write, down by a trusted session alone, where compatibility lets it; never a name nobody has."""
    high, low, sys = laid(world)
    same([(low, "setxattr", "f", "user.mls", b"secret_any", None), (low, "get", "f", "ENOENT"),
          (high, "get", "f", b"public"), (high, "setxattr", "f", "user.mls", b"public_any", "EACCES"),
          (high, "setxattr", "s/y", "user.mls", b"public_any", "EACCES"),
          (sys, "setxattr", "s/y", "user.mls", b"public_any", "EACCES"),
          (sys, "setxattr", "f", "user.mls", b"public_any", None), (low, "get", "f", b"public"),
          (sys, "setxattr", "s", "user.mls", b"public_any", "ENOTEMPTY"),
          (low, "setxattr", "d/x", "user.mls", b"top_any", "EACCES"),
          (low, "setxattr", "d/x", "user.mls", b"", "EINVAL"), (low, "setxattr", "d/x", "user.mls", b"../x", "EACCES"),
          (low, "setxattr", "d/x", "user.mls", b"public_any", None),
          (low, "setxattr", ".", "user.mls", b"secret_any", "EACCES"), (low, "removexattr", "d/x", "user.mls", "EPERM"),
          (low, "setxattr", "d/x", "trusted.mls", b"secret_any", "EPERM")])


def test_sizes_times_and_numbers(world):
    """What one reads above leaves no time, number or room below; inode numbers don't count."""
    high, low, _ = laid(world)
    before, room = low.fields("f"), low.room()
    same([(high, "get", "f", b"public"), (high, "listed", "d", ["x"]), (high, "put", "s/big", b"x" * 60000, "put")])
    for name in ("n1", "n2", "n3"):
        same([(low, "put", name, b"", "put"), (high, "put", f"s/{name}", b"", "put")])
    numbers = [low.fields(name)[0] for name in ("n1", "n2", "n3")]
    assert low.fields("f") == before and low.room() == room and high.room() == room
    assert min(abs(a - b) for a in numbers for b in numbers if a != b) > 1000, numbers
    assert before[2] == before[3], "atime shows mtime"


def test_kinds_that_are_refused(world):
    """Pipes, sockets, devices, access control lists, and attributes that are the system's."""
    high, low, _ = laid(world)
    acl = b"\x02\0\0\0\x01\0\x06\0\xff\xff\xff\xff\x04\0\x04\0\xff\xff\xff\xff\x20\0\x04\0\xff\xff\xff\xff"
    same([(low, "mkfifo", "p", "EPERM"), (low, "mknod", "p", 0o600 | stat.S_IFIFO, "EPERM"),
          (low, "listen", "sock", "EPERM"), (low, "mknod", "p", 0o600 | stat.S_IFREG, None),
          (low, "setxattr", "f", "system.posix_acl_access", acl, "ENOTSUP"),
          (low, "setxattr", "f", "trusted.x", b"y", "EPERM"), (low, "setxattr", "f", "user.x", b"y", None),
          (high, "getxattr", "f", "user.x", b"y"), (low, "listxattr", "f", ["user.mls", "user.x"]),
          (low, "getxattr", "f", "trusted.mls", "ENODATA")])


def test_locks(world):
    """Who may not write a file may not lock it; who may is kept out by others' locks, over sessions."""
    high, low, _ = laid(world)
    other = world.session("man")
    reading, writing, second = high.open("f", os.O_RDONLY), low.open("f", os.O_RDWR), other.open("f", os.O_RDWR)
    same([(high, "lock", reading, "EACCES"), (high, "whole", reading, "EACCES"),
          (low, "lock", writing, "write", "write"), (other, "lock", second, "write", "EAGAIN"),
          (low, "lock", writing, "off", "off"), (other, "lock", second, "write", "write"),
          (low, "whole", writing, "locked"), (other, "whole", second, "EAGAIN"), (low, "close", writing, None),
          (other, "whole", second, "locked")])
