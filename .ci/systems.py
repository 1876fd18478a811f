"""A Debian system of its own, in a folder: a copy of the one that MLS_CHROOT names, which is a folder or a tar of one.
Commands run in it with processes, a network and mounts of their own, which end with them."""
import contextlib
import os
import shutil
import subprocess
import sys

GIVEN = os.environ.get("MLS_CHROOT", "")
HERE = os.path.dirname(os.path.realpath(__file__))
OWN = ["unshare", "--mount", "--pid", "--fork", "--kill-child", "--net", "--ipc", "--uts"]


def unfit():
    """Why no such system can be used here, or None."""
    if not os.path.exists(GIVEN):
        return "MLS_CHROOT names no Debian system"
    if os.geteuid():
        return "only root can use a system"
    done = subprocess.run([*OWN, "mount", "-t", "tmpfs", "none", "/mnt"], capture_output=True)
    return "no process may have mounts and a network of its own here" if done.returncode else None


def has(path):
    """Whether the given system has a file."""
    if os.path.isdir(GIVEN):
        return os.path.lexists(GIVEN + path)
    if not os.path.exists(GIVEN):
        return False
    return any(line.lstrip("./").rstrip("/") == path.strip("/") for line in listed())


def listed(kept=[]):
    if not kept:
        done = subprocess.run(["tar", "-tf", GIVEN], stdout=subprocess.PIPE, text=True, errors="replace", check=True)
        kept.append(done.stdout.splitlines())
    return kept[0]


@contextlib.contextmanager
def fresh(name):
    """A fresh one, in a folder of this name."""
    os.mkdir(name)
    try:
        if os.path.isdir(GIVEN):
            words = ["cp", "-a", "--reflink=auto", f"{GIVEN}/.", name]
        else:
            words = ["tar", "-xf", GIVEN, "-C", name, "--numeric-owner"]
        subprocess.run(words, check=True, capture_output=True)
        yield os.path.realpath(name)
    finally:
        shutil.rmtree(name)


def inside(system, *words, **how):
    """Runs a command in it."""
    words = [*OWN, sys.executable, f"{HERE}/inside.py", system, *words]
    how = {"stdin": subprocess.DEVNULL, "stdout": subprocess.PIPE, "stderr": subprocess.STDOUT, **how}
    return subprocess.run(words, text=True, errors="replace", **how)
