"""Two test suites of POSIX calls on files, of which Debian has the source: posixtestsuite, and fuse3's own.

MLS_POSIX names a folder with both, from `apt-get source posixtestsuite fuse3`. Each test runs below mlsfs and in a
plain folder. What passes there and fails below mlsfs stands here, with the reason.
"""
import glob
import os
import re
import subprocess

from session import Session
from world import Skipped

GIVEN = os.environ.get("MLS_POSIX", "")
INTERFACES = ["aio_cancel", "aio_error", "aio_fsync", "aio_read", "aio_return", "aio_suspend", "aio_write", "fsync",
              "lio_listio", "mmap", "munmap"]
# Of fuse3's tests, those that fail: pipes and sockets are refused, and a time of access is the time of the last change.
REFUSED = {"mkfifo": "mkfifo: Operation not permitted", "socket": "bind: Operation not permitted",
           "utime": "atime 123116400 instead of 987631200"}
RACES = ["aio_return-1-1"]      # closes the descriptor that another thread is about to write by


def source(name):
    found = glob.glob(f"{GIVEN}/{name}-*/") if GIVEN else []
    if not found:
        raise Skipped(f"MLS_POSIX names no folder with the source of {name}")
    return found[0]


def compiled(file, text, words, to):
    """Compiles a program of another's sources; whether it could."""
    with open(f"{to}.c", "w", encoding="utf-8") as out:
        out.write(text)
    include = ["-I", os.path.dirname(file)]
    return subprocess.run(["cc", "-w", *include, f"{to}.c", *words, "-o", to], capture_output=True).returncode == 0


def outcomes(session, programs):
    """How each program ends, in a folder of its own."""
    lines = [f'mkdir {it} && (cd {it} && timeout 60 {path} >/dev/null 2>&1; echo "{it} $?")' for it, path in programs]
    said = session.run(["sh", "-c", "; ".join(lines)])[1]
    return dict(line.split() for line in said.splitlines())


def plain(world):
    """A session in a folder that no mlsfs serves."""
    folder = f"{world.folder}/plain"
    os.makedirs(folder, exist_ok=True)
    os.chmod(folder, 0o777)
    world.sessions.append(Session("games", folder, None, world.log))
    return world.sessions[-1]


def test_posixtestsuite(world):
    """The tests of mapped files, asynchronous reads and writes, and fsync."""
    top, to = source("posixtestsuite"), f"{world.folder}/posix"
    os.mkdir(to)
    programs = []
    for file in sorted(it for name in INTERFACES for it in glob.glob(f"{top}conformance/interfaces/{name}/*-*.c")):
        with open(file, encoding="latin-1") as text:
            name = "-".join(file.split("/")[-2:])[:-2]
            # (it is of the standard's year 2001, and skips what a later year offers)
            lines = text.read().replace('"/tmp/', '"./').replace("200112L", "200809L")
            if compiled(file, lines, ["-I", f"{top}include", "-lrt", "-lpthread"], f"{to}/{name}"):
                programs.append((name, f"{to}/{name}"))
    below, elsewhere = outcomes(world.session("games"), programs), outcomes(plain(world), programs)
    passed = {name for name, status in elsewhere.items() if status == "0" and name not in RACES}
    failed_here = {name: below.get(name) for name in passed if below.get(name) != "0"}
    assert len(passed) > 50 and not failed_here, (len(programs), len(passed), failed_here)
    return f"ok: {len(passed)} of {len(programs)} tests pass, as in a plain folder"


def test_fuses_own(world):
    """The calls on names, attributes and open files: all but pipes and sockets."""
    file, to = f"{source('fuse3')}test/test_syscalls.c", f"{world.folder}/syscalls"
    with open(file, encoding="utf-8") as text:
        assert compiled(file, text.read().replace('#include "fuse_config.h"', ""), [], to)
    found = {folder: failed(session.run([to, folder])[1]) for session, folder in (
        (world.session("games"), world.mount), (plain(world), f"{world.folder}/plain"))}
    assert found == {world.mount: REFUSED, f"{world.folder}/plain": {}}, found
    return "ok: all but " + ", ".join(REFUSED)


def failed(said):
    """The tests of fuse3 that did not end well, and the last of what each said."""
    lines = [re.match(r" *\d+ \[(.*?)\] (.*)", line) for line in said.splitlines()]
    return {line[1]: line[2].split(" - ")[-1] for line in lines if line and line[2] != "OK"}
