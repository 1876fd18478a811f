"""How fast files are below the current folder: prints what one deed took. bench runs it in sessions.

    paces.py SECONDS DEED
"""
import os
import subprocess
import sys
import time

SECONDS = float(sys.argv[1])
FILES = [f"p/f{k}" for k in range(200)]
BLOCK = 1 << 17


def rate(deed):
    """How often a second; a deed returns how much it did."""
    deed()
    done, begun = 0, time.perf_counter()
    while time.perf_counter() - begun < SECONDS:
        done += deed()
    return done / (time.perf_counter() - begun)


def opens():
    for name in FILES:
        fd = os.open(name, os.O_RDONLY)
        os.read(fd, 4096)
        os.close(fd)
    return len(FILES)


def stats():
    for name in FILES:
        os.stat(name)
    return len(FILES)


def creates():
    for k in range(50):
        fd = os.open(f"p/n{k}", os.O_CREAT | os.O_WRONLY)
        os.write(fd, b"x")
        os.close(fd)
    for k in range(50):
        os.unlink(f"p/n{k}")
    return 50


def writes():
    for k in range(100):
        os.pwrite(BIG, b"y" * BLOCK, k * BLOCK)
    return 100 * BLOCK / 1e6


def reads():
    for k in range(100):
        os.pread(BIG, BLOCK, k * BLOCK)
    return 100 * BLOCK / 1e6


def small_reads():
    for k in range(1000):
        os.pread(BIG, 4096, k * 4096)
    return 1000


def git(*words):
    subprocess.run(["git", "-c", "user.name=a", "-c", "user.email=a@b", "-C", "p/g", *words], check=True,
                   stdout=subprocess.DEVNULL, env={**os.environ, "HOME": os.getcwd()})


def make_repository():
    os.mkdir("p/g")
    git("init", "-q")
    for k in range(2000):
        os.makedirs(f"p/g/d{k % 20}", exist_ok=True)
        with open(f"p/g/d{k % 20}/{k}", "w", encoding="ascii") as file:
            file.write(str(k))
    git("add", "-A")
    git("commit", "-qm", "x")


def status():
    """git status of 2,000 files, in milliseconds: the second."""
    git("status", "-s")
    begun = time.perf_counter()
    git("status", "-s")
    return (time.perf_counter() - begun) * 1e3


def begin():
    """Makes the files that are timed."""
    os.mkdir("p")
    for name in [*FILES, "p/big"]:
        with open(name, "wb") as file:
            file.write(b"x" * 1000)
    make_repository()
    return 0


RATES = {"opens": opens, "stats": stats, "creates": creates, "writes": writes, "reads": reads, "small": small_reads}
DEEDS = {"begin": begin, "status": status, **{name: lambda deed=deed: rate(deed) for name, deed in RATES.items()}}
BIG = os.open("p/big", os.O_RDWR) if os.path.exists("p/big") else None
print(DEEDS[sys.argv[2]]())
