"""Clients that mean harm: mlsd answers the others, holds its memory, and rests."""
import os
import resource
import select
import socket
import time

import fronts
from fronts import ALL, JOURNAL, SOCKET, Front, comes, connected, entries, fresh, received, rest_of, told
from mls import Refused
from outside import SECONDS, same, shown

SHORT = False
# Bytes of a line that never ends; clients that never read; lines that are sent at once; closes in mid-answer;
# connections; descriptors that are sent along.
GIANT, SILENT, FLOOD, CLOSES, CROWD, PASSED = 1_000_000_000, 91, 60_000, 300, 1_500, 20_000
SHORT_GIANT, SHORT_SILENT, SHORT_FLOOD, SHORT_CLOSES, SHORT_CROWD, SHORT_PASSED = 50_000_000, 20, 6_000, 40, 1_300, 500
# The most memory that it may have had, in KiB, and the part of a processor that it may use while nobody is served.
MEMORY, REST = 12_000, 0.2
ASKED = b"ann get-read plans\n"
# What has no entry, and so costs the core little.
CHECKED, TOLD = b"bob check read plans\n", b"not held\n"


def size(whole, short):
    return short if SHORT else whole


def serves(front):
    """Somebody else is answered, soon."""
    begun = time.monotonic()
    with front.client() as client:
        same(client.ask("ann get-read plans"), "yes")
    assert time.monotonic() - begun < SECONDS / 4, "it was slow"


def rests(front):
    """It uses no processor while nothing can be done, once it has done what could be."""
    ends, used = time.monotonic() + SECONDS, 1
    while used >= REST:
        assert time.monotonic() < ends, f"it used {used} s of a second"
        before = front.used()
        time.sleep(1)
        used = front.used() - before


def is_well(front):
    serves(front)
    rests(front)
    assert front.status("VmHWM") < MEMORY, f"it had {front.status('VmHWM')} KiB"
    same(front.status("Threads"), 1)


def lines_without_an_end():
    """Gigabytes without a newline are read and forgotten; half lines of many clients ask nothing."""
    fresh()
    with Front() as front:
        halves = [front.raw() for _ in range(size(SILENT, SHORT_SILENT))]
        for sock in halves:
            sock.sendall(b"sec delete plan")
        giant, piece = front.raw(), b"x" * 1_000_000
        for _ in range(size(GIANT, SHORT_GIANT) // len(piece)):
            giant.sendall(piece)
        is_well(front)
        giant.sendall(b"\n" + ASKED)
        same(received(giant, 2), b"bad form\nyes\n")
        for sock in halves:
            sock.close()
        is_well(front)
    same({*entries()}, {"0 get-read 1 yes"})


def a_slow_line_is_limited():
    """Bytes without an end of line count as lines, or they would be free."""
    fresh()
    with Front(users=b"0 = * rate=20 clients=0\n") as front:
        sock, begun = front.raw(), time.monotonic()
        sock.setblocking(False)
        sent = 0
        while time.monotonic() - begun < 3:
            if select.select([], [sock], [], 0.1)[1]:
                sent += sock.send(b"x" * 4_096)
        assert sent < 3_000_000, sent
        rests(front)


def clients_that_never_read():
    """Who doesn't read is not served further, and nobody waits for it; its answers are kept, in their order."""
    fresh()
    count = size(FLOOD, SHORT_FLOOD)
    with Front() as front:
        silent = []
        for _ in range(size(SILENT, SHORT_SILENT)):
            sock = front.raw()
            sock.setblocking(False)
            try:
                while True:
                    # (tens of thousands of answers fit into the system's buffers: mlsd's own cost the core nothing)
                    sock.send(b"zoe level U\n" * 1_000)
            except BlockingIOError:
                silent.append(sock)
        is_well(front)
        # (one that sends all at once, and reads later)
        sock, text, at, found = front.raw(), CHECKED * count, 0, b""
        sock.setblocking(False)
        while len(found) < len(TOLD) * count:
            readable, writable, _ = select.select([sock], [sock] if at < len(text) else [], [], SECONDS)
            assert readable or writable, "nothing comes"
            if writable:
                at += sock.send(text[at : at + 100_000])
            if readable and (at == len(text) or not writable):
                found += sock.recv(65_536)
        same(found, TOLD * count)
        is_well(front)


def closes_in_mid_answer():
    """A client may go at any moment."""
    fresh()
    with Front("--release-on-close") as front:
        for turn in range(size(CLOSES, SHORT_CLOSES)):
            sock = connected()
            sock.sendall(ASKED * (1 + turn % 50))
            if turn % 3:
                sock.recv(1 + turn)
            if turn % 5 == 0:
                # (with a reset)
                sock.setsockopt(socket.SOL_SOCKET, socket.SO_LINGER, b"\x01\0\0\0\0\0\0\0")
            sock.close()
        comes(lambda: front.client().stats()["sessions"]["open"] - len(front.clients), 0)
        is_well(front)
    same(fronts.held(), [])


def crowds():
    """More connections than there is room for: `busy`, also while all is taken, and root can still ask how it does."""
    fresh()
    soft, hard = resource.getrlimit(resource.RLIMIT_NOFILE)
    count = size(CROWD, SHORT_CROWD)
    resource.setrlimit(resource.RLIMIT_NOFILE, (1_000, hard))
    crowd = []
    try:
        with Front(users=b"%d = ann clients=0 rate=0\n0 = ann clients=0 rate=0\n" % fronts.ANN) as front:
            resource.setrlimit(resource.RLIMIT_NOFILE, (min(hard, count + 500), hard))
            crowd = [connected() for _ in range(count)]
            greetings = [received(sock, 1).split()[:1] for sock in crowd]
            same((greetings.count([b"session"]), greetings.count([b"busy"])), (936 + 8, count - 936 - 8))
            rests(front)
            last = [sock for sock, greeting in zip(crowd, greetings) if greeting == [b"session"]][-1]
            last.sendall(b"stats\n")
            assert b'"open":944' in received(last, 1)
            for sock in crowd[:50]:
                sock.close()
            comes(lambda: is_admitted(front), True)
            is_well(front)
    finally:
        for sock in crowd:
            sock.close()
        resource.setrlimit(resource.RLIMIT_NOFILE, (soft, hard))


def is_admitted(front):
    try:
        front.client()
        return True
    except Refused:
        return False


def descriptors_that_are_sent_along():
    """They are not kept; nor do bytes out of band, or datagrams of credentials, matter."""
    fresh()
    with Front() as front:
        sock = front.raw()
        sock.sendall(ASKED)
        same(received(sock, 1), b"yes\n")
        opened = lambda: len(os.listdir(f"/proc/{front.run.pid}/fd"))
        before = opened()
        with open("/dev/null", "rb") as file:
            for _ in range(size(PASSED, SHORT_PASSED) // 100):
                socket.send_fds(sock, [ASKED], [file.fileno()] * 100)
                same(received(sock, 1), b"yes\n")
        try:
            sock.send(b"x", socket.MSG_OOB)
        except OSError:
            # (the system has none here)
            pass
        # (the byte is a line of its own, or nowhere)
        sock.sendall(b"\nann frob\n" + ASKED)
        answer = received(sock, 1)
        answer = received(sock, 1) if answer == b"not yours\n" else answer
        same(answer + received(sock, 1), b"bad form\nyes\n")
        # (a connection by which the front was found ready may have been closed meanwhile)
        assert opened() <= before, f"{opened()} descriptors, {before} before"
        is_well(front)


CHECKS = [
    lines_without_an_end,
    a_slow_line_is_limited,
    clients_that_never_read,
    closes_in_mid_answer,
    crowds,
    descriptors_that_are_sent_along,
]
AS_ROOT = []
