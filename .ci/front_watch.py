"""What a front asks of mlsd: what is taken away is told before the answer, labels, rights of a pool, and reads that are
held."""
import array
import mmap
import os
import select
import socket

from front_pools import RULES, START, pooled, start
from fronts import ANN, BOB, Front, comes, core, entries, fresh, held, received
from outside import same


def watcher(front, word="watch", *gets):
    """A bare connection that watches and got what it asked for."""
    sock = front.raw()
    sock.sendall("".join(f"{line}\n" for line in (word, *gets)).encode())
    same(received(sock, 1 + len(gets)), b"yes\n" * (1 + len(gets)))
    return sock


def lines_of(sock, count):
    return received(sock, count).decode().splitlines()


def is_silent(sock, seconds=0.3):
    return not select.select([sock], [], [], seconds)[0]


def made(client, count, parent="root"):
    """Makes objects below one another, on which ann may read; returns their numbers."""
    numbers = []
    same(client.ask(f"sec get-write {parent}"), "yes")
    for _ in range(count):
        number = client.ask(f"sec create {parent} U hi").split()[1]
        same(client.ask_all([f"sec give read ann #{number}", f"sec give write sec #{number}"]), ["yes", "yes"])
        same(client.ask(f"sec get-write #{number}"), "yes")
        numbers.append(number)
        parent = f"#{number}"
    return numbers


def what_is_lost_is_told():
    """A rescind, and a delete of the object or of one above it: who watches is told before the answer is given; who
    doesn't is told nothing, and nobody of what it let go itself."""
    fresh()
    for flags in ((), ("--release-on-close",)):
        fresh()
        with Front(*flags) as front:
            client = front.client()
            upper, lower = made(client, 2)
            gets = [f"ann get-read #{upper}", f"ann get-read #{lower}", "bob get-execute tool"]
            watching = watcher(front, "watch", *gets)
            other = watcher(front, "watch", "aud get-read plans")
            silent = front.raw()
            silent.sendall(f"ann get-read #{upper}\n".encode())
            same(received(silent, 1), b"yes\n")
            same(client.ask(f"sec rescind read ann #{upper}"), "yes")
            # (it is there already)
            same(lines_of(watching, 1), [f"! lost ann read #{upper}"])
            same(client.ask(f"sec delete #{upper}"), "yes")
            same(lines_of(watching, 1), [f"! lost ann read #{lower}"])
            watching.sendall(b"bob release execute tool\nbob check execute tool\n")
            same(lines_of(watching, 2), ["yes", "not held"])
            same((is_silent(watching), is_silent(other), is_silent(silent)), (True, True, True))
            same(front.end(), (0, b""))


def anothers_release_is_told():
    """Without --release-on-close a release takes the access from all connections that got it; with it from none."""
    for flags, wanted in (((), ["! lost ann read plans"]), (("--release-on-close",), [])):
        fresh()
        with Front(*flags) as front:
            one, two = watcher(front, "watch", "ann get-read plans"), front.client()
            same(two.ask_all(["ann get-read plans", "ann release read plans"]), ["yes", "yes"])
            same([two.ask("ann check read plans"), is_silent(one)], ["held" if flags else "not held", bool(flags)])
            same(lines_of(one, len(wanted)), wanted)


def an_order_within_a_connection():
    """A watcher reads its own answers and what it lost in the order of the journal."""
    fresh()
    with Front() as front:
        client = front.client()
        number = made(client, 1)[0]
        sock = watcher(front)
        sock.sendall(f"ann get-read #{number}\nsec rescind read ann #{number}\nann get-read #{number}\n".encode())
        wanted = ["yes", f"! lost ann read #{number}", "yes", "no discretionary"]
        same(lines_of(sock, 4), wanted)


def answers_wait_for_acks():
    """With `watch ack` the answer waits until each watcher wrote `ack` for each line, or is gone; who asked reads its
    answers in their order, and others aren't kept waiting."""
    fresh()
    with Front() as front:
        client = front.client()
        number = made(client, 1)[0]
        one, two = (watcher(front, "watch ack", f"ann get-read #{number}") for _ in range(2))
        asker = front.raw()
        asker.sendall(f"sec rescind read ann #{number}\nann check read plans\n".encode())
        for sock in (one, two):
            same(lines_of(sock, 1), [f"! lost ann read #{number}"])
        same((client.ask("ann check read plans"), is_silent(asker)), ("not held", True))
        one.sendall(b"ack\n")
        same(is_silent(asker), True)
        two.sendall(b"ack\n")
        same(lines_of(asker, 2), ["yes", "not held"])
        # (nothing is due)
        one.sendall(b"ack\n")
        same(lines_of(one, 1), ["bad form"])
        # (who is gone is waited for no more)
        same(client.ask(f"sec give read ann #{number}"), "yes")
        one.sendall(f"ann get-read #{number}\n".encode())
        same(lines_of(one, 1), ["yes"])
        asker.sendall(f"sec rescind read ann #{number}\n".encode())
        same((lines_of(one, 1), is_silent(asker)), ([f"! lost ann read #{number}"], True))
        one.close()
        same(lines_of(asker, 1), ["yes"])
        same(front.end(), (0, b""))


def watchers_that_do_not_read():
    """Who takes nothing for 100 ms is closed, and the answer comes then."""
    fresh()
    with Front() as front:
        client = front.client()
        number = made(client, 1)[0]
        deaf = watcher(front, "watch", f"ann get-read #{number}")
        deaf.setblocking(False)
        try:
            while True:
                deaf.send(b"zoe level U\n" * 500)
        except BlockingIOError:
            pass
        hearing = watcher(front, "watch", f"ann get-read #{number}")
        comes(lambda: is_full(deaf), True)
        same(client.ask(f"sec rescind read ann #{number}"), "yes")
        same(lines_of(hearing, 1), [f"! lost ann read #{number}"])
        comes(lambda: client.stats()["sessions"]["open"], 2)


def is_full(sock):
    """Whether nothing is taken of it any more, since its answers aren't read."""
    try:
        sock.send(b"zoe level U\n")
        return False
    except BlockingIOError:
        return True


def a_page_that_is_raised():
    """`generation` gives a page that can only be read; its number is another before an answer by which something was
    taken away, and else the same."""
    fresh()
    with Front() as front:
        client = front.client()
        number = made(client, 1)[0]
        sock = front.raw()
        sock.sendall(f"ann get-read #{number}\ngeneration\nann check read plans\n".encode())
        found, fds = b"", []
        while found.count(b"\n") < 3:
            part, more, *_ = socket.recv_fds(sock, 100, 2)
            found, fds = found + part, fds + more
        same((found, len(fds)), (b"yes\nyes\nnot held\n", 1))
        page = mmap.mmap(fds[0], 4_096, mmap.MAP_SHARED, mmap.PROT_READ)
        now = lambda: array.array("Q", page[:8])[0]
        last = now()
        asked = [f"sec rescind write bob #{number}", f"? sec rescind read ann #{number}"]
        same(client.ask_all(asked), ["yes", "? yes"])
        assert now() > last, "a right was taken away"
        last = now()
        asked = ["ann get-read plans", "ann release read plans", "bob get-read memo"]
        same(client.ask_all(asked), ["yes", "yes", "no star"])
        same(now(), last)
        for line in (f"sec rescind read ann #{number}", f"sec delete #{number}"):
            same(client.ask(line), "yes")
            assert now() > last, line
            last = now()
        for path, how in ((f"/proc/self/fd/{fds[0]}", os.O_RDWR), (f"/proc/self/fd/{fds[0]}", os.O_WRONLY)):
            try:
                other = os.open(path, how)
                os.write(other, b"x")
                assert False, "it was written"
            except OSError:
                pass
        same(now(), last)
        page.close()
        os.close(fds[0])


def labels_are_told():
    """Current labels, of an object to whom may get it and of a subject to itself, and of all to root; over a start
    too."""
    fresh()
    start()
    words, users = core(start=START), RULES + b"%d = bob app\n" % BOB
    rows = [
        ("labels plans", "not yours", "security S:A integrity hi"),
        ("labels memo", "not yours", "security C integrity lo"),
        ("labels notes", "security U integrity hi", "security U integrity hi"),
        ("labels tool", "security U integrity lo", "security U integrity lo"),
        ("labels bob", "maximum C current U integrity lo", "maximum C current U integrity lo"),
        ("labels subject sec", "not yours", "maximum T:A,B current U integrity hi trusted"),
        ("labels object bob", "not yours", "not yours"),
        ("labels #99", "not yours", "undefined"),
        ("labels app", "maximum S:A current U integrity hi", "maximum S:A current U integrity hi"),
        ("labels zoe", "not yours", "not yours"),
    ]
    with Front(users=users, words=words) as front:
        bob, root = front.client(BOB), front.client()
        same(bob.ask("app check read notes"), "not held")
        for line, to_bob, to_root in rows:
            same((line, bob.ask(line), root.ask(line)), (line, to_bob, to_root))
        asked = ["bob level C", "labels bob", "labels memo", "app level S:A", "labels app", "labels plans"]
        asked.append("bob level U")
        bob._send("".join(f"{line}\n" for line in asked).encode())
        same([bob._line() for _ in asked], [
            "yes", "maximum C current C integrity lo", "security C integrity lo", "yes",
            "maximum S:A current S:A integrity hi", "security S:A integrity hi", "yes",
        ])  # fmt: skip
        same(bob.ask("bob level C"), "yes")
        asked = ["sec get-write root", "sec create root S:B,A hi"]
        same(root.ask_all(asked), ["yes", "created 5"])
        same(root.ask("labels #5"), "security S:A,B integrity hi")
    with Front(users=users, words=words) as front:
        root = front.client()
        same(root.ask("labels bob"), "maximum C current C integrity lo")
        same(root.ask("labels #5"), "security S:A,B integrity hi")
        same([it for it in entries() if " get-" in it], ["2 get-write 0 yes"])


def rights_of_a_pool():
    """`give` and `rescind` that name a pool are asked for each of its subjects, leased ones too; the first answer that
    isn't yes is the answer, and what was given is taken back."""
    fresh()
    start()
    with pooled() as front:
        sec, one = front.client(), watcher(front, "watch")
        same(sec.ask_all(["sec get-write root", "sec create root U hi"]), ["yes", "created 5"])
        one.sendall(b"app get-read #5\n")
        same(lines_of(one, 1), ["no discretionary"])
        before = len(entries())
        sec._send(b"sec give read app #5\nann check read plans\n? sec give read app #5\n")
        same([sec._line() for _ in range(3)], ["yes", "not held", "? yes"])
        same(entries()[before:], [f"2 give read {number} 5 yes" for number in (4, 5, 6)])
        one.sendall(b"app get-read #5\n")
        same(lines_of(one, 1), ["yes"])
        same(sec.ask("sec rescind read app #5"), "yes")
        same(lines_of(one, 1), ["! lost app read #5"])
        one.sendall(b"app check read #5\n")
        same(lines_of(one, 1), ["not held"])
        same(sec.ask_all(["ann give read app #5", "sec give read app #9", "sec give read app", "sec frob read app #5"]),
             ["no authority", "undefined", "bad form", "bad form"])  # fmt: skip
        same(sec.ask("ann give read app plans"), "no authority")
        # (a client that goes within it leaves none half done)
        before = len(entries())
        sock = front.raw()
        sock.sendall(b"sec give write app #5\n")
        comes(lambda: len(entries()) > before, True)
        sock.close()
        comes(lambda: entries()[before:][-1:], ["2 give write 6 5 yes"])
        same(entries()[before:], [f"2 give write {number} 5 yes" for number in (4, 5, 6)])
        same(front.end(), (0, b""))


def reads_that_are_held():
    """With `reads=held` what a connection read it holds to its end, so its level can't go below; a rescind takes it."""
    fresh()
    start()
    users = b"pool app = app-1 app-2 app-3\n%d = app ann reads=held\n0 = *\n" % ANN
    with Front("--release-on-close", users=users, words=core(start=START)) as front:
        one, sec = front.client(ANN), front.client()
        same(one.ask_all(["app level S:A", "app get-read plans", "app release read plans"]), ["yes"] * 3)
        asked = ["app check read plans", "app level U", "app get-write notes"]
        same(one.ask_all(asked), ["held", "no star", "no star"])
        same([it for it in entries() if " release " in it], [])
        same(sec.ask_all(["sec get-write root", "sec rescind read app plans"]), ["yes", "yes"])
        same(one.ask_all(["app check read plans", "app level U"]), ["not held", "yes"])
        same(one.ask_all(["app get-write notes", "app release write notes"]), ["yes", "yes"])
        same(one.ask("app check write notes"), "held")
        one.close()
        comes(lambda: held(start=START), ["sec write root"])
        asked = ["ann get-read plans", "ann release read plans", "ann check read plans"]
        same(sec.ask_all(asked), ["yes", "yes", "not held"])


CHECKS = [
    what_is_lost_is_told,
    anothers_release_is_told,
    an_order_within_a_connection,
    answers_wait_for_acks,
    watchers_that_do_not_read,
    a_page_that_is_raised,
    rights_of_a_pool,
]
AS_ROOT = [labels_are_told, reads_that_are_held]
