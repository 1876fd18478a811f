"""Who may ask mlsd, in every spelling, and what else it answers and tells, case by case."""
import os
import re
import signal
import socket
import subprocess
import time

import fronts
import mls
from fronts import ALL, ANN, BOB, IS_ROOT, JOURNAL, OF_AUD, OTHER, SOCKET, Front, comes, connected, core, entries, fresh
from fronts import received, refused, rest_of, sessions_of_entries, told
from mls import Ended
from outside import SECONDS, TOP, put, same, shown
from serving import STANDARD, content, has_compiler, shim

LINE_MAX = 20_000
RULES = b"%d = ann # a note\n%d = bob rate=0\n@%d = aud\n\n# nobody else\n" % (ANN, BOB, OF_AUD)
# What ann's client asks, what it is answered, and the entry.
OF_ANN = [
    ("ann get-read plans", "yes", "0 get-read 1 yes"),
    ("#0 get-read #1", "yes", "0 get-read 1 yes"),
    ("   ann   get-read    plans  ", "yes", "0 get-read 1 yes"),
    ("ann release read #1", "yes", "0 release read 1 yes"),
    ("ann check read plans", "not held", None),
    ("ann level S:A", "yes", "0 level 2:0 yes"),
    ("ann get-append plans", "no discretionary", "0 get-append 1 no discretionary"),
    ("ann get-read #77", "undefined", "0 get-read 77 undefined"),
    ("ann get-read none", "bad name", None),
    ("ann get-read #077", "bad form", None),
    ("ann level Q", "bad label", None),
    ("ann", "bad form", None),
    ("ann frob plans", "bad form", None),
    ("#00 get-read plans", "not yours", None),
    ("#+0 get-read plans", "not yours", None),
    ("#-0 get-read plans", "not yours", None),
    ("# get-read plans", "not yours", None),
    ("#65536 get-read plans", "not yours", None),
    ("#1 get-read memo", "not yours", None),
    ("#4 get-read memo", "not yours", None),
    ("#65535 get-read memo", "not yours", None),
    ("bob get-read memo", "not yours", None),
    ("bob check read memo", "not yours", None),
    ("Ann get-read plans", "not yours", None),
    ("zoe get-read plans", "not yours", None),
    ("'ann get-read plans", "not yours", None),
    ("stats", "not yours", None),
    ("0 ann get-read plans", "not yours", None),
    ("$x = ann create root U hi", "no variables", None),
    ("ann get-read $x", "no variables", None),
    ("ann get-read plans\r", "bad form", None),
    ("ann\tget-read plans", "bad form", None),
    ("ann get-read plans\0", "bad form", None),
    ("ann get-read pl\u00e4ns", "bad form", None),
    ("bob\0get-read plans", "bad form", None),
    ("? ann get-read plans", "? yes", None),
    ("  ?  ann   get-append plans", "? no discretionary", None),
    ("? ann check read plans", "? not held", None),
    ("? ann frob", "? bad form", None),
    ("? ann level Q", "? bad label", None),
    ("? bob get-read memo", "? not yours", None),
    ("? ann get-read $x", "? no variables", None),
    ("? ? ann level U", "? bad form", None),
    ("?", "? bad form", None),
    ("?ann get-read plans", "not yours", None),
    ("sec give write bob plans", "not yours", None),
]


def who_may_ask():
    """A client asks as the subjects of its rules, however they are written, and as no other; the core is told nothing
    else."""
    fresh()
    with Front(users=RULES) as front:
        client = front.client(ANN)
        for line, answer, _ in OF_ANN:
            # (a byte that is none of a line's is answered too)
            client._send(line.encode() + b"\n")
            same((line, client._line()), (line, answer))
        front.end()
    same(entries(), [entry for *_, entry in OF_ANN if entry])


def rules_of_users_and_groups():
    """Rules go by the uid and all groups of the process that connected, and are joined."""
    fresh()
    rows = [
        (ANN, ANN, (), "ann"),
        (BOB, BOB, (), "bob"),
        (OTHER, OF_AUD, (), "aud"),
        (OTHER, OTHER, (7, OF_AUD), "aud"),
        (ANN, OTHER, (*range(62_000, 62_100), OF_AUD), "ann aud"),
        (OF_AUD, OTHER, (), ""),
        (OTHER, ANN, (BOB,), ""),
    ]
    with Front(users=RULES) as front:
        for uid, gid, groups, may in rows:
            if not may:
                sock = fronts.connected_as(uid, gid, groups)
                same((uid, gid, rest_of(sock)), (uid, gid, b"not known\n"))
                sock.close()
                continue
            client = front.client(uid, gid, groups)
            names = ("ann", "bob", "sec", "aud")
            found = [name for name in names if client.ask(f"{name} check read root") != "not yours"]
            same((uid, gid, groups, found), (uid, gid, groups, may.split()))
        # (root needs no rule to be let in, and may ask as nobody without one)
        same(front.client().ask("ann check read root"), "not yours")


def root_of_a_namespace():
    """Who is root in a user namespace is outside who it was; where the system allows none, nothing is asked."""
    fresh()
    with Front(users=RULES) as front:
        for uid, wanted in ((OTHER, b"not known\n"), (BOB, b"session 1\n")):
            try:
                sock = fronts.connected_as(uid, uid, is_root_inside=True)
            except AssertionError:
                print("mlsd: root of a namespace: skipped: the system allows no user namespace", flush=True)
                return
            same((uid, received(sock, 1)), (uid, wanted))
            if uid == BOB:
                sock.sendall(b"stats\nbob check read root\n")
                same(received(sock, 2), b"not yours\nnot held\n")
            sock.close()


def names_of_users():
    """A rule names a user or a group by the system's name too."""
    fresh()
    with Front(users=b"daemon = bob\n@daemon = aud\n") as front:
        client = front.client(1, 1)
        found = [client.ask(f"{name} check read root") for name in ("ann", "bob", "aud")]
        same(found, ["not yours", "not held", "not held"])


def users_files_that_are_refused():
    """What isn't understood, or may have been written by others, is refused before anybody may connect, with its
    line."""
    fresh()
    rows = [
        (b"ann\n", "users: users: line 1: bad form"),
        (b"\n0 = eve\n", "users: users: line 2: no subject is called eve"),
        (b"no-such-user = ann\n", "users: users: line 1: nobody is called no-such-user"),
        (b"@no-such-group = ann\n", "users: users: line 1: nobody is called no-such-group"),
        (b"0 = #0\n", "users: users: line 1: bad form"),
        (b"0 = ann rate=x\n", "users: users: line 1: bad number in rate=x"),
        (b"0 = ann weight=1\n", "users: users: line 1: no limit is called weight"),
        (b"0 = ann \xff\n", "users: users: stream did not contain valid UTF-8"),
    ]
    for users, wanted in rows:
        same((users, refused(users=users)), (users, (1, [f"mlsd: {wanted}"])))
    for mode in (0o664, 0o646, 0o666):
        same((mode, refused(mode=mode)), (mode, (1, ["mlsd: users: users: others can write it"])))
    if IS_ROOT:
        same(refused(owner=OTHER), (1, ["mlsd: users: users: others can write it"]))
    assert not os.path.exists(SOCKET), "somebody could connect"


def tests_beside_the_code():
    """The tests in mlsd's own sources."""
    words = ["rustc", "--edition", "2021", "--test", "-D", "warnings", f"{TOP}/mlsd/src/main.rs", "-o", "mlsd-tests"]
    done = subprocess.run(words, capture_output=True, text=True, stdin=subprocess.DEVNULL)
    same((done.returncode, done.stderr), (0, ""))
    done = subprocess.run(["./mlsd-tests", "--quiet"], capture_output=True, text=True, stdin=subprocess.DEVNULL)
    assert done.returncode == 0 and re.search(r"ok\. [1-9]\d+ passed; 0 failed", done.stdout), done.stdout[-2_000:]


def words_that_are_refused():
    usage = "usage: mlsd --socket PATH --users FILE"
    plain = [word for word in core() if word != "--sessions"]
    rows = [(("--frob",), None), (("--linger", "x"), None), (("--linger",), None)]
    for flags, words in rows:
        status, line = refused(*flags, words=words)
        assert status == 2 and usage in line[0], (flags, status, line)
    same(refused(words=plain), (2, ["mlsd: the core's words lack --sessions"]))
    same(refused(words=[word for word in core() if word != "--names"]), (2, ["mlsd: the core's words lack --names"]))
    same(refused(socket_words=()), (2, ["mlsd: neither --socket nor a socket that was passed"]))
    status, line = refused(b"--\xff")
    assert status == 2 and usage in line[0], (status, line)


def lines_and_their_ends():
    """Lines of every length; half of one is none; who shuts its sending side gets all answers; who closes is asked
    for nothing."""
    fresh()
    spaces = lambda count: b"ann get-read plans" + b" " * (count - 18) + b"\n"
    label = lambda count: b"ann level " + b"Q" * (count - 10) + b"\n"
    with Front() as front:
        sock = front.raw()
        sent = [spaces(LINE_MAX), spaces(LINE_MAX + 1), label(LINE_MAX), label(LINE_MAX + 1)]
        sent += [b"\n", b"  \n", b"; note\n", b"x" * 90_000 + b"\n", b" " * (LINE_MAX + 1) + b"\n"]
        sent += [b"; " + b"n" * 19_000 + b"\n", spaces(18), b"ann delete plans"]
        sock.sendall(b"".join(sent))
        sock.shutdown(socket.SHUT_WR)
        wanted = ["yes", "bad form", "bad label", "bad form", "bad form", "bad form", "yes"]
        same(rest_of(sock).decode().splitlines(), wanted)
        sock = front.raw()
        for byte in b"ann get-read plans\nann check read plans\n":
            sock.sendall(bytes([byte]))
        same(received(sock, 2), b"yes\nheld\n")
        sock.sendall(b"sec delete plan")
        sock.close()
        comes(lambda: [it[:2] for it in told() if it[0] == 2], [(2, "opened"), (2, "closed")])
        front.end()
    same(entries(), ["0 get-read 1 yes"] * 3)
    notes = [more for session, what, more in told() if what == "note"]
    same(notes, ["note", "n" * 199])


def numbers_of_sessions():
    """No number is used twice, over all starts, also after a kill and behind a torn end; the file is the
    administrator's alone."""
    fresh()
    seen = []
    for turn in range(4):
        with Front() as front:
            seen += [front.client().session for _ in range(3)]
            assert front.clients[-1].ask("ann get-read plans") == "yes"
            front.end(signal.SIGKILL if turn % 2 else signal.SIGTERM)
        with open(f"{JOURNAL}.sessions", "ab") as file:
            file.write(b"99 ope" if turn == 2 else b"")
    same(seen, [*range(1, 13)])
    same(os.stat(f"{JOURNAL}.sessions").st_mode & 0o777, 0o600)
    # (another file may go on with the last line of an old one)
    with Front() as front:
        front.end()
    last = content(f"{JOURNAL}.sessions").splitlines(keepends=True)[-1]
    assert b" ended " in last and b" next 13 " in last, last
    put("other", last)
    with Front("--sessions", "other") as front:
        same(front.client().session, 13)
    assert b"13 opened" in content("other"), content("other")


def what_the_sessions_file_says():
    fresh()
    with Front() as front:
        with front.client() as client:
            client.ask("ann get-read plans")
            client.note("tx 3/199\tx")
            client.ask("ann get-read plans")
        comes(lambda: told()[-1][1], "closed")
        same(front.end(), (0, b""))
    lines = content(f"{JOURNAL}.sessions").decode().splitlines()
    time_form = r"20[0-9]{2}-[01][0-9]-[0-3][0-9]T[0-2][0-9]:[0-5][0-9]:[0-5][0-9]\.[0-9]{3}Z"
    form = rf"[0-9]+ [a-z]+ {time_form} entry [0-9]+( .*)?"
    assert all(re.fullmatch(form, line) for line in lines), lines
    same([(line.split()[0], line.split()[1], line.split()[4]) for line in lines], [
        ("0", "started", "0"), ("1", "opened", "0"), ("1", "note", "1"), ("1", "closed", "2"), ("0", "ended", "2"),
    ])
    assert f" uid {os.geteuid()} pid {os.getpid()} as ann,bob,sec,aud" in lines[1], lines[1]
    same(told()[2][2], "tx 3/199?x")


def limits_of_clients():
    """`busy` beyond a user's connections; a line beyond the rate waits."""
    fresh()
    with Front(users=b"%d = ann clients=3 rate=0\n%d = bob rate=20\n" % (ANN, BOB)) as front:
        open_now = [front.client(ANN) for _ in range(3)]
        sock = fronts.connected_as(ANN, ANN)
        same(rest_of(sock), b"busy\n")
        open_now[0].close()
        comes(lambda: told()[-1][1], "closed")
        same(front.client(ANN).ask("ann check read root"), "not held")
        # (a hundred at once, of which its connection is one, then twenty a second)
        client, begun = front.client(BOB), time.monotonic()
        client.ask_all(["bob check read root"] * 129)
        assert 1.2 < time.monotonic() - begun, time.monotonic() - begun


def one_front_a_journal_and_a_socket():
    """A second front of a journal ends with 75, one of a socket with 1; a socket that a dead one left is taken over."""
    fresh()
    with Front() as front:
        client = front.client()
        status, line = refused(socket_words=("--socket", "other.socket"))
        same((status, line[0].startswith("mlsd: the core ended before it was ready")), (75, True))
        put("j2", b"")
        same(refused(words=core(journal="j2")), (1, [f"mlsd: {SOCKET}: in use"]))
        same(client.ask("ann get-read plans"), "yes")
        front.end(signal.SIGKILL)
    assert os.path.exists(SOCKET)
    comes(lambda: fronts.outside.ran_program(["serve", "--journal", JOURNAL, STANDARD])[0], 0)
    with Front() as front:
        same(front.client().ask("ann check read plans"), "held")
        same(front.end(), (0, b""))
    assert not os.path.exists(SOCKET)
    put(SOCKET, b"no socket")
    status, line = refused()
    same((status, content(SOCKET)), (1, b"no socket"))
    os.remove(SOCKET)
    with socket.socket(socket.AF_UNIX, socket.SOCK_DGRAM) as other:
        other.bind(SOCKET)
        same(refused(), (1, [f"mlsd: {SOCKET}: Protocol wrong type for socket (os error 91)"]))
        assert os.path.exists(SOCKET), "another program's socket was taken away"
    os.remove(SOCKET)


def cores_that_end():
    """A refused journal is 3, a core that dies 4, with all that it answered delivered, and words that it doesn't know
    3."""
    fresh()
    put(JOURNAL, b"0 0 1 get-read 2 yes\n")
    status, line = refused()
    same((status, line[0].startswith("mlsd: the core ended before it was ready")), (3, True))
    fresh()
    same(refused(words=core("--frob"))[0], 3)
    same(refused(words=["/no/such/program", *core()[1:]])[0], 1)
    with Front() as front:
        client = front.client()
        same(client.ask("ann get-read plans"), "yes")
        os.killpg(front.core_pid(), signal.SIGKILL)
        status, line = front.ended()
        same((status, line.startswith(b"mlsd: the core ended: signal: 9")), (4, True))
        try:
            client.ask("ann get-read plans")
            assert False, "a line was answered"
        except Ended:
            pass
    same(told()[-1][1], "ended")


def a_failed_append_is_5():
    """A core that met a failed append or sync ends with 5, and so does the front; nothing of that batch is answered."""
    for failed in (3, 4, 5, 6):
        fresh()
        env = shim(fail=failed, errno=28)
        words = ["env", *(f"{name}={env[name]}" for name in ("LD_PRELOAD", "DISK_FAIL", "DISK_ERRNO")), *core()]
        with Front(words=words) as front:
            client, answered = front.client(), 0
            try:
                while client.ask("ann get-read plans") == "yes":
                    answered += 1
            except Ended:
                pass
            status, line = front.ended()
            assert status == 5, (failed, status, line)
        assert len(entries()) >= answered == (failed - 3) // 2, (failed, answered)


def standard_error_that_takes_nothing():
    """A full disk behind it, or a reader that is gone, changes no status and ends nothing."""
    fresh()
    with open("/dev/full", "wb") as full:
        done = subprocess.run([fronts.mlsd(), "--frob"], stderr=full, stdin=subprocess.DEVNULL, timeout=SECONDS)
    same(done.returncode, 2)
    with Front() as front:
        front.run.stderr.close()
        put(fronts.USERS, b"0 = zoe\n")
        front.run.send_signal(signal.SIGHUP)
        comes(lambda: any(what == "refused" for _, what, _ in told()), True)
        same(front.client().ask("ann get-read plans"), "yes")
        front.run.terminate()
        same(front.run.wait(SECONDS), 0)


def an_end_before_it_is_ready():
    """SIGTERM ends mlsd at once where its core isn't ready yet: nobody has asked anything."""
    fresh()
    put(fronts.USERS, ALL)
    words = ["sh", "-c", "echo $$ >core.pid; exec sleep 600", *core()[1:]]
    asked = [fronts.mlsd(), "--socket", SOCKET, "--users", fronts.USERS, "--", *words]
    run = subprocess.Popen(asked, stdin=subprocess.DEVNULL)
    try:
        comes(lambda: os.path.exists("core.pid") and content("core.pid").endswith(b"\n"), True)
        run.send_signal(signal.SIGHUP)
        time.sleep(0.1)
        same(run.poll(), None)
        run.terminate()
        same(run.wait(SECONDS), -signal.SIGTERM)
    finally:
        run.kill()
        os.kill(int(content("core.pid")), signal.SIGKILL)
        os.remove("core.pid")


def a_drain():
    """SIGTERM: what was asked is answered, and the front ends with 0 once its core has."""
    fresh()
    with Front() as front:
        client = front.client()
        client._send(b"ann get-read plans\n" * 60)
        same(client._line(), "yes")
        same(front.end(), (0, b""))
        same([client._line() for _ in range(59)], ["yes"] * 59)
    same((len(entries()), told()[-1][2]), (60, "next 2 core exit status: 0"))


def a_socket_that_is_passed():
    """As under systemd: who connected before mlsd was there is served; its core has neither the socket nor the
    notices; it tells when it is ready and when it ends, and leaves the socket where it is."""
    fresh()
    with socket.socket(socket.AF_UNIX) as listener:
        listener.bind(SOCKET)
        listener.listen(9)
        early = connected()
        with Front(socket_words=(), listener=listener) as front:
            early.sendall(b"ann get-read plans\n")
            same(received(early, 2), b"session 1\nyes\n")
            pid = front.core_pid()
            with open(f"/proc/{pid}/environ", "rb") as file:
                names = {it.split(b"=")[0] for it in file.read().split(b"\0")}
            same(names & {b"LISTEN_PID", b"LISTEN_FDS", b"NOTIFY_SOCKET"}, set())
            files = [os.readlink(f"/proc/{pid}/fd/{fd}") for fd in (0, 1)]
            others = [os.readlink(f"/proc/{front.run.pid}/fd/{fd}") for fd in (3,)]
            passed_on = [os.readlink(f"/proc/{pid}/fd/{fd}") for fd in os.listdir(f"/proc/{pid}/fd") if int(fd) > 2]
            assert others[0].startswith("socket:") and others[0] not in files + passed_on, (others, files, passed_on)
            front.run.terminate()
            assert front.notices.has("STOPPING=1", lambda: True)
            same(front.ended(), (0, b""))
        assert os.path.exists(SOCKET)
        early.close()


def entry_numbers():
    """Over a core with --numbers each answer has its entry's."""
    fresh()
    with Front("--release-on-close", words=core("--numbers")) as front:
        client = front.client()
        asked = ["ann get-read plans", "ann check read plans", "bob get-read memo", "? ann get-read plans"]
        same([client.ask(line) for line in asked], ["yes 0", "held", "no star 1", "? yes"])
        same(client.ask("ann release read plans"), "yes 2")


def calls_of_a_client():
    """The calls of the package's client: each action is asked, and journalled as its session's, with the answer that it
    tells; what isn't asked is an exception."""
    fresh()
    with Front(words=core("--numbers")) as front:
        client = front.client()
        answers = [
            client.get("sec", "write", "root"), client.create("sec", "root", "S:A", "lo"),
            client.give("sec", "append", "bob", 4), client.get("bob", "append", 4), client.relabel("sec", 4, "S:A"),
            client.rescind("sec", "append", "bob", 4), client.delete("sec", 4), client.release("sec", "write", "root"),
            client.level("bob", "C"), client.get("bob", "read", 4), client.get("bob", "read", "plans"),
        ]  # fmt: skip
        texts = ["yes", "created 4", *["yes"] * 7, "undefined", "no discretionary"]
        same([(it.number, str(it)) for it in answers], [*enumerate(texts)])
        same([client.check("bob", "read", "memo"), bool(client.get("bob", "read", "memo"))], [False, True])
        same([client.check("bob", "read", "memo"), client.check(1, "read", 1)], [True, False])
        requests = mls.Get("ann", "read", "plans"), mls.Delete("ann", 0)
        same([str(client.decide(it)) for it in requests], ["yes", "no root"])
        for call, kind in (
            (lambda: client.delete("zoe", "plans"), mls.NotYours),
            (lambda: client.delete("ann", "none"), mls.UnknownName),
            (lambda: client.decide(mls.Level("ann", "Q")), mls.BadRequest),
        ):
            try:
                assert False, f"{call()} is answered"
            except kind:
                pass
    same(sessions_of_entries(), [client.session] * 12)
    same(entries(), [
        "2 get-write 0 yes", "2 create 0 2:0 0 created 4", "2 give append 1 4 yes", "1 get-append 4 yes",
        "2 relabel 4 2:0 yes", "2 rescind append 1 4 yes", "2 delete 4 yes", "2 release write 0 yes", "1 level 1 yes",
        "1 get-read 4 undefined", "1 get-read 1 no discretionary", "1 get-read 2 yes",
    ])  # fmt: skip


CHECKS = [
    calls_of_a_client,
    users_files_that_are_refused,
    tests_beside_the_code,
    words_that_are_refused,
    lines_and_their_ends,
    numbers_of_sessions,
    what_the_sessions_file_says,
    one_front_a_journal_and_a_socket,
    cores_that_end,
    standard_error_that_takes_nothing,
    an_end_before_it_is_ready,
    a_drain,
    a_socket_that_is_passed,
    entry_numbers,
]
AS_ROOT = [who_may_ask, rules_of_users_and_groups, root_of_a_namespace, names_of_users, limits_of_clients]
OVER_THE_SHIM = [a_failed_append_is_5]
