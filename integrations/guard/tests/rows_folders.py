"""What may lie in the folders, and what the guard does with it."""
import os
import shutil
import signal
import socket
import stat
import subprocess

from judging import LIVES, judge
from world import GUARD, MLS, Skipped, World, content, crashing, put, same

LIMIT = 1000


def test_a_message_at_the_limit(_):
    with World() as world:
        for number, length in enumerate((0, 1, LIMIT - 1, LIMIT, LIMIT + 1, 70 * LIMIT)):
            world.send(f"m{number}", length * b"x")
        same(world.run("--limit", str(LIMIT)), (0, ""))
        judge(world, lambda message: len(message) <= LIMIT)
        same(world.told(5)["copied"], ["unfit", "too-long"])


NAMES = ["-rf", "*", "a b", "new\nline", "b\\n", "%41", "n" * 240, os.fsdecode(b"\xff\xfe\x01"), "ünïcode", "'; rm x"]


def test_names_of_odd_bytes(_):
    """A name is in the log, so that it can be told what it was; it never comes down."""
    with World() as world:
        for number, name in enumerate(NAMES):
            world.send(name, b"%d" % number)
        same(world.run(), (0, ""))
        same(len(judge(world)), len(NAMES))


def test_what_is_no_file_stays(_):
    """A link, a folder, a pipe and a socket stay where they are, and are told of once; what a link leads to isn't read.
    A name with a dot before it isn't looked at."""
    with World() as world:
        put(f"{world.folder}/elsewhere", b"far")
        os.symlink(f"{world.folder}/elsewhere", f"{world.high}/link")
        os.symlink(f"{world.folder}/nowhere", f"{world.high}/dangling")
        os.mkdir(f"{world.high}/folder")
        os.mkfifo(f"{world.high}/pipe")
        with socket.socket(socket.AF_UNIX) as it:
            it.bind(f"{world.high}/socket")
        put(f"{world.high}/.dot", b"not yet")
        world.send("m", b"lunch")
        for _ in range(2):
            same(world.run(), (0, ""))
        others = ["dangling", "folder", "link", "pipe", "socket"]
        same([more[0] for number, what, more in world.log() if what == "skipped"], 2 * others)
        same(sorted(os.listdir(world.high)), [".dot", *others])
        world.receive()
        same(world.received, {"0000000001": b"lunch"})


def test_a_name_that_becomes_a_link(_):
    """After it was looked at: the link is taken, and not followed."""
    for made, why in ((lambda path: os.symlink("/etc/passwd", path), "link"), (os.mkdir, "no-file"),
                      (os.mkfifo, "no-file")):
        with World() as world:
            world.send("m", b"lunch")
            world.dies(" copied ")
            os.remove(f"{world.state}/spool/1.raw")
            made(f"{world.state}/spool/1.raw")
            same(world.run(), (0, ""))
            same((world.told(1)["copied"], world.told(1)["closed"]), (["unfit", why], ["refused"]))
            same(world.granted()[1], LIVES["unfit"])
            world.nothing_moved()


NOBODY = ["setpriv", "--reuid=65534", "--regid=65534", "--clear-groups"]


def can_be_nobody():
    words = [[*NOBODY, *it] for it in ((MLS, "--version"), (GUARD, "--help"))]
    return not os.getuid() and not any(subprocess.run(it, capture_output=True, check=False).returncode for it in words)


def test_files_and_folders_of_others(_):
    """A file that the guard may not read is set aside; a folder that it may not move stays; where it may not take
    files out of the high folder it ends, and takes them later."""
    if not shutil.which("setpriv") or not can_be_nobody():
        raise Skipped("the checks can't run the guard as another user")
    with World() as world:
        os.chmod(world.folder, 0o755)
        for path in (world.high, world.low, world.state):
            os.chown(path, 65534, 65534)
        world.send("m", b"lunch")
        os.chmod(f"{world.high}/m", 0o600)
        same(world.run(before=[*NOBODY, GUARD]), (0, ""))
        same((world.told(1)["copied"], world.told(1)["closed"]), (["unfit", "unreadable"], ["refused"]))
        world.send("o", b"dinner")
        same(world.run(before=[*NOBODY, *crashing("get-write outbox")])[0], -signal.SIGKILL)
        os.remove(f"{world.high}/o")
        os.mkdir(f"{world.high}/o")
        same(world.run(before=[*NOBODY, GUARD]), (0, ""))
        same((world.told(2)["closed"], os.listdir(world.high)), (["gone"], ["o"]))
        os.rmdir(f"{world.high}/o")
        world.send("o", b"dinner")
        os.chown(world.high, 0, 0)
        same(world.run(before=[*NOBODY, GUARD]), (1, "guard: [Errno 13] Permission denied: 'o' -> '3.raw'\n"))
        os.chown(world.high, 65534, 65534)
        same(world.run(before=[*NOBODY, GUARD]), (0, ""))
        judge(world, lambda message: message == b"dinner")


def test_a_message_that_its_sender_takes_back(_):
    """Before the guard has it."""
    with World() as world:
        world.send("m", b"lunch")
        world.dies("get-write outbox")
        os.remove(f"{world.high}/m")
        same(world.run(), (0, ""))
        same((world.told(1)["closed"], world.granted()[1]), (["gone"], LIVES["gone"]))
        world.nothing_moved()
        # (the number isn't used again)
        world.send("m", b"dinner")
        same(world.run(), (0, ""))
        same(sorted(judge(world)), ["m"])


def test_a_file_that_its_sender_still_has_open(_):
    """What it writes after the copy was made goes nowhere."""
    with World() as world:
        with open(f"{world.high}/m", "wb", buffering=0) as file:
            file.write(b"lunch")
            world.sent["m"] = b"lunch"
            world.dies(" copied ")
            file.write(b" and")
            world.dies(" verdict ")
            file.write(b" SECRET")
            world.sent["m"] = b"lunch and"
            same(world.run(), (0, ""))
        judge(world)


def full_folder(path):
    os.mkdir(path)
    put(f"{path}/x", b"mine")


# What somebody lays into the low folder.
OBSTACLES = [lambda path: put(path, b"mine"), os.mkdir, full_folder, os.mkfifo,
             lambda path: os.symlink("nowhere", path), lambda path: os.symlink("/etc/passwd", path)]


def tree(folder):
    """What is in a folder, with what each link says and each file has."""
    found = {}
    for where, folders, names in os.walk(folder):
        for path in (f"{where}/{name}" for name in (*folders, *names)):
            mode = os.lstat(path).st_mode
            text = os.readlink(path) if stat.S_ISLNK(mode) else content(path) if stat.S_ISREG(mode) else b""
            found[os.path.relpath(path, folder)] = mode, text
    return found


def test_a_name_that_is_low_already(_):
    """Whatever it is, it stays as it is; that message is kept with the refused ones, and the next goes on."""
    for make in OBSTACLES:
        with World() as world:
            world.obstruct("0000000001", "m", make)
            before = tree(world.low)
            world.send("m", b"lunch")
            world.send("n", b"dinner")
            same(world.run(), (0, ""))
            same((world.told(1)["blocked"], world.told(1)["closed"]), (["0000000001"], ["refused"]))
            judge(world)
            same((world.received, tree(world.low)), ({"0000000002": b"dinner"}, before))


def test_a_name_that_becomes_low_behind_the_look(_):
    """At each moment: while a message is under way, after a crash, and between the look and the rename."""
    for make in OBSTACLES:
        for when in ("writer get-append", "writer release read", "release append inbox"):
            with World() as world:
                world.send("m", b"lunch")
                world.dies(when)
                if when == "release append inbox":
                    # (it has come down by then, and is moved away)
                    world.receive()
                    make(f"{world.low}/0000000001")
                    world.obstacles.add("0000000001")
                else:
                    world.obstruct("0000000001", "m", make)
                before = tree(world.low)
                before.pop(".0000000001", None)
                world.send("n", b"dinner")
                same((when, *world.run()), (when, 0, ""))
                judge(world)
                same(tree(world.low), before)
    with World() as world:
        world.late = True
        world.obstacles |= {"0000000001", "0000000002"}
        world.blocked |= {"m", "n"}
        world.send("m", b"lunch")
        world.send("n", b"dinner")
        same(world.run(before=crashing(0, "kill", True))[0], 0)
        judge(world)
        same({it: content(f"{world.low}/{it}") for it in world.obstacles}, dict.fromkeys(world.obstacles, b"mine"))
        same((world.told(1)["blocked"], world.told(2)["blocked"]), (["0000000001"], ["0000000002"]))


def test_a_dotted_name_that_is_low_already(_):
    """A file there is written anew; what is no file stays."""
    for make in OBSTACLES:
        with World() as world:
            make(f"{world.low}/.0000000001")
            stays = stat.S_ISDIR(os.lstat(f"{world.low}/.0000000001").st_mode)
            if stays:
                world.obstacles.add(".0000000001")
                world.blocked.add("m")
            world.send("m", b"lunch")
            world.send("n", b"dinner")
            same(world.run(), (0, ""))
            judge(world)
            same(world.told(1).get("blocked"), [".0000000001"] if stays else None)


def test_a_dotted_name_that_comes_back(_):
    """After the message has its name: it went down once, and what is dotted goes."""
    for at in ("release append inbox", "relabeller delete"):
        with World() as world:
            world.send("m", b"lunch")
            world.dies(at)
            put(f"{world.low}/.0000000001", b"mine")
            same(world.run(), (0, ""))
            if at == "relabeller delete":
                world.obstacles.add(".0000000001")
            judge(world)
            same(world.received, {"0000000001": b"lunch"})


def test_a_dotted_name_in_a_low_folder_of_others(_):
    """Where the guard may not take away what is there."""
    if not shutil.which("setpriv") or not can_be_nobody():
        raise Skipped("the checks can't run the guard as another user")
    with World() as world:
        os.chmod(world.folder, 0o755)
        for path in (world.high, world.state):
            os.chown(path, 65534, 65534)
        os.chmod(world.low, 0o1777)
        world.obstruct(".0000000001", "m")
        world.send("m", b"lunch")
        world.send("n", b"dinner")
        same(world.run(before=[*NOBODY, GUARD]), (0, ""))
        same(world.told(1)["blocked"], [".0000000001"])
        judge(world)


def test_a_message_that_is_taken_from_the_low_folder_at_once(_):
    """And then the guard dies: it isn't written again."""
    with World() as world:
        world.send("m", b"lunch")
        world.dies("release append inbox")
        world.receive()
        same(world.received, {"0000000001": b"lunch"})
        same(world.run(), (0, ""))
        judge(world)


def test_a_copy_that_was_changed(_):
    """Between verdict and relabelling: what was checked goes down, or nothing."""
    with World() as world:
        world.send("m", b"lunch")
        world.dies("relabeller relabel")
        put(f"{world.state}/spool/1", b"a SECRET")
        same(world.run(), (3, f"guard: {world.state}/spool/1: is not what was checked\n"))
        world.nothing_moved()


def test_a_low_folder_that_is_full(_):
    """The guard ends, and leaves no half of a message; once there is room it goes down."""
    with World() as world:
        words = ["mount", "-t", "tmpfs", "-o", "size=64k", "none", world.low]
        if os.getuid() or subprocess.run(words, capture_output=True, check=False).returncode:
            raise Skipped("no file system can be mounted here")
        try:
            world.send("long", 100_000 * b"x")
            world.send("short", b"lunch")
            for _ in range(2):
                same(world.run(), (1, "guard: [Errno 28] No space left on device\n"))
                world.nothing_moved()
            subprocess.run(["mount", "-o", "remount,size=1m", world.low], check=True)
            same(world.run(), (0, ""))
            same(len(judge(world)), 2)
        finally:
            subprocess.run(["umount", world.low], check=True)
