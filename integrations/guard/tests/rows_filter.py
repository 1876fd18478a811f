"""What the filter says, and what comes of it."""
import hashlib
import os
import shutil
import subprocess
import time

from judging import judge
from world import FILTER, Skipped, World, content, put, same

# What a filter does, and what the log has of it.
VERDICTS = [
    ("exit 0", ["yes", "0000000001"]), ("exit 1", ["no", "status-1"]), ("exit 77", ["no", "status-77"]),
    ("kill -SEGV $$", ["no", "signal-11"]), ("kill -KILL $$", ["no", "signal-9"]),
    ("cat >/dev/null; sleep 1000 & wait", ["no", "timeout"]), ("head -c 3 >/dev/null", ["yes", "0000000001"]),
    ("head -c 10000000 /dev/zero; echo wrong >&2; exit 3", ["no", "status-3"]),
    ("test -z \"$HOME$MLS_PROGRAM\" && test \"$PWD\" = /", ["yes", "0000000001"]),
    ("test \"$(cat)\" = lunch", ["yes", "0000000001"]),
]


def test_each_verdict(_):
    """Status 0 is a yes. A filter that says no, dies or hangs is a no."""
    for does, wanted in VERDICTS:
        with World() as world:
            world.write_filter(does)
            world.send("m", b"lunch")
            same((does, *world.run("--seconds", "1" if "sleep" in does else "60")), (does, 0, ""))
            same((does, world.told(1)["verdict"][:2]), (does, wanted))
            judge(world, lambda _: wanted[0] == "yes")


def test_a_filter_that_hangs_is_ended(_):
    """With what it has started."""
    with World() as world:
        world.write_filter(f"(echo $$; sh -c 'echo $$; exec sleep 1000') >{world.folder}/pids")
        world.send("m", b"lunch")
        same(world.run("--seconds", "1"), (0, ""))
        pids = content(f"{world.folder}/pids").split()
        assert len(pids) == 2, pids
        time.sleep(0.1)
        alive = [pid for pid in pids if os.path.exists(f"/proc/{int(pid)}") and b"sleep" in content(
            f"/proc/{int(pid)}/cmdline")]
        same(alive, [])


def test_the_digests_are_in_the_log(_):
    """That of the program, as it was when it ran, and that of the message."""
    with World() as world:
        for number, text in enumerate((FILTER, f"{FILTER} # another"), 1):
            world.write_filter(text)
            world.send(f"m{number}", b"lunch")
            same(world.run(), (0, ""))
            digests = [hashlib.sha256(it).hexdigest() for it in (b"lunch", content(world.filter))]
            same(world.told(number)["verdict"], ["yes", f"{number:010}", "sha256", digests[0], "filter", digests[1]])
        judge(world)


def test_a_filter_that_cannot_be_run(_):
    """It is no verdict: the guard ends, and the message goes on later."""
    with World() as world:
        world.send("m", b"lunch")
        put(f"{world.folder}/text", b"x")
        for program in (world.folder, f"{world.folder}/text"):
            status, said = world.run(filter_program=program)
            same((program, status, said.startswith("guard: ")), (program, 1, True))
            world.nothing_moved()
        assert "verdict" not in world.told(1)
        same(world.run(), (0, ""))
        judge(world)


def test_a_filter_that_is_gone(_):
    """Or its box, or what its first line names: somebody has to look."""
    with World() as world:
        world.send("m", b"lunch")
        put(f"{world.folder}/script", f"#!{world.folder}/none\n".encode(), 0o755)
        none, script = f"{world.folder}/none", f"{world.folder}/script"
        for said, flags, how in ((none, (), {"filter_program": none}), (none, ("--", none), {}),
                                 (script, (), {"filter_program": script})):
            same(world.run(*flags, **how), (3, f"guard: {said}: is gone\n"))
            world.nothing_moved()
        assert "verdict" not in world.told(1)
        same(world.run(), (0, ""))
        judge(world)


def test_a_box_stands_before_the_filter(_):
    with World() as world:
        world.write_filter("test \"$BOX\" = yes")
        world.send("m", b"lunch")
        same(world.run("--", "/usr/bin/env", "BOX=yes"), (0, ""))
        judge(world)


def box(world):
    """The words of README.md that shut a filter in."""
    words = "--unshare-all --die-with-parent --ro-bind /usr /usr --symlink usr/bin /bin --symlink usr/lib /lib " \
            "--symlink usr/lib64 /lib64 --ro-bind"
    return ["--", shutil.which("bwrap"), *words.split(), world.filter, world.filter]


def test_a_filter_in_a_box(_):
    """It reaches its message, and no folder."""
    with World() as world:
        words = [*box(world)[1:], "/bin/true"]
        if not shutil.which("bwrap") or subprocess.run(words, capture_output=True, check=False).returncode:
            raise Skipped("bubblewrap isn't installed, or may do nothing here")
        places = " ".join((world.high, world.low, world.state, "/etc/passwd"))
        world.write_filter(f"for it in {places}; do test ! -e $it || exit 1; done; {FILTER}")
        world.send("m", b"lunch")
        world.send("n", b"a SECRET")
        same(world.run(*box(world)), (0, ""))
        judge(world)
