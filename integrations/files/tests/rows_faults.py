"""What is killed, what is full, and what a crash may leave."""
import os
import signal
import subprocess
import time

from rows_names import laid
from world import MLSFS, same


def checked(world, folder=None):
    words = [MLSFS, "--socket", world.socket, "--check", folder or world.back]
    done = subprocess.run(words, capture_output=True, text=True)
    return done.returncode, done.stdout.splitlines()


def test_a_killed_mlsd(world):
    """All is EIO, never a yes, to the session's end; a login after its start goes on."""
    high, low, _ = laid(world)
    fd = high.open("s/y", os.O_RDONLY)
    world.kill_mlsd()
    rows = [(high, "pread", fd, 6, 0, "EIO"), (high, "get", "f", "EIO"), (low, "get", "f", "EIO"),
            (low, "put", "f", b"x", "EIO"), (low, "listed", "EIO"), (high, "put", ".mls", b"public\n", "EIO")]
    same(rows)
    world.start()
    same(rows)
    world.end_sessions()
    mate = world.session("games", "secret")
    same([(mate, "get", "s/y", b"attack at dawn")])


def test_a_killed_core(world):
    """The same where mls dies, and mlsd with it."""
    high, _, _ = laid(world)
    with open(f"/proc/{world.mlsd.pid}/task/{world.mlsd.pid}/children", encoding="ascii") as file:
        os.kill(int(file.read().split()[0]), signal.SIGKILL)
    world.mlsd.wait(60)
    same([(high, "get", "f", "EIO")])
    world.start()


def test_a_killed_mlsfs(world):
    """Its session has nothing; others go on; and no file is without a label, whenever it is killed."""
    _, low, _ = laid(world)
    for k in range(6):
        busy = world.session("man")
        busy.pipe.send(("run", (["sh", "-c", f"mkdir k{k}; while :; do echo x > k{k}/a; mkdir k{k}/b; ln -s x k{k}/c; "
                                 f"rm -r k{k}/*; done"],)))
        time.sleep(0.1 + 0.05 * k)
        os.kill(busy.server, signal.SIGKILL)
        os.killpg(busy.process.pid, signal.SIGKILL)
        same([(low, "get", "f", b"public")])
    status, lines = checked(world)
    assert all(line.endswith("can be removed") for line in lines), lines


def test_a_stop_that_is_asked_for(world):
    """What ends a service or a login asks all of its processes to end: mlsfs serves until the last of them has."""
    _, low, _ = laid(world)
    for number in (signal.SIGTERM, signal.SIGHUP):
        os.kill(low.server, number)
        time.sleep(0.1)
        same([(low, "put", "last", b"words", "put"), (low, "get", "last", b"words")])


def test_a_second_mlsfs(world):
    """A session has one, ever: another would have a level of its own."""
    ann = world.session("games", "secret", is_twice=True)
    same([(ann, "status_of_second", 1), (ann, "get", ".mls", b"games secret\n")])
    os.kill(ann.server, signal.SIGKILL)
    with open(f"/proc/{ann.process.pid}/sessionid", encoding="ascii") as file:
        assert os.path.exists(f"/run/mlsfs/{file.read()}"), "another may follow"


def test_a_session_that_ends(world):
    """With its last process the mount ends, mlsfs with it, and what it held is released."""
    laid(world)
    servers = [it.server for it in world.sessions]
    world.end_sessions()
    end = time.monotonic() + 20
    while any(os.path.exists(f"/proc/{it}/fd/0") for it in servers) and time.monotonic() < end:
        time.sleep(0.02)
    assert not any(os.path.exists(f"/proc/{it}/fd/0") for it in servers), "mlsfs lives"


def test_the_check_of_a_folder(world):
    """Files without a label, with one that no container has, of another kind; what was being made."""
    clean = checked(world)
    assert clean == (0, []), clean
    files, staging = f"{world.back}/files", f"{world.back}/staging"
    for name in ("bare", "odd"):
        with open(f"{files}/{name}", "w", encoding="ascii"):
            pass
    os.setxattr(f"{files}/odd", "trusted.mls", b"top_any")
    os.mkfifo(f"{files}/pipe")
    os.mkdir(f"{staging}/1-2")
    found = checked(world)
    os.rmdir(f"{staging}/1-2")
    low = world.session("man")
    same([(low, "listed", []), (low, "get", "bare", "ENOENT"), (low, "get", "odd", "ENOENT"),
          (low, "stat", "pipe", "ENOENT"), (low, "put", "bare", b"x", "EACCES"), (low, "unlink", "odd", "ENOENT")])
    assert (found[0], sorted(found[1])) == (1, [
        "files/bare: has no label", "files/odd: has a label that the monitor has no container for",
        "files/pipe: is no file, folder or symbolic link", "staging/1-2: was being made, and can be removed"]), found


def test_a_full_disk(world):
    """What has no room is told ENOSPC, a label is never missing, and it goes on once there is room."""
    disk = f"{world.folder}/disk"
    os.mkdir(disk)
    subprocess.run(["mount", "-t", "tmpfs", "-o", "size=512k,nr_inodes=60", "none", disk], check=True)
    try:
        world.make(f"{disk}/back")
        low = world.session("man", back=f"{disk}/back")
        made = [low.put(f"n{k}", b"x" * 16000) for k in range(70)]
        assert "ENOSPC" in made and made[0] == "put", made
        status, lines = checked(world, f"{disk}/back")
        assert status == 0, lines
        same([(low, "unlink", "n0", None), (low, "unlink", "n1", None), (low, "put", "again", b"y", "put")])
        world.end_sessions()
    finally:
        subprocess.run(["umount", "-l", disk], check=True)
