"""Multilevel folders: behind one name a folder for each label, of which a session has the one of its level."""
import os
import subprocess

from rows_faults import checked
from world import MLSFS, same


def test_multilevel_folders(world):
    """Each session has the folder of its own level; that of another by its label, where it may see it."""
    world.levels("tmp", "public_any", "secret_any")
    high, low, sys = world.three()
    same([(low, "listed", ["tmp"]), (low, "put", "tmp/a", b"low", "put"), (high, "listed", "tmp", []),
          (high, "put", "tmp/a", b"attack", "put"), (high, "mkdir", "tmp/b", 0o777, None),
          (low, "listed", "tmp", ["a"]), (low, "get", "tmp/a", b"low"), (sys, "get", "tmp/a", b"low"),
          (high, "listed", "tmp", ["a", "b"]), (high, "get", "tmp/a", b"attack"),
          (high, "getxattr", "tmp", "user.mls", b"secret_any"), (low, "getxattr", "tmp", "user.mls", b"public_any"),
          (high, "get", "tmp@public_any/a", b"low"), (high, "put", "tmp@public_any/a", b"x", "EACCES"),
          (low, "get", "tmp@public_any/a", b"low"), (sys, "get", "tmp@secret_any/a", b"attack"),
          (low, "get", "tmp@secret_any/a", "ENOENT"), (low, "stat", "tmp@secret_any", "ENOENT"),
          (low, "stat", "tmp@none", "ENOENT"), (low, "stat", "tmp/..@public_any", "ENOENT"),
          (low, "listed", "tmp@public_any/..", ["tmp"]),
          (high, "rename", "tmp/a", "tmp@public_any/c", "EACCES"), (low, "stat", "tmp/public_any", "ENOENT")])


def test_a_level_that_rises_in_a_multilevel_folder(world):
    """The name then has the other folder; what was open or the working folder stays, and is decided by its label."""
    world.levels("tmp", "public_any", "secret_any")
    ann, high = world.session("games"), world.session("games", "secret")
    same([(high, "put", "tmp/s", b"attack", "put"), (ann, "put", "tmp/a", b"low", "put"),
          (ann, "listed", "tmp", ["a"])])
    here = ann.open("tmp", os.O_RDONLY)
    same([(ann, "put", ".mls", b"secret\n", "put"), (ann, "listed", "tmp", ["s"]), (ann, "get", "tmp/s", b"attack"),
          (ann, "listed", f"/proc/self/fd/{here}", ["a"]), (ann, "put", f"/proc/self/fd/{here}/b", b"x", "EACCES"),
          (ann, "put", ".mls", b"public\n", "EACCES")])


def test_a_multilevel_folder_stays(world):
    """It is not removed, replaced, made again or relabelled; without a folder of the level it isn't there."""
    world.levels("tmp", "public_any", "secret_any")
    world.levels("low", "public_any")
    high, low, sys = world.three()
    same([(low, "rmdir", "tmp", "ENOTEMPTY"), (low, "mkdir", "tmp", 0o777, "EEXIST"), (low, "mkdir", "d", 0o777, None),
          (low, "rename", "d", "tmp", "ENOTEMPTY"), (low, "setxattr", "tmp", "user.mls", b"secret_any", "EACCES"),
          (sys, "setxattr", "tmp", "user.mls", b"secret_any", "EACCES"), (high, "rmdir", "tmp", "EACCES"),
          (high, "rename", "tmp", "t", "EACCES"), (low, "listed", ["d", "low", "tmp"]), (high, "listed", ["d", "tmp"]),
          (high, "stat", "low", "ENOENT"), (high, "listed", "low@public_any", [])])


def test_a_label_that_an_administrator_sets(world):
    """By mlsfs --label a file has another label for all sessions at once."""
    _, low, _ = world.three()
    same([(low, "put", "f", b"low", "put"), (low, "put", "g", b"low", "put")])
    fd = low.open("f", os.O_RDONLY)
    same([(low, "pread", fd, 3, 0, b"low")])
    subprocess.run([MLSFS, "--label", f"{world.back}/files/f", "secret_any"], check=True)
    same([(low, "pread", fd, 3, 0, "EACCES"), (low, "listed", ["g"])])
    subprocess.run([MLSFS, "--label", f"{world.back}/files/f", "public_any"], check=True)
    same([(low, "pread", fd, 3, 0, b"low"), (low, "listed", ["f", "g"])])
    done = subprocess.run([MLSFS, "--label", f"{world.back}/files/none", "public_any"], capture_output=True)
    assert (done.returncode, done.stderr) == (1, b"mlsfs: No such file or directory\n"), done


def test_the_making_and_the_check_of_a_multilevel_folder(world):
    """An empty folder becomes one, with the first label; the check tells of a folder of it that is gone."""
    world.levels("tmp", "public_any", "secret_any")
    files = f"{world.back}/files"
    assert checked(world) == (0, []), checked(world)
    os.rmdir(f"{files}/tmp/secret_any")
    assert checked(world) == (1, ["files/tmp: has no folder with the label secret_any"]), checked(world)
    os.mkdir(f"{files}/bare")
    for words, wanted in (([f"{files}/bare", "not/a/label"], 1), ([f"{files}/tmp", "public_any"], 1), ([files], 2),
                          ([f"{files}/bare", "secret_any"], 0)):
        done = subprocess.run([MLSFS, "--levels", *words], capture_output=True)
        assert (done.returncode, bool(done.stderr)) == (wanted, wanted > 0), (words, done)
    assert os.getxattr(f"{files}/bare", "trusted.mls") == b"secret_any"
