"""Runs mls-replica, and lets calls on one of its files fail.

    failing.py CALL NAME ERROR COUNT WORD ..

CALL is fsync, write or rename; NAME the end of the file's name, or of the folder's; ERROR as in errno; the first COUNT
of these calls are made. What the replica says and how it ends is its own.
"""
import errno
import os
import runpy
import sys

sys.dont_write_bytecode = True
REPLICA = f"{os.path.dirname(os.path.dirname(os.path.realpath(__file__)))}/mls-replica"
CALL, NAME, ERROR, COUNT = sys.argv[1:5]
REAL, LEFT = getattr(os, CALL), [int(COUNT)]


def failing(what, *more, **how):
    name = os.readlink(f"/proc/self/fd/{what}") if isinstance(what, int) else what
    if name.endswith(NAME):
        LEFT[0] -= 1
        if LEFT[0] < 0:
            number = getattr(errno, ERROR)
            raise OSError(number, os.strerror(number))
    return REAL(what, *more, **how)


setattr(os, CALL, failing)
sys.argv = [REPLICA, *sys.argv[5:]]
runpy.run_path(REPLICA, run_name="__main__")
