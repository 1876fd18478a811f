"""Runs the guard, and removes a folder just before it renames a message into it.

    vanishing.py FOLDER WORD ..
"""
import os
import runpy
import sys

sys.dont_write_bytecode = True
GUARD = f"{os.path.dirname(os.path.dirname(os.path.realpath(__file__)))}/guard"
FOLDER, REAL = sys.argv[1], os.rename


def rename(old, new, **how):
    if os.path.isdir(FOLDER):
        os.rmdir(FOLDER)
    return REAL(old, new, **how)


os.rename = rename
sys.argv = [GUARD, *sys.argv[2:]]
runpy.run_path(GUARD, run_name="__main__")
