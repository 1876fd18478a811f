#!/usr/bin/env python3
"""Where a crate's check spends its time: seconds a function, the slowest first.

    bench/slow.py NAME [--test]

The crate is checked from nothing with one job, over libraries that are built; with --test its tests too. The toolchain writes
a file for each part of a function's proof as it goes, so the time from one file to the next is what that part took. For each
function the sum is printed, and beside it what of it went into borrows and drops, which grow with the ways out of the function
times the owned values that are alive there times the size of their types.

What checks kept in out/ is put back at the end.
Nothing else should work on the machine meanwhile.
"""
import collections
import os
import re
import shutil
import subprocess
import sys

TOP = os.path.dirname(os.path.dirname(os.path.realpath(__file__)))
SHOWN = 40


def checked(crate, *words):
    """Checks the crate, and shows what the check says where it fails."""
    ran = subprocess.run(["rt", "check", "--jobs", "1", *words], cwd=crate, stdin=subprocess.DEVNULL, capture_output=True, text=True)
    if ran.returncode:
        sys.exit(ran.stdout + ran.stderr)


def files_below(folder):
    """The files that a check wrote, each with the second in which it did, the first first."""
    found = []
    for at, _, names in os.walk(folder):
        found += [(os.stat(f"{at}/{name}").st_mtime, name) for name in names if name.endswith(".oantt")]
    return sorted(found)


def function_of(name):
    """The function that a file is part of, as scripts.served of Rattle-mls_tests-proofs.scripts.served.Code.Mir.decls.oantt; else the file."""
    path = re.sub(r"^Rattle-\w+-(proofs|specs\.contracts)\.", "", name.removesuffix(".oantt"))
    function = re.sub(r"(\.([A-Z]\w*|decls))+$", "", path)
    return function if path != name.removesuffix(".oantt") and not function[:1].isupper() else path


def show(files):
    """Prints the functions of the files, by their seconds."""
    seconds, borrows = collections.Counter(), collections.Counter()
    for (before, _), (after, name) in zip(files, files[1:]):
        seconds[function_of(name)] += after - before
        borrows[function_of(name)] += (after - before) * (".Lts" in name)
    print(f"{sum(seconds.values()):.0f} s in all, {sum(borrows.values()):.0f} s of borrows and drops")
    for function, spent in seconds.most_common(SHOWN):
        print(f"{spent:7.1f}  {borrows[function]:7.1f}  {function}")


def main(name, *words):
    crate = f"{TOP}/crates/{name}"
    kept, aside = f"{crate}/out/incremental", f"{crate}/out/kept"
    # (this builds the libraries below, and proves nothing of the crate)
    checked(crate, "--only=", *words)
    if os.path.isdir(kept):
        os.rename(kept, aside)
    try:
        checked(crate, *words)
        show(files_below(kept))
    finally:
        shutil.rmtree(kept, ignore_errors=True)
        if os.path.isdir(aside):
            os.rename(aside, kept)


if __name__ == "__main__":
    if len(sys.argv) < 2 or not os.path.isdir(f"{TOP}/crates/{sys.argv[1]}/src") or sys.argv[2:] not in ([], ["--test"]):
        sys.exit(__doc__)
    main(*sys.argv[1:])
