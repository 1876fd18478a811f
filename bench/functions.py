"""Prints the functions that spend the most: of two files of callgrind what the second counts more than the first, by a count.

    functions.py BEFORE AFTER COUNT ROWS
"""
import collections
import re
import sys


def spent(file):
    """The instructions of each function itself."""
    names, found, function, is_call = {}, collections.Counter(), None, False
    for line in open(file, encoding="utf-8", errors="replace"):
        named = re.match(r"(c?)fn=\((\d+)\)(?: (.*))?", line)
        if named:
            names.setdefault(named[2], named[3])
            function = function if named[1] else names[named[2]]
        elif line.startswith("calls="):
            is_call = True
        elif re.match(r"[+*-]?\d* ?\d", line):
            # (the line behind a call tells what was spent in it)
            found[function] += 0 if is_call else int(line.split()[1])
            is_call = False
    return found


def main(before, after, count, rows):
    more = spent(after)
    more.subtract(spent(before))
    whole = sum(more.values()) / count
    for name, number in more.most_common(rows):
        print(f"    {number / count:9.1f}  {number / count / whole:4.0%}  {name[:110]}")


if __name__ == "__main__":
    main(*sys.argv[1:3], *map(int, sys.argv[3:]))
