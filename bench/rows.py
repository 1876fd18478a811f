#!/usr/bin/env python3
"""What the package for Python takes for a million rows: seconds, the least of five runs.

    MLS_LIBRARY=FILE bench/rows.py START

`decide_rows` decides a buffer of rows, `decide_labels` pairs of texts of which 32 differ, and `decide_label` one pair a
call, of which a hundredth as many are made. START is the standard start's file.
"""
import os
import random
import sys
import time

sys.path.insert(0, os.path.join(os.path.dirname(os.path.abspath(__file__)), "..", "python"))
import mls

ROWS = 1_000_000


def seconds(call):
    """The least time that a call takes."""
    times = []
    for _ in range(5):
        begun = time.perf_counter()
        call()
        times.append(time.perf_counter() - begun)
    return min(times)


def main(file):
    with open(file, "rb") as start:
        monitor = mls.Monitor.open(start.read())
    places = random.Random(1)
    security = [level + categories for level in "UCST" for categories in ("", ":A", ":B", ":A,B")]
    pairs = [(it, trust) for it in security for trust in ("lo", "hi")]
    asked = [places.choice(pairs) for _ in range(ROWS)]
    rows = monitor.rows(asked)
    print(f"decide_rows: {seconds(lambda: monitor.decide_rows('ann', 'read', rows)):.3f} s")
    print(f"decide_labels: {seconds(lambda: monitor.decide_labels('ann', 'read', asked)):.3f} s")
    few = asked[: ROWS // 100]
    each = seconds(lambda: [monitor.decide_label("ann", "read", *it) for it in few])
    print(f"decide_label, {len(few)} calls: {each:.3f} s")


if __name__ == "__main__":
    main(sys.argv[1])
