"""Journals over the standard start for .ci/check-runs: what each is refused for, or that it replays.

The faults are those of docs/FORMATS.md, "Entry lines" and "The program".
"""


def releases(count):
    """Entries of so many requests that are granted: a subject gives up an access that it doesn't hold."""
    return b"".join(b"%d 0 0 release write 1 yes\n" % number for number in range(count))


# A subject climbs to read, and may climb down once it has released.
CLIMB = (b"0 0 1 get-read 2 no star\n1 0 1 level 1 yes\n2 0 1 get-read 2 yes\n3 0 1 level 0 no star\n"
         b"4 0 1 release read 2 yes\n5 0 1 level 0 yes\n")

# What is asked, a journal, and what is told of it: a number of entries where it replays, else a fault.
REPLAYS = [("no entry", b"", 0), ("a whole journal", CLIMB, 6),
           ("a journal that was cut after a line", CLIMB[: CLIMB.index(b"3 0")], 3),
           ("a session's number is free", b"0 4294967295 1 get-read 2 no star\n1 7 1 level 1 yes\n", 2),
           ("a forged reply", CLIMB.replace(b"3 0 1 level 0 no star", b"3 0 1 level 0 yes"),
            b"replay 2 Differs at 3 expected no star"),
           ("another reason", b"0 0 1 get-read 2 no simple\n", b"replay 2 Differs at 0 expected no star"),
           ("a denial that is due no more", b"0 0 0 get-read 1 no star\n", b"replay 2 Differs at 0 expected yes"),
           ("a request that names what isn't there", releases(9) + b"9 0 9 get-read 1 yes\n",
            b"replay 2 Differs at 9 expected undefined"),
           ("an object that was made", releases(13) + b"13 0 2 get-write 0 yes\n14 0 2 create 0 0 1 no full\n",
            b"replay 2 Differs at 14 expected created 4"),
           ("an object of another number", b"0 0 2 get-write 0 yes\n1 0 2 create 0 0 1 created 5\n",
            b"replay 2 Differs at 1 expected created 4"),
           ("an entry taken out", b"0 0 1 get-read 2 no star\n2 0 1 get-read 2 yes\n3 0 1 level 0 no star\n",
            b"replay 1 Number at 1"),
           ("an entry twice", b"0 0 1 get-read 2 no star\n0 0 1 get-read 2 no star\n", b"replay 1 Number at 1"),
           ("the number of an entry comes before its reply", b"1 0 1 get-read 2 yes\n", b"replay 1 Number at 0"),
           ("carriage returns", b"0 0 1 get-read 2 no star\r\n1 0 1 level 1 yes\r\n", b"line 1: entry 4 BadReply"),
           ("no UTF-8", b"\xff 0 1 get-read 2 no star\n1 0 1 level 1 yes\n", b"line 1: entry 1 BadForm"),
           ("a last line without its newline", b"0 0 1 get-read 2 no star\n1 0 1 level 1 yes",
            b"line 2: entry 1 BadForm"), ("an empty line", b"\n", b"line 1: entry 1 BadForm"),
           ("a number that isn't written so", releases(1) + b"01 0 0 release write 1 yes\n",
            b"line 2: entry 2 BadNumber"),
           ("categories that don't ascend", releases(29) + b"29 0 1 level 1:1,0 yes\n", b"line 30: entry 3 BadLabel"),
           ("no reply", releases(3) + b"3 0 0 release write 1 maybe\n", b"line 4: entry 4 BadReply"),
           ("a line that is refused comes before an entry that differs",
            b"0 0 1 get-read 2 yes\n1 0 1 level 1 yes\n00 0 1 level 1 yes\n", b"line 3: entry 2 BadNumber")]
