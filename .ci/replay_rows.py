"""Two journals over the standard start, worked out by hand, and what a replay says of them where they are changed."""

# Bob climbs to read memo, and may climb down once he has released it.
CLIMB = ["0 0 1 get-read 2 no star", "1 0 1 level 1 yes", "2 0 1 get-read 2 yes", "3 0 1 level 0 no star",
         "4 0 1 release read 2 yes", "5 0 1 level 0 yes"]

# Objects are made below one another and deleted with the uppermost, and their numbers aren't given again.
FAMILY = ["0 0 2 get-write 0 yes", "1 0 2 create 0 0 1 created 4", "2 0 2 give write 2 4 yes", "3 0 2 get-write 4 yes",
          "4 0 2 create 4 1 1 created 5", "5 0 2 give write 2 5 yes", "6 0 2 get-write 5 yes",
          "7 0 2 create 5 2:0 1 created 6", "8 0 2 give read 0 6 yes", "9 0 0 get-read 6 yes", "10 0 2 delete 4 yes",
          "11 0 0 get-read 6 undefined", "12 0 0 release read 5 undefined", "13 0 2 delete 0 no root",
          "14 0 2 create 0 0 1 created 7", "15 0 0 delete 1 no authority"]

# A journal, entries that stand in it in place of its own (each begins with its place), and what the replay says.
FORGED = [
    # another reply
    (CLIMB, ["0 0 1 get-read 2 no simple"], "2 Differs at 0 expected no star"),
    (CLIMB, ["1 0 1 level 1 undefined"], "2 Differs at 1 expected yes"),
    (CLIMB, ["2 0 1 get-read 2 created 2"], "2 Differs at 2 expected yes"),
    (CLIMB, ["3 0 1 level 0 yes"], "2 Differs at 3 expected no star"),
    # another request, to which the rules reply in another way
    (CLIMB, ["0 0 0 get-read 2 no star"], "2 Differs at 0 expected no integrity"),
    (CLIMB, ["0 0 9 get-read 2 no star"], "2 Differs at 0 expected undefined"),
    (CLIMB, ["0 0 1 get-read 77 no star"], "2 Differs at 0 expected undefined"),
    (CLIMB, ["1 0 1 level 2 yes"], "2 Differs at 1 expected no ceiling"),
    (CLIMB, ["1 0 1 level 9 yes"], "2 Differs at 1 expected undefined"),
    # another request, to which the rules reply in the same way, and to one after it in another
    (CLIMB, ["1 0 1 level 0 yes"], "2 Differs at 2 expected no star"),
    (CLIMB, ["1 0 2 level 1 yes"], "2 Differs at 2 expected no star"),
    (CLIMB, ["2 0 1 get-execute 3 yes"], "2 Differs at 3 expected yes"),
    (CLIMB, ["4 0 1 release append 1 yes"], "2 Differs at 5 expected no star"),
    # the numbers of objects that were made, an access to one that was deleted, and one that isn't permitted
    (FAMILY, ["7 0 2 create 5 2:0 1 created 7"], "2 Differs at 7 expected created 6"),
    (FAMILY, ["8 0 2 give read 1 6 yes"], "2 Differs at 9 expected no discretionary"),
    (FAMILY, ["11 0 0 get-read 6 yes"], "2 Differs at 11 expected undefined"),
    (FAMILY, ["14 0 2 create 0 0 1 created 4"], "2 Differs at 14 expected created 7"),
]

# Lines that are a journal, and what the replay says.
MISPLACED = [
    ([CLIMB[0], CLIMB[2], CLIMB[3], CLIMB[4], CLIMB[5]], "1 Number at 1"), ([CLIMB[0], CLIMB[0]], "1 Number at 1"),
    ([CLIMB[0], CLIMB[1], CLIMB[3], CLIMB[2]], "1 Number at 2"), ([CLIMB[1], CLIMB[2]], "1 Number at 0"),
    ([*CLIMB[:5], "6 0 1 level 0 yes"], "1 Number at 5"),
    # several at once: the first is told, and of one entry its number
    ([*CLIMB[:3], "3 0 1 level 0 yes", "3 0 1 release read 2 yes", CLIMB[5]], "2 Differs at 3 expected no star"),
    ([*CLIMB[:2], "1 0 1 get-read 2 yes", "3 0 1 level 0 yes", "3 0 1 release read 2 yes", CLIMB[5]], "1 Number at 2"),
    ([*CLIMB[:2], "1 0 1 get-read 2 undefined", "3 0 1 level 0 yes", "3 0 1 release read 2 yes", CLIMB[5]],
      "1 Number at 2"),
    (["0 0 1 get-read 2 yes", CLIMB[1], "1 0 1 get-read 2 undefined", "3 0 1 level 0 yes", "3 0 1 release read 2 yes",
      CLIMB[5]], "2 Differs at 0 expected no star"),
]

# A journal, and entries that stand in it in place of its own, to which the rules reply in the same way.
ANSWERED_ALIKE = [
    (CLIMB, ["5 0 1 level 1 yes"]), (CLIMB, ["5 0 1 release write 1 yes"]),
    # what was made below the object is deleted, and not the object
    (FAMILY, ["10 0 2 delete 5 yes"]),
    # sessions of large numbers
    (CLIMB, ["0 4294967295 1 get-read 2 no star", "1 65536 1 level 1 yes", "3 64 1 level 0 no star",
     "5 4294967294 1 level 0 yes"]),
    # entries that no script asks for, since no level of the start has that number: the next ones, and another
    (CLIMB, ["5 0 0 level 4 undefined"]), (CLIMB, ["5 0 2 create 0 0 2 undefined"]),
    (CLIMB, ["5 0 0 level 9 undefined"]),
    # nor any category beyond the first two, up to the last of 256
    (CLIMB, ["5 0 0 level 0:63,64,255 undefined"]), (CLIMB, ["5 0 0 level 0:200 undefined"]),
]

# What stands in an entry in place of its own: replies of each kind, with each reason; and subjects that there are, the
# next number, and the last.
REPLIES = ["yes", "created 4", "created 65535", "undefined", *(f"no {reason}" for reason in (
    "discretionary", "simple", "star", "integrity", "authority", "compatibility", "ceiling", "root", "full"))]
SUBJECTS = [0, 1, 2, 3, 4, 65_535]
