"""Lines that are no entries of a journal, and the first fault that applies to each; and bytes that are no journal."""

# Each fault, and lines that are refused for it.
BAD_LINES = {
    # a token is empty, there is no fourth token, the fourth is no action's word, operands are missing, or a mode is
    # none
    "1 BadForm": ["", " ", "  ", "0", "0 0", "0 0 0", "0 0 0 ", " 0 0 0 get-read 1 yes", "0 0 0 get-read 1 yes ",
                  "0  0 0 get-read 1 yes", "0 0  0 get-read 1 yes", "0 0 0  get-read 1 yes", "0 0 0 get-read  1 yes",
                  "0 0 0 get-read 1  yes", "0 0 0 get-read 1 no  star", " 0 0 get-read 1 yes", "0\t0 0 get-read 1 yes",
                  "0 0 0\tget-read 1 yes", "0 0 0 get-read\t1 yes", "0 0 0 fetch 1 yes", "0 0 0 get 1 yes",
                  "0 0 0 get-execut 1 yes", "0 0 0 get-executes 1 yes", "0 0 0 get-rea 1 yes", "0 0 0 get-reads 1 yes",
                  "0 0 0 get-appen 1 yes", "0 0 0 get-appends 1 yes", "0 0 0 get-writ 1 yes", "0 0 0 get-writes 1 yes",
                  "0 0 0 releas read 1 yes", "0 0 0 releases read 1 yes", "0 0 0 giv read 1 1 yes",
                  "0 0 0 gives read 1 1 yes", "0 0 0 Give read 1 1 yes", "0 0 0 get-read", "0 0 0 release read",
                  "0 0 0 release 1 yes", "0 0 0 release reads 1 yes", "0 0 0 release rea 1 yes", "0 0 0 give read 1",
                  "0 0 0 give 1 1 yes", "0 0 0 rescind write 1", "0 0 0 create 1 1", "0 0 0 delete", "0 0 0 level",
                  "0 0 0 relabel 1", "0 0 0 check read 1 yes"],
    # a number isn't a decimal number of its range
    "2 BadNumber": ["00 0 0 get-read 1 yes", "0 00 0 get-read 1 yes", "0 0 00 get-read 1 yes", "0 0 0 get-read 01 yes",
                    "0 0 0 give read 01 1 yes", "0 0 0 give read 1 01 yes", "18446744073709551616 0 0 get-read 1 yes",
                    "99999999999999999999999999 0 0 delete 1 yes", "0 4294967296 0 get-read 1 yes",
                    "0 0 65536 get-read 1 yes", "0 0 70000 delete 1 yes", "0 0 0 get-read 65536 yes",
                    "0 0 0 rescind read 65536 1 yes", "0 0 0 rescind read 1 65536 yes",
                    "0 0 0 create 65536 1 1 created 4", "0 0 0 delete 65536 yes", "0 0 0 relabel 65536 1 yes",
                    "+0 0 0 get-read 1 yes", "0 -1 0 get-read 1 yes", "0 0 0 get-read +1 yes", "0 0 0 get-read x yes",
                    "0 0 0 get-read 1\tyes", "0x1 0 0 get-read 1 yes"],
    # a label isn't one
    "3 BadLabel": ["0 0 0 level 2:1,0 yes", "0 0 0 level 2:1,1 yes", "0 0 0 level 16 yes", "0 0 0 level 2: yes",
                   "0 0 0 level 2:, yes", "0 0 0 level 2:1, yes", "0 0 0 level 2:,1 yes", "0 0 0 level 2:1,,2 yes",
                   "0 0 0 level 2:256 yes", "0 0 0 level 2:0,255,256 yes", "0 0 0 level 2:00 yes",
                   "0 0 0 level 2:1,02 yes", "0 0 0 level 02 yes", "0 0 0 level : yes", "0 0 0 level :1 yes",
                   "0 0 0 level 2:1:2 yes", "0 0 0 level 2;1 yes", "0 0 0 level +2 yes", "0 0 0 level S:A yes",
                   "0 0 0 level 1\r yes", "0 0 0 relabel 1 16 yes", "0 0 0 relabel 1 1:2,1 yes",
                   "0 0 0 create 1 16 1 created 4", "0 0 0 create 1 1 16 created 4"],
    # what stands after the operands is no reply
    "4 BadReply": ["0 0 0 get-read 1", "0 0 0 get-read 1 maybe", "0 0 0 get-read 1 ye", "0 0 0 get-read 1 yess",
                   "0 0 0 get-read 1 Yes", "0 0 0 get-read 1 yes\r", "0 0 0 get-read 1 yes yes", "0 0 0 get-read 1 no",
                   "0 0 0 get-read 1 n star", "0 0 0 get-read 1 noo star", "0 0 0 get-read 1 no sta",
                   "0 0 0 get-read 1 no stars", "0 0 0 get-read 1 no star star", "0 0 0 get-read 1 no nothing",
                   "0 0 0 get-read 1 undefine", "0 0 0 get-read 1 undefineds", "0 0 0 get-read 1 undefined 1",
                   "0 0 0 create 1 1 1", "0 0 0 create 1 1 1 create 4", "0 0 0 create 1 1 1 createds 4",
                   "0 0 0 create 1 1 1 created", "0 0 0 create 1 1 1 created4", "0 0 0 create 1 1 1 created 04",
                   "0 0 0 create 1 1 1 created 70000", "0 0 0 create 1 1 1 created 4 4", "0 0 0 create 1 1 1 created x",
                   "0 0 0 delete 1 1 yes"],
}

# Lines with two faults, and the first in their order.
TWO_FAULTS = [("00 0 0 fetch 1 yes", "1 BadForm"), ("00 0 0 get-read 1 yes ", "1 BadForm"),
              ("0 0 0 give reads 01 1 yes", "1 BadForm"), ("0 0 0 level 16  yes", "1 BadForm"),
              ("0 0 0 relabel 16", "1 BadForm"), ("0 0 0 get-read 1 maybe ", "1 BadForm"),
              ("00 0 0 level 16 yes", "2 BadNumber"), ("0 0 0 create 65536 16 1 created 4", "2 BadNumber"),
              ("0 0 0 get-read 01 maybe", "2 BadNumber"), ("0 0 65536 get-read 1", "2 BadNumber"),
              ("0 0 0 level 16 maybe", "3 BadLabel"), ("0 0 0 create 1 1 2: created 70000", "3 BadLabel")]

# Journals, and the line and the fault for which each is refused.
BAD_JOURNALS = [
    # a last line without its newline is a bad form, whatever it holds
    (b"3 2 1 delete 4 yes", "line 1: entry 1 BadForm"), (b"03 2 1 delete 4 yes", "line 1: entry 1 BadForm"),
    (b"3 2 1 level 16 yes", "line 1: entry 1 BadForm"), (b"3 2 1 delete 4", "line 1: entry 1 BadForm"),
    (b"\xff", "line 1: entry 1 BadForm"),
    # the first line is refused for its own fault
    (b"\n", "line 1: entry 1 BadForm"), (b"\n3 2 1 delete 4 yes\n", "line 1: entry 1 BadForm"),
    (b"3 2 1 delete 4 yes\r\n", "line 1: entry 4 BadReply"), (b"03 2 1 delete 4 yes\n\n", "line 1: entry 2 BadNumber"),
    (b"3 2 1 level 16 yes\n", "line 1: entry 3 BadLabel"), (b"3 2 1 delete 4\n", "line 1: entry 4 BadReply"),
    # a line is UTF-8
    (b"3 2 1 delete \xff yes\n", "line 1: entry 1 BadForm"), (b"3 2 1 level \xff yes\n", "line 1: entry 1 BadForm"),
    (b"3 2 1 delete 4 \xff\n", "line 1: entry 1 BadForm"),
    (b"3 2 1 delete \xc3\xa9 yes\n", "line 1: entry 2 BadNumber"),
    (b"3 2 1 delete 4 \xc3\xa9\n", "line 1: entry 4 BadReply"),
    # what follows a line that is an entry
    (b"3 2 1 delete 4 yes\n\n", "line 2: entry 1 BadForm"),
    (b"3 2 1 delete 4 yes\n3 2 1 delete 4 yes", "line 2: entry 1 BadForm"),
    (b"3 2 1 delete 4 yes\nwhat\xff", "line 2: entry 1 BadForm"),
]
