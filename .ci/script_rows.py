"""Scripts over the standard start for .ci/check-scripts: what each is answered, and what it asks.

The answers were worked out by hand from docs/POLICY.md and docs/FORMATS.md.
"""

# A name, a script, its answers, how many entries it adds, and how many accesses are held after it.
WORKED = [
    ("empty script", b"", b"", 0, 0),
    ("get twice and check", b"ann get-read plans\nann get-read plans\nann check read plans\n", b"yes\nyes\nheld\n", 2,
     1),
    ("denials", b"bob level S\nbob get-append plans\nann get-read memo\nann get-append plans\nbob get-read memo\n",
     b"no ceiling\nno integrity\nno integrity\nno discretionary\nno star\n", 5, 0),
    ("execute", b"ann get-execute tool\nbob get-execute tool\n", b"no integrity\nyes\n", 2, 1),
    ("trusted and integrity", b"sec get-write plans\nsec get-write memo\nsec level T:A,B\n",
     b"yes\nno integrity\nyes\n", 3, 1),
    ("release of nothing", b"ann release write plans\nann check write plans\n", b"yes\nnot held\n", 1, 0),
    ("give by authority", b"ann give read bob plans\nann give read bob root\nsec give read bob root\n",
     b"no authority\nno authority\nyes\n", 3, 0),
    ("rescind takes the access",
     b"ann get-read plans\nsec get-write root\nsec rescind read ann plans\nann check read plans\nann get-read plans\n",
     b"yes\nyes\nyes\nnot held\nno discretionary\n", 4, 1),
    ("create, give and simple security",
     b"sec get-write root\n$x = sec create root S:B hi\nsec give read ann $x\nann get-read $x\n",
     b"yes\ncreated 4\nyes\nno simple\n", 4, 1),
    ("conditions of create",
     b"sec get-write plans\nsec create plans C hi\nsec create plans S:A hi\nsec get-append memo\nsec create memo C hi\n"
     b"sec create memo U hi\nsec create memo C lo\nann create root U hi\n",
     b"yes\nno compatibility\ncreated 4\nyes\nno integrity\nno compatibility\ncreated 5\nno authority\n", 8, 2),
    ("delete takes all below",
     b"sec get-write root\n$a = sec create root U hi\nsec give write sec $a\nsec get-write $a\n"
     b"$b = sec create $a C hi\n"
     b"sec give write sec $b\nsec get-write $b\n$c = sec create $b S:A hi\nsec give read ann $c\nann get-read $c\n"
     b"sec delete $a\n"
     b"ann get-read $c\nann release read #5\nann check read #6\nsec delete root\nsec create root U hi\n"
     b"ann delete plans\n", b"yes\ncreated 4\nyes\nyes\ncreated 5\nyes\nyes\ncreated 6\nyes\nyes\nyes\n"
     b"undefined\nundefined\nnot held\nno root\ncreated 7\nno authority\n", 16, 1),
    ("levels", b"bob get-read memo\nbob level C\nbob get-read memo\nbob level U\nbob release read memo\nbob level U\n",
     b"no star\nyes\nyes\nno star\nyes\nyes\n", 6, 0),
    ("relabel beside a reader",
     b"ann get-read plans\nsec relabel plans T:A\nsec relabel root C\nsec relabel plans C\nann get-write plans\n",
     b"yes\nno simple\nno compatibility\nyes\nno star\n", 5, 1),
    ("relabel beside a writer", b"ann get-write plans\nsec relabel plans C\n", b"yes\nno star\n", 2, 1),
    ("relabel beside a trusted reader", b"aud get-read plans\nsec relabel plans T:A\nsec relabel plans C\n",
     b"yes\nno simple\nyes\n", 3, 1),
    ("relabel by authority",
     b"ann get-write plans\n$x = ann create plans S:A hi\nann relabel $x T:A\nann relabel $x S:A\n"
     b"ann relabel plans T:A\nann level C\n", b"yes\ncreated 4\nyes\nno authority\nno authority\nno star\n", 6, 1),
    ("bad lines", b"ann frob plans\nzoe get-read plans\nann get-read $x\nann create root Q hi\nzoe create root Q hi\n"
     b"#9 get-read plans\n" b"ann get-read #77\nann get-read #65536\nann get-read\n$x = ann get-read plans\n; note\n",
     b"bad form\nbad name\nbad name\nbad label\nbad name\nundefined\nundefined\nbad form\nbad form\nbad form\n", 2, 0),
    ("discretion, integrity and star",
     b"bob get-append plans\nann get-read memo\nann get-append plans\nbob get-read memo\n",
     b"no integrity\nno integrity\nno discretionary\nno star\n", 4, 0),
    ("lines that ask nothing", b"ann frob plans\nzoe get-read plans\nann get-read\n; note\n\n",
     b"bad form\nbad name\nbad form\n", 0, 0),
    ("bytes that are no spaces", b"ann get-read pl\0ns\nann\tget-read plans\nann get-read plans\r\n",
     b"bad form\nbad form\nbad form\n", 0, 0),
    ("last line without its newline", b"ann get-read plans\nann get-read plans", b"yes\nyes\n", 2, 1),
    ("last line that is cut", b"ann get-read plans\nann get-read pla", b"yes\nbad name\n", 1, 1),
    ("19 bytes: a line with its newline", b"ann get-read plans\n", b"yes\n", 1, 1),
    ("the first 18 of them: without it", b"ann get-read plans", b"yes\n", 1, 1),
    ("the first 17: without the last letter", b"ann get-read plan", b"bad name\n", 0, 0),
    ("lines that ask nothing, and an access",
     b"ann frob plans\n\nzoe get-read plans\n; note\nann check read plans\nann create root Q hi\nann get-read plans\n"
     b"ann check read plans", b"bad form\nbad name\nnot held\nbad label\nyes\nheld\n", 1, 1),
    ("a variable is bound to what was made",
     b"$x = ann create root U hi\nann get-read $x\nsec get-write root\n$x = sec create root U hi\n"
     b"$y = ann create root U hi\n" b"sec give read ann $x\nann get-read $x\nann get-read $y\n",
     b"no authority\nbad name\nyes\ncreated 4\nno authority\nyes\nyes\nbad name\n", 6, 2),
]

# Lines over the standard start once `$a-4` stands for object 4: what each submits, as an entry line has it.
MAKE_FOUR = b"sec get-write root\n$a-4 = sec create root U hi\n"
ASKS = [
    # accesses
    (b"ann get-read plans", b"0 get-read 1"), (b"bob get-append plans", b"1 get-append 1"),
    (b"bob get-execute tool", b"1 get-execute 3"), (b"sec get-write root", b"2 get-write 0"),
    (b"bob release read memo", b"1 release read 2"), (b"#9 get-read plans", b"9 get-read 1"),
    (b"ann get-read #77", b"0 get-read 77"),
    # the matrix
    (b"sec give read bob root", b"2 give read 1 0"), (b"sec rescind read ann plans", b"2 rescind read 0 1"),
    (b"sec give write #65535 #0", b"2 give write 65535 0"),
    # objects
    (b"sec create root U hi", b"2 create 0 0 1"), (b"$x = sec create root S:B hi", b"2 create 0 2:1 1"),
    (b" $A_1-b  =  #7 create  #9 T:B,A  lo ", b"7 create 9 3:0,1 0"),
    (b"$a-4 = sec create $a-4 C lo", b"2 create 4 1 0"), (b"ann get-read $a-4", b"0 get-read 4"),
    (b"sec delete $a-4", b"2 delete 4"), (b"sec delete root", b"2 delete 0"),
    # labels
    (b"bob level C", b"1 level 1"), (b"sec level T:A,B", b"2 level 3:0,1"), (b"sec relabel plans C", b"2 relabel 1 1"),
]

# Lines of a script, the reply to each, and what `$x` stands for after it: it is bound to the object that its line made,
# and to nothing else.
BINDS = [(b"$x = sec create root U hi", b"no authority", None), (b"sec get-write root", b"yes", None),
         (b"$x = sec create root U hi", b"created 4", 4), (b"$x = bob create root U hi", b"no authority", 4),
         (b"$y = sec create root U hi", b"created 5", 4), (b"$x = sec create #77 U hi", b"undefined", 4),
         (b"$x = sec create root U hi", b"created 6", 6), (b"sec create root U hi", b"created 7", 6),
         (b" $x  =  sec create  root  S:B,A  hi ", b"created 8", 8), (b"$X = sec create root U hi", b"created 9", 8)]

# Names of variables, each bound to the next object in this order; two of them are bound twice.
VARIABLES = [b"a", b"b", b"a", b"A", b"-", b"b", b"c", b"A_1-b", b"a" + 31 * b"1"]

# Lines that check: what is held before, and whether the check says so.
CHECKED = [(b"ann get-write plans\n", b"ann check write plans", b"held"),
           (b"ann get-write plans\n", b"ann check read plans", b"not held"),
           (b"ann get-write plans\n", b"aud check write plans", b"not held"),
           (b"ann get-write plans\n", b"ann check write root", b"not held"),
           (b"aud get-read plans\n", b"  aud   check  read plans ", b"held"),
           (b"aud get-read plans\n", b"#3 check read #1", b"held"),
           (b"bob get-execute tool\n", b"bob check execute tool", b"held"),
           (b"sec get-append memo\n", b"sec check append memo", b"held"),
           (b"", b"  aud   check  append tool ", b"not held"), (b"", b"#0 check read #65535", b"not held")]

# Lines that ask nothing.
BLANKS = [b"", b"   ", b"; note", b"  ;ann get-read \xff\x00", 20_000 * b" ", b";" + 19_999 * b" "]

# Lines whose form is bad, whatever they name.
BAD_FORMS = [
    b"ann frob plans", b"ann", b"ann get-read", b"ann get-read plans memo", b"ann release plans",
    b"zoe release all plans", b"zoe frob nil", b"zoe get-read a.b", b"ann get-read plans;", b"ann get-read plans\r",
    b"ann\tget-read plans", b"\x00", b"ann get-read pl\xc3\xa4ne", b"ann get-read a12345678901234567890123456789012",
    b"zoe give read bob", b"zoe give bob read root", b"sec give read bob root root", b"ann get-read #65536",
    b"#65536 get-read plans", b"ann get-read #18446744073709551616", b"ann get-read #007", b"ann get-read #00",
    b"ann get-read #", b"ann get-read #+7", b"ann get-read $", b"ann get-read $x.y", b"ann get-read $#7",
    b"$ann get-read plans", b"zoe get-read #x",
    # on objects and levels
    b"sec level", b"sec level S A", b"sec level plans U", b"sec relabel U", b"$x = sec relabel root C",
    b"ann create root U", b"ann create root U hi hi", b"zoe create root Q hi\x7f", b"zoe create nil \x80 Q",
    b"zoe create #07 Q Q", b"sec create root U\thi", b"sec delete", b"sec delete root root", b"$x = ann get-read plans",
    b"$x = sec delete root", b"$x = $y = sec create root U hi", b"$x=sec create root U hi", b"$x= sec create root U hi",
    b"$x =sec create root U hi", b"$x sec create root U hi", b"x = sec create root U hi", b"= sec create root U hi",
    b"$ = sec create root U hi", b"$x.y = zoe create root Q hi", b"$x =", b"$x = sec", b"$x",
    b"$a12345678901234567890123456789012 = sec create root U hi",
    # longer than a line may be
    20_001 * b" ", b";" + 20_000 * b" ", 100_000 * b" ", b";" + 99_999 * b" ", b"ann get-read plans" + 19_983 * b" ",
    b"ann get-read plans" + 99_982 * b" ",
]

# Lines of good form with a name, or a variable, that nothing has, whatever their labels are.
UNKNOWN_NAMES = [b"ann get-read a1234567890123456789012345678901", b"ann get-read 7", b"ann get-read $x",
                 b"ann get-read $plans", b"zoe get-read #77", b"zoe get-read plans", b"sec rescind read root root",
                 b"plans get-read plans", b"ann get-read ann", b"zoe check read nil", b"zoe create root Q hi",
                 b"sec create nil Q hi", b"sec create $x U hi", b"$x = zoe create root Q hi",
                 b"$x = sec create $x U hi", b"sec delete nil", b"zoe level hi", b"sec relabel nil lo"]

# Lines of good form and known names with a label that isn't one of its scheme.
BAD_LABELS = [b"sec create root Q hi", b"sec create root U U", b"sec create root hi hi", b"sec create root U hi:A",
              b"sec create root S:A,A hi", b"sec create root S: hi", b"sec create root ! ~", b"sec create root $x #1",
              b"$x = sec create root Q hi", b"bob level hi", b"sec relabel plans lo"]

# Scripts that run one after the other over one monitor, the answers of each, and their journal.
CLIMB = b"bob get-read memo\nbob level C\nbob get-read memo\nbob level U\nbob release read memo\nbob level U\n"
CLIMB_ANSWERS = b"no star\nyes\nyes\nno star\nyes\nyes\n"
CLIMB_JOURNAL = (b"0 0 1 get-read 2 no star\n1 0 1 level 1 yes\n2 0 1 get-read 2 yes\n3 0 1 level 0 no star\n"
                 b"4 0 1 release read 2 yes\n5 0 1 level 0 yes\n")
RUNS = [
    ("one script", [CLIMB], [CLIMB_ANSWERS], CLIMB_JOURNAL), ("an empty script", [b""], [b""], b""),
    ("two scripts share a monitor", [CLIMB, b"sec get-write root\n"], [CLIMB_ANSWERS, b"yes\n"], CLIMB_JOURNAL
     + b"6 1 2 get-write 0 yes\n"),
    ("a script sees what another holds and not its variables",
     [b"sec get-write root\n$x = sec create root U hi\nsec give read ann $x\nann get-read $x\n",
     b"ann check read #4\nann release read $x\nann release read #4", b"ann check read #4\n"],
     [b"yes\ncreated 4\nyes\nyes\n", b"held\nbad name\nyes\n", b"not held\n"],
     b"0 0 2 get-write 0 yes\n1 0 2 create 0 0 1 created 4\n2 0 2 give read 0 4 yes\n3 0 0 get-read 4 yes\n"
     b"4 1 0 release read 4 yes\n"),
    ("labels, denials and undefined requests are journalled",
     [b"sec get-write plans\nsec create plans C hi\n$y = sec create plans S:A hi\n",
     b"ann get-read #77\nann level T:B,A\nsec relabel $y S\nsec relabel plans T:A\nbob rescind append ann plans\n"],
     [b"yes\nno compatibility\ncreated 4\n", b"undefined\nno ceiling\nbad name\nno compatibility\nno authority\n"],
     b"0 0 2 get-write 1 yes\n1 0 2 create 1 1 1 no compatibility\n2 0 2 create 1 2:0 1 created 4\n"
     b"3 1 0 get-read 77 undefined\n"
     b"4 1 0 level 3:0,1 no ceiling\n5 1 2 relabel 1 3:0 no compatibility\n6 1 1 rescind append 0 1 no authority\n"),
]
