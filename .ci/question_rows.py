"""Questions about the examples, with answers that were worked out by hand from docs/POLICY.md and docs/FORMATS.md."""
import json
import os
import pty
import subprocess

from asking import GONE, HELD, NO_REPLY, OFFICE, STANDARD, asks, put_faulty
from outside import PROGRAM, SECONDS, example, put, ran_program, same, shown_by

# The journal of examples/standard.script.
MEMO = b"0 0 0 get-read 1 yes\n1 0 1 get-read 2 no star\n2 0 0 release read 1 yes\n"
# A journal with a level that no scheme has, and with objects and subjects that aren't there.
STRANGE = (
    b"0 0 2 get-write 0 yes\n1 0 2 create 0 2:1 1 created 4\n2 1 2 relabel 4 9:7 undefined\n3 1 9 give read 9 9 undefined\n"
    b"4 1 0 give read 8 9 undefined\n5 0 0 create 4 9 5 undefined\n6 0 2 delete 4 yes\n7 0 2 get-read 4 undefined\n"
)

# A journal in which permissions are given to bob and rescinded, by a subject that may and by one that may not.
GIVEN = (
    b"0 0 2 get-write 0 yes\n1 0 2 give read 1 1 yes\n2 0 2 rescind read 1 1 yes\n3 0 1 get-read 1 no discretionary\n"
    b"4 0 0 give read 1 1 no authority\n"
)

ASKED = [("bob get-read memo", "no star\n", 4), ("ann get-read plans", "yes\n", 0),
         ("  ann   get-read plans ", "yes\n", 0), ("ann check read plans", "not held\n", 4),
         ("#0 get-read #1", "yes\n", 0), ("#9 get-read #1", "undefined\n", 4), ("ann release read plans", "yes\n", 0),
         ("sec create root S:B hi", "no authority\n", 4)]

EXPLAINED = [
    ("bob get-read memo",
     "no star\ndiscretionary holds: bob is permitted read of memo\nsimple holds: maximum C dominates C of memo\n"
     "star fails: current U does not dominate C of memo\nintegrity holds: lo of memo dominates lo of bob\nremedy: bob level C\n", 4),
    ("ann get-read plans",
     "yes\ndiscretionary holds: ann is permitted read of plans\nsimple holds: maximum S:A dominates S:A of plans\n"
     "star holds: current S:A dominates S:A of plans\nintegrity holds: hi of plans dominates hi of ann\n", 0),
    ("bob get-append plans",
     "no integrity\ndiscretionary holds: bob is permitted append of plans\nsimple holds: append does not observe\n"
     "star holds: S:A of plans dominates current U\nintegrity fails: lo of bob does not dominate hi of plans\nremedy: none by level\n", 4),
    ("bob get-execute tool",
     "yes\ndiscretionary holds: bob is permitted execute of tool\nsimple holds: execute does not observe\n"
     "star holds: execute neither observes nor alters\nintegrity holds: lo of tool dominates lo of bob\n", 0),
    ("ann get-write memo",
     "no discretionary\ndiscretionary fails: ann is not permitted write of memo\nsimple holds: maximum S:A dominates C of memo\n"
     "star fails: current S:A does not equal C of memo\nintegrity fails: hi of ann does not equal lo of memo\nremedy: none by level\n", 4),
    ("sec get-write root",
     "yes\ndiscretionary holds: sec is permitted write of root\nsimple holds: maximum T:A,B dominates U of root\n"
     "star holds: current U equals U of root\nintegrity holds: hi of sec equals hi of root\n", 0),
    ("aud get-read plans",
     "yes\ndiscretionary holds: aud is permitted read of plans\nsimple holds: maximum S:A dominates S:A of plans\n"
     "star holds by trust: current U does not dominate S:A of plans\nintegrity holds: hi of plans dominates hi of aud\n", 0),
    ("ann release read plans", "yes\n", 0),
    ("ann give read bob plans", "no authority\nauthority fails: ann does not hold write on root\n"
     "remedy: sec get-write root\nremedy: sec gives read plans to bob instead\n", 4),
    ("sec give read bob plans", "no authority\nauthority fails: sec does not hold write on root\nremedy: sec get-write root\n", 4),
    ("ann give read bob root", "no authority\nauthority fails: ann is not trusted\nremedy: sec or aud gives read root to bob instead\n", 4),
    ("aud rescind write sec root", "yes\nauthority holds by trust: aud is trusted\n", 0),
    ("sec create root S:B hi",
     "no authority\nauthority fails: sec holds neither append nor write on root\n"
     "compatibility holds: new S:B dominates U of root\nintegrity holds: hi of root dominates new hi\nfull holds: next number is 4\n"
     "remedy: sec get-write root\n", 4),
    ("ann create memo U hi",
     "no authority\nauthority fails: ann holds neither append nor write on memo\ncompatibility fails: new U does not dominate C of memo\n"
     "integrity fails: lo of memo does not dominate new hi\nfull holds: next number is 4\nremedy: none found\n", 4),
    ("bob create memo C lo",
     "no authority\nauthority fails: bob holds neither append nor write on memo\ncompatibility holds: new C dominates C of memo\n"
     "integrity holds: lo of memo dominates new lo\nfull holds: next number is 4\n"
     "remedy: sec get-append memo\nremedy: sec create memo C lo instead\n", 4),
    ("ann delete root", "no root\nroot fails: root is the root\nauthority fails: root has no parent\nremedy: none found\n", 4),
    ("ann delete memo", "no authority\nroot holds: memo is not the root\nauthority fails: ann does not hold write on root\n"
     "remedy: sec get-write root\nremedy: sec delete memo instead\n", 4),
    ("bob level S", "no ceiling\nceiling fails: maximum C does not dominate new S\nstar holds: all that bob holds meets star at new S\n"
     "remedy: none found\n", 4),
    ("sec level T:A,B", "yes\nceiling holds: maximum T:A,B dominates new T:A,B\nstar holds: all that sec holds meets star at new T:A,B\n", 0),
    ("bob relabel memo S",
     "no authority\nauthority fails: bob does not hold write on root, current U does not dominate C of memo, new S dominates C of memo\n"
     "compatibility holds: new S dominates U of root, each child of memo dominates new S\n"
     "simple holds: all that observe memo meet simple at new S\nstar holds: all that hold memo meet star at new S\n"
     "remedy: sec or aud relabel memo S instead\n", 4),
    ("sec relabel root C",
     "no compatibility\nauthority holds by trust: sec is trusted\ncompatibility fails: not each child of root dominates new C\n"
     "simple holds: all that observe root meet simple at new C\nstar holds: all that hold root meet star at new C\nremedy: none found\n", 4),
    ("bob check read memo", "not held\n", 4),
    ("#9 give read #8 #7", "undefined\nunknown subject: #9\nunknown subject: #8\ninactive object: #7\n", 4),
    ("#9 give read #9 root", "undefined\nunknown subject: #9\n", 4),
]

# over examples/held.json, in which ann holds read on plans
HELD_EXPLAINED = [
    ("ann level U",
     "no star\nceiling holds: maximum S:A dominates new U\nstar fails: not all that ann holds meets star at new U\n  plans read\n"
     "remedy: ann release read plans\n", 4),
    ("sec relabel plans T:A,B",
     "no simple\nauthority holds by trust: sec does not hold write on root, current U does not dominate S:A of plans, new T:A,B dominates S:A of plans\n"
     "compatibility holds: new T:A,B dominates U of root, each child of plans dominates new T:A,B\n"
     "simple fails: not all that observe plans meet simple at new T:A,B\n  ann read\n"
     "star fails: not all that hold plans meet star at new T:A,B\n  ann read\nremedy: ann release read plans\n", 4),
    ("ann check read plans", "held\n", 0),
]

# over examples/office.json, where petra has read staff and holds it: no label lets her keep that and add to the inbox
STAFF = b"0 0 0 get-read 1 yes\n"
STAFF_EXPLAINED = [
    ("petra get-append inbox",
     "no star\ndiscretionary holds: petra is permitted append of inbox\nsimple holds: append does not observe\n"
     "star fails: unclassified of inbox does not dominate current confidential:personnel\n"
     "integrity holds: final of petra dominates draft of inbox\n"
     "remedy: petra release read staff\nremedy: petra level unclassified\n", 4),
    ("petra get-read inbox",
     "no integrity\ndiscretionary holds: petra is permitted read of inbox\n"
     "simple holds: maximum secret:personnel dominates unclassified of inbox\n"
     "star holds: current confidential:personnel dominates unclassified of inbox\n"
     "integrity fails: draft of inbox does not dominate final of petra\nremedy: none by level\n", 4),
]
STAFF_WHO = ("petra read no integrity, never\npetra append no star, level unclassified after releasing read staff\nintern read yes\n"
             "intern write yes\n")

# What is told of a line that has no form, where none is near.
FORMS = "form: mls ask --help has the forms"
BAD_LINES = [("", FORMS), ("   ", FORMS), ("; ann get-read plans", FORMS), ("ann get-read", "form: SUBJECT get-read OBJECT"),
             ("ann get-read plans\n", FORMS), ("ann get-read plans\nbob get-read memo", "form: SUBJECT get-read OBJECT"),
             ("ann get-read $x", FORMS), ("$x = sec create root U hi", FORMS), ("ann frob plans", FORMS),
             ("ann get-read #01", FORMS), ("zoe get-reads plan", "form: get-reads (get-read?)"), ("zoe get-read plan extra", "form: SUBJECT get-read OBJECT"),
             ("ann release plans", "form: SUBJECT release MODE OBJECT"), ("ann get read plans", "form: SUBJECT get-read OBJECT"), ("ann get plans", "form: SUBJECT get-read OBJECT"),
             ("sec give read plans", "form: SUBJECT give MODE SUBJECT OBJECT"), ("sec create root U", "form: SUBJECT create PARENT SECURITY-LABEL INTEGRITY-LABEL"),
             ("ann check plans", "form: SUBJECT check MODE OBJECT"), ("ann GET-READ plans", "form: GET-READ (get-read?)"), ("ann release red plans", FORMS)]

# Lines of which a word names nothing, with what is told of it: the first such word, and the nearest name that can stand there.
WRONG_WORDS = [
    ("zoe get-read plans", "name: zoe (bob?)"), ("ann get-read plan", "name: plan (plans?)"), ("boob get-read memmo", "name: boob (bob?)"),
    ("  sec  delete   memmo ", "name: memmo (memo?)"), ("#7 get-read pan", "name: pan (plans?)"), ("ann check read emo", "name: emo (memo?)"),
    ("ann release write rooot", "name: rooot (root?)"), ("sec give read anna memo", "name: anna (ann?)"),
    ("sec rescind read bob tooled", "name: tooled (tool?)"), ("sec give read xx yy", "name: xx"), ("sec get-read sec", "name: sec"),
    ("a get-read plans", "name: a"), ("an get-read plans", "name: an (ann?)"), ("nn get-read plans", "name: nn (ann?)"),
    ("sub get-read plans", "name: sub (bob?)"), ("ann get-read " + 32 * "x", "name: " + 32 * "x"), ("ann get-read mo", "name: mo"),
    ("zoe level Q", "name: zoe (bob?)"), ("ann create memmo Q low", "name: memmo (memo?)"), ("ann relabel memmo Q", "name: memmo (memo?)"),
    ("sec create root Q hi", "label: Q"), ("sec create root U low", "label: low (lo?)"), ("sec create root U:AB low", "label: U:AB (A?)"),
    ("sec create root Us hii", "label: Us (U?)"), ("bob level S:A,A", "label: S:A,A"), ("bob level UC", "label: UC (U?)"),
    ("bob level C:BB,AA", "label: C:BB,AA (B?)"), ("bob level C:A,BA", "label: C:A,BA (A?)"), ("bob level C:", "label: C:"),
    ("bob level :A", "label: :A"), ("bob level S:AA:A", "label: S:AA:A (A?)"), ("bob level SA:AA", "label: SA:AA (S?)"),
    ("bob level S,A", "label: S,A (S?)"), ("sec relabel memo CC", "label: CC (C?)"), ("sec relabel #9 CC", "label: CC (C?)"),
    ("sec create root " + 9000 * "x" + " hi", "label: " + 9000 * "x"),
]

WHO = [(["memo"],
        "ann read no integrity, never\nbob read no star, level C\nsec append yes\nsec write no integrity, never\n", 0),
       (["memo", "read"], "ann read no integrity, never\nbob read no star, level C\n", 4),
       (["#2", "append"], "sec append yes\n", 0), (["tool", "append"], "", 4),
       (["plans"], "ann read yes\nann write yes\nbob append no integrity, never\nsec write yes\naud read yes\n", 0)]

SUBJECTS = (
    "subject ann maximum S:A current S:A integrity hi\nsubject bob maximum C current U integrity lo\n"
    "subject sec maximum T:A,B current U integrity hi trusted\nsubject aud maximum S:A current U integrity hi trusted\n"
)
OBJECTS = ("object root security U integrity hi\nobject plans security S:A integrity hi parent root\n"
            "object memo security C integrity lo parent root\nobject tool security U integrity lo parent root\n")
PERMISSIONS = (
    "permit ann read plans\npermit ann write plans\npermit ann read memo\npermit ann execute tool\npermit bob append plans\n"
    "permit bob read memo\npermit bob execute tool\npermit sec write root\npermit sec write plans\npermit sec append memo\n"
    "permit sec write memo\npermit aud read plans\n"
)

# Nobody holds anything, so authority is the trusted subjects' over the root; memo lies over the root alone, and under nothing.
DOWN = "{0} relabels plans down to C U\n{0} relabels memo down to U\n"
RELABELED = (
    "{0} relabels plans down to C U\n{0} relabels plans up to T:A,B\n{0} relabels memo down to U\n{0} relabels memo up to S:A T:A,B\n"
    "{0} relabels tool up to S:A C T:A,B\n"
)
SEC = "sec gives and rescinds root\nsec level S:A C T:A,B\n" + RELABELED.format("sec")
POWERS = [
    ([STANDARD], "ann level C U\nbob level C\n" + SEC + "aud gives and rescinds root\naud level S:A C\n"
     + RELABELED.format("aud"), 0), ([STANDARD, "sec"], SEC, 0), ([STANDARD, "#2"], SEC, 0),
    (["--down", STANDARD], DOWN.format("sec") + DOWN.format("aud"), 0), (["--down", STANDARD, "bob"], "", 4),
    (["--down", OFFICE, "desk"],
     "desk relabels staff down to unclassified\ndesk relabels staff aside to secret:finance confidential:finance\n"
     "desk relabels ledger down to unclassified\ndesk relabels ledger aside to secret:personnel confidential:personnel\n"
     "desk relabels salaries down to secret:personnel confidential:personnel\n", 0),
    ([STANDARD, "#9"], "", 4),
    # sec writes the root: permissions on what is below it, and the objects themselves, are sec's
    (["--journal", "root.journal", STANDARD, "sec"], "".join(f"sec gives and rescinds {it}\n" for it in ("root",
      "plans", "memo", "tool")) + "sec creates under root\n" + "".join(f"sec deletes {it}\n" for it in ("plans", "memo",
      "tool")) + "sec level S:A C T:A,B\n" + RELABELED.format("sec"), 0),
    (["--journal", "root.journal", "--at", "0", STANDARD, "sec"], SEC, 0),
]

LATTICE = (
    'digraph lattice {\nrankdir=BT;\nnode [shape=box];\n"S:A" [label="S:A\\nann maximum, current\\naud maximum\\nplans"];\n'
    '"C" [label="C\\nbob maximum\\nmemo"];\n"U" [label="U\\nbob current\\nsec current\\naud current\\nroot\\ntool"];\n'
    '"T:A,B" [label="T:A,B\\nsec maximum"];\n"S:A" -> "T:A,B";\n"C" -> "S:A";\n"U" -> "C";\n}\n'
)

STRANGE_EXPLAINED = [(2, "undefined\nsecurity label outside the scheme: #9:#7\n"),
                     (3, "undefined\nunknown subject: #9\ninactive object: #9\n"),
                     (4, "undefined\nunknown subject: #8\ninactive object: #9\n"),
                     (5, "undefined\nsecurity label outside the scheme: #9\nintegrity label outside the scheme: #5\n"),
                     (7, "undefined\ninactive object: #4\n")]

LISTED = [
    ([], "0 session 0 sec get-write root: yes\n1 session 0 sec create root S:B hi: created 4\n2 session 1 sec relabel #4 #9:#7: undefined\n"
     "3 session 1 #9 give read #9 #9: undefined\n4 session 1 ann give read #8 #9: undefined\n5 session 0 ann create #4 #9 #5: undefined\n"
     "6 session 0 sec delete #4: yes\n7 session 0 sec get-read #4: undefined\n", 0),
    (["--reply", "created"], "1 session 0 sec create root S:B hi: created 4\n", 0),
    (["--object", "#4", "--to", "5"], "1 session 0 sec create root S:B hi: created 4\n2 session 1 sec relabel #4 #9:#7: undefined\n"
     "5 session 0 ann create #4 #9 #5: undefined\n", 0),
    (["--reply", "created 4"], "1 session 0 sec create root S:B hi: created 4\n", 0),
    (["--reply", "created 5"], "", 4),
    (["--reply", "created 65535"], "", 4),
    (["--subject", "#9"], "3 session 1 #9 give read #9 #9: undefined\n", 0),
    (["--by", "#9"], "3 session 1 #9 give read #9 #9: undefined\n", 0),
    (["--subject", "#8"], "4 session 1 ann give read #8 #9: undefined\n", 0),
    (["--by", "#8"], "", 4),
    (["--subject", "#8", "--by", "ann"], "4 session 1 ann give read #8 #9: undefined\n", 0),
    (["--subject", "#8", "--by", "sec"], "", 4),
    (["--subject", "ann", "--session", "0"], "5 session 0 ann create #4 #9 #5: undefined\n", 0),
    (["--from", "6", "--to", "6"], "6 session 0 sec delete #4: yes\n", 0),
    (["--reply", "no star"], "", 4),
    (["--summary"], "entries 8\nann undefined 2\nsec yes 2\nsec created 1\nsec undefined 2\n#9 undefined 1\n", 0),
    (["--summary", "--reply", "no"], "entries 0\n", 4),
    (["--summary", "--subject", "#8"], "entries 1\nann undefined 1\n", 0),
    (["--json", "--to", "1"],
     '{"number":0,"session":0,"subject":2,"subject_name":"sec","action":"get-write","object":0,"object_name":"root","reply":"yes"}\n'
     '{"number":1,"session":0,"subject":2,"subject_name":"sec","action":"create","parent":0,"parent_name":"root","security":"S:B",'
     '"integrity":"hi","reply":"created","created":4}\n', 0),
    (["--json", "--from", "2", "--to", "4"],
     '{"number":2,"session":1,"subject":2,"subject_name":"sec","action":"relabel","object":4,"security":"#9:#7","reply":"undefined"}\n'
     '{"number":3,"session":1,"subject":9,"action":"give","mode":"read","whose":9,"object":9,"reply":"undefined"}\n'
     '{"number":4,"session":1,"subject":0,"subject_name":"ann","action":"give","mode":"read","whose":8,"object":9,"reply":"undefined"}\n', 0),
]

# A start whose levels and categories have numbers for names, and a journal with labels that it hasn't: `3` is a name, and `#3` a number.
NUMBERED = """{"security": {"levels": ["3", "2", "1"], "categories": ["1", "0"]}, "integrity": {"levels": ["1", "0"], "categories": []},
"subjects": [{"name": "ann", "maximum": "1:1,0", "current": "3", "integrity": "0", "trusted": false}],
"objects": [{"name": "root", "parent": null, "security": "3", "integrity": "0"}], "matrix": []}"""
NAMED_BY_NUMBERS = (
    b"0 0 0 level 3 undefined\n1 0 0 level 0 yes\n2 0 0 level 0:2 undefined\n3 0 0 level 0:0 yes\n4 0 0 level 1:1,255 undefined\n"
    b"5 0 0 create 0 2:1 2 undefined\n6 0 0 create 0 2:1 1 no authority\n"
)
# What is asked by its entries, the replies, and of what the start hasn't the kind of the label and the fault of the line that asks for it.
TOLD_BY_NAMES = [("level #3", "undefined", "security", "#3 (3?)"), ("level 3", "yes", "", ""),
                 ("level #0:#2", "undefined", "security", "#0:#2"), ("level 3:1", "yes", "", ""),
                 ("level #1:#1,#255", "undefined", "security", "#1:#1,#255 (1?)"),
                 ("create root 1:0 #2", "undefined", "integrity", "#2"), ("create root 1:0 0", "no authority", "", "")]

# What is asked of the journal GIVEN, and the entries that are listed.
TO_BOB = ["1 session 0 sec give read bob plans: yes\n", "2 session 0 sec rescind read bob plans: yes\n",
          "3 session 0 bob get-read plans: no discretionary\n", "4 session 0 ann give read bob plans: no authority\n"]
ABOUT = [(["--subject", "bob"], "".join(TO_BOB), 0), (["--by", "bob"], TO_BOB[2], 0),
         (["--subject", "bob", "--by", "sec"], TO_BOB[0] + TO_BOB[1], 0),
         (["--subject", "sec"], "0 session 0 sec get-write root: yes\n" + TO_BOB[0] + TO_BOB[1], 0),
         (["--subject", "bob", "--reply", "yes"], TO_BOB[0] + TO_BOB[1], 0),
         (["--subject", "bob", "--reply", "no authority"], TO_BOB[3], 0), (["--subject", "aud"], "", 4),
         (["--summary", "--subject", "bob"],
          "entries 4\nann no 1\nbob no 1\nsec yes 2\nno discretionary 1\nno authority 1\n", 0),
         (["--summary", "--by", "bob"], "entries 1\nbob no 1\nno discretionary 1\n", 0)]

# Words with which no reply begins.
NO_REPLIES = ["", " ", "denied", "creat", "No", "no ", " no", "no sta", "no star ", "no  star", "no stars", "no yes",
              "nostar", "yes no", "yes ", "created ", "created 04", "created 65536", "created -1", "created x",
              "created  4", "created 4 ", "created4", "undefined 4", "no star\n"]

# A start file with members that are written twice, the names of which are told; what stands within a value that doesn't count isn't.
TWICE = [
    ([('"trusted": true', '"trusted": false, "trusted": true')], ["/subjects/2/trusted"]),
    ([('"matrix"', '"accesses": {"a": 1, "a": 2}, "accesses": [], "profile": 2, "profile": 1, "matrix"')], ["/accesses", "/profile"]),
    ([('"levels": ["lo"', '"levels": 7, "levels": [], "levels": ["lo"')], ["/integrity/levels"]),
    ([('"security": {', '"integrity": {"levels": [], "levels": []}, "security": {"categories": [],')], ["/security/categories", "/integrity"]),
    ([('"name": "root", "parent": null', '"name": "a", "name": "root", "parent": 1, "parent": null, "security": "T"')],
     ["/objects/0/name", "/objects/0/parent", "/objects/0/security"]),
    ([('"subject": "bob"', '"modes": [], "object": "x", "subject": "ann", "subject": "bob"')],
     ["/matrix/3/subject", "/matrix/3/object", "/matrix/3/modes"]),
    ([('"name": "aud"', '"na\\u006de": "ann", "maximum": "U", "name": "aud"')], ["/subjects/3/name", "/subjects/3/maximum"]),
]

STATES = [([], "profile 1\nnext 4\n" + SUBJECTS + OBJECTS + PERMISSIONS, 0),
          (["--at", "1"], "profile 1\nnext 4\n" + SUBJECTS + OBJECTS + PERMISSIONS + "access ann read plans\n", 0)]

LINTED = [(STANDARD,
           "dead: ann read memo: integrity\ndead: ann execute tool: integrity\ndead: bob append plans: integrity\n"
           "dead: sec write memo: integrity\ndownflow: sec: 2 pairs, as plans to root\n", 4),
          (OFFICE, "dead: petra read salaries: simple\ndead: petra read inbox: integrity\n"
           "downflow: desk: 2 pairs, as staff to office\n"
           "could: petra execute salaries, by untrusted subjects\ncould: petra append salaries, by untrusted subjects\n"
           "could: frank execute salaries, by untrusted subjects\ncould: intern execute salaries, by untrusted subjects\n", 4)]


answered, refused, not_understood = asks()


def on_terminal(words):
    """The status, and what the program writes where its standard error is a terminal."""
    ours, theirs = pty.openpty()
    done = subprocess.run([PROGRAM, *words], timeout=SECONDS, stdin=subprocess.DEVNULL, stdout=subprocess.DEVNULL, stderr=theirs)
    os.close(theirs)
    return done.returncode, shown_by(ours)


def lines_that_are_asked():
    for line, text, status in ASKED:
        answered(["ask", STANDARD, line], text, status)


def lines_that_are_explained():
    for start, rows in ((STANDARD, EXPLAINED), (HELD, HELD_EXPLAINED)):
        for line, text, status in rows:
            answered(["explain", start, line], text, status)


def releases_before_a_level():
    put("staff.journal", STAFF)
    for line, text, status in STAFF_EXPLAINED:
        answered(["explain", "--journal", "staff.journal", OFFICE, line], text, status)
    answered(["who", "--journal", "staff.journal", OFFICE, "inbox"], STAFF_WHO, 0)


def lines_that_ask_nothing():
    for line, fault in BAD_LINES:
        for command in ("ask", "explain"):
            refused([command, STANDARD, line], f"line: bad {fault}")
    refused(["ask", STANDARD, "a" * 20001], f"line: bad {FORMS}")


def words_that_name_nothing():
    for line, told in WRONG_WORDS:
        for command in ("ask", "explain"):
            refused([command, STANDARD, line], f"line: bad {told}")
    for word, told in (("memmo", " (memo?)"), ("memo ", " (memo?)"), ("pl\u00e4n", " (plans?)"), ("mo", ""), ("ann", ": it is a subject: mls about"), ("#01", ""), ("", ""),
                       (34 * "p", ""), ("plans" + 30 * "s", "")):
        refused(["who", STANDARD, word], f"{word}: bad name{told}")
    put("memo.journal", MEMO)
    refused(["ask", "--journal", "memo.journal", STANDARD, "ann get-red plans"], "line: bad form: get-red (get-read?)")
    for word, meant in (("read", "get-read"), ("write", "get-write"), ("execute", "get-execute"), ("giv", "give"), ("relase", "release"), ("get-reads", "get-read")):
        refused(["ask", STANDARD, f"ann {word} plans"], f"line: bad form: {word} ({meant}?)")
        refused(["explain", STANDARD, f"ann {word} plans"], f"line: bad form: {word} ({meant}?)")
    refused(["powers", STANDARD, "memo"], "memo: bad name: it is an object: mls about")
    for command in ("ask", "explain", "could"):
        refused([command, STANDARD, " memo  get-read bob"], "line: bad name: memo: it is an object: mls about")
    refused(["who", STANDARD, "bob"], "bob: bad name: it is a subject: mls about")
    refused(["journal", "--by", "memo", STANDARD, "memo.journal"], "memo: bad name: it is an object: mls about")
    refused(["journal", "--subject", "memo", STANDARD, "memo.journal"], "memo: bad name: it is an object: mls about")
    refused(["held", "--object", "bob", STANDARD, "memo.journal"], "bob: bad name: it is a subject: mls about")
    refused(["ask", "--journal", "memo.journal", STANDARD, "ann get-read plns"], "line: bad name: plns (plans?)")


def where_a_check_points():
    """On a terminal the line of a refused start is followed by the command that tells where its fault applies."""
    put("empty.json", b"")
    put("opened.journal", b"0 0 0 get-read 1 yes\n")
    refused(["check", "empty.json"], "empty.json: start 1 Json")
    refused(["check", "opened.journal"], "opened.journal: start 1 Json")
    refused(["lattice", "opened.journal"], "opened.journal: start 1 Json: looks like a journal")
    refused(["who", "memo", STANDARD], f"memo: {GONE}: START comes first")
    refused(["ask", "bob get-read memo", STANDARD], f"bob get-read memo: {GONE}: START comes first")
    refused(["who", "memo", "no.json"], f"memo: {GONE}")
    put("unknown.json", example("standard.json").replace(b'"S:A"', b'"S:Z"'))
    lines = "mls: unknown.json: start 5 Label\r\nmls lint unknown.json tells where\r\n"
    for words in (["check", "unknown.json"], ["lattice", "unknown.json"], ["ask", "unknown.json", "bob get-read memo"], ["run", "unknown.json", "opened.journal"],
                  ["replay", "unknown.json", "opened.journal"], ["held", "unknown.json", "opened.journal"], ["serve", "--journal", "new", "unknown.json"]):
        same((words, *on_terminal(words)), (words, 1, lines))
    refused(["ask", "unknown.json", "bob get-read memo"], "unknown.json: start 5 Label")
    same(on_terminal(["lint", "unknown.json"]), (1, "mls: unknown.json: start 5 Label\r\n"))
    # by hand: the labels S:A of the standard start
    places = "".join(f"/{it}: unknown category\r\n" for it in ("subjects/0/maximum", "subjects/0/current", "subjects/3/maximum", "objects/1/security"))
    same(on_terminal(["complete", "unknown.json"]), (1, f"mls: unknown.json: start 5 Label\r\n{places}"))
    for words, told in ((["check", "empty.json"], "mls: empty.json: start 1 Json: empty\r\n"), (["check", "opened.journal"], "mls: opened.journal: start 1 Json: looks like a journal\r\n"),
                        (["check", "none.json"], f"mls: none.json: file: {GONE}\r\n"), (["lattice", "empty.json"], "mls: empty.json: start 1 Json: empty\r\n")):
        same((words, *on_terminal(words)), (words, 1, told))


def subjects_who_may():
    for words, text, status in WHO:
        answered(["who", STANDARD, *words], text, status)
    for words in (["#9"], ["#65535", "read"]):
        refused(["who", STANDARD, *words], f"{words[0]}: there is no such object", 4)
    # ann works at U: star fails before integrity, and integrity fails at each level
    put("low.journal", b"0 0 0 level 0 yes\n")
    answered(["ask", "--journal", "low.journal", STANDARD, "ann get-read memo"], "no star\n", 4)
    answered(["who", "--journal", "low.journal", STANDARD, "memo"], WHO[0][1], 0)
    refused(["who", STANDARD, "nobody"], "nobody: bad name")
    refused(["who", STANDARD, "$x"], "$x: bad name")


def entries_that_are_explained():
    put("strange.journal", STRANGE)
    put("memo.journal", MEMO)
    asked = lambda journal, number: ["explain", STANDARD, "--journal", journal, "--at", str(number)]
    for number, text in STRANGE_EXPLAINED:
        answered(asked("strange.journal", number), text, 4)
    answered(asked("memo.journal", 1), EXPLAINED[0][1], 4)
    refused(asked("memo.journal", 3), "memo.journal: no entry 3: the journal has 3 entries")
    refused(asked("memo.journal", 4), "memo.journal: the journal has 3 entries")


def states_before_entries():
    put("memo.journal", MEMO)
    for at, text, status in ((0, "not held\n", 4), (1, "held\n", 0), (2, "held\n", 0), (3, "not held\n", 4)):
        answered(["ask", STANDARD, "--journal", "memo.journal", "--at", str(at), "ann check read plans"], text, status)
    answered(["ask", STANDARD, "--journal", "memo.journal", "ann check read plans"], "not held\n", 4)


def faults_in_their_order():
    put_faulty(MEMO)
    line = "ann get-read"
    asked = lambda start, journal: ["ask", start, "--journal", journal, "--at", "9", line]
    refused(asked("no.json", "no.journal"), f"no.json: {GONE}")
    refused(asked("empty.json", "no.journal"), f"no.journal: {GONE}")
    refused(asked("empty.json", "torn.journal"), "empty.json: start 1 Json: empty")
    refused(asked(STANDARD, "torn.journal"), "torn.journal: line 3: entry 1 BadForm")
    refused(asked(STANDARD, "forged.journal"), "forged.journal: replay 2 Differs at 1 expected no star, found yes", 3)
    refused(asked(STANDARD, "opened.journal"), "opened.journal: the journal has 3 entries")
    refused(["ask", STANDARD, line], "line: bad form: SUBJECT get-read OBJECT")


def words_that_no_question_has():
    not_understood(["ask", STANDARD], ["ask", STANDARD, "--at", "0", "ann get-read plans"], ["explain", STANDARD], ["who", STANDARD],
                   ["who", STANDARD, "memo", "see"], ["explain", STANDARD, "--journal", "j"], ["ask"])


def listed_entries():
    put("strange.journal", STRANGE)
    asked = lambda words: ["journal", *words, STANDARD, "strange.journal"]
    for words, text, status in LISTED:
        answered(asked(words), text, status)
    for words, told in (("--subject zoe", "zoe: bad name (bob?)"), ("--object file", "file: bad name"), ("--by zoe", "zoe: bad name (bob?)"),
                        ("--object file --by yan --subject zoe", "zoe: bad name (bob?)"),
                        ("--object file --by yan --subject ann", "yan: bad name (ann?)")):
        refused(asked(words.split()), told)


def names_that_are_numbers():
    """A label that a scheme hasn't is told from one whose names are numbers; what the scheme has is asked again as it is printed."""
    put("numbered.json", NUMBERED.encode())
    put("numbered.journal", NAMED_BY_NUMBERS)
    lines = [f"{number} session 0 ann {asked}: {reply}\n" for number, (asked, reply, _, _) in enumerate(TOLD_BY_NAMES)]
    answered(["journal", "numbered.json", "numbered.journal"], "".join(lines), 0)
    for number, (asked, reply, kind, fault) in enumerate(TOLD_BY_NAMES):
        before = ["numbered.json", "--journal", "numbered.journal", "--at", str(number)]
        if kind:
            answered(["explain", *before], f"undefined\n{kind} label outside the scheme: {fault.split()[0]}\n", 4)
            refused(["ask", *before, f"ann {asked}"], f"line: bad label: {fault}")
        else:
            answered(["ask", *before, f"ann {asked}"], f"{reply}\n", 0 if reply == "yes" else 4)
    answered(["journal", "--json", "--from", "2", "--to", "2", "numbered.json", "numbered.journal"],
             '{"number":2,"session":0,"subject":0,"subject_name":"ann","action":"level","security":"#0:#2","reply":"undefined"}\n', 0)
    answered(["state", "numbered.json", "numbered.journal"],
             "profile 1\nnext 1\nsubject ann maximum 1:1,0 current 3:1 integrity 0\nobject root security 3 integrity 0\n", 0)


def entries_about_a_subject():
    put("given.journal", GIVEN)
    for words, text, status in ABOUT:
        answered(["journal", *words, STANDARD, "given.journal"], text, status)


def entries_that_trust_granted():
    """aud reads above its current label, sec writes at its own, and gives what is in the root by trust, what is below by its access."""
    put("trust.journal", b"0 0 3 get-read 1 yes\n1 0 2 get-write 0 yes\n2 1 2 give read 2 0 yes\n3 0 2 give read 1 1 yes\n"
        b"4 0 0 get-write 2 no discretionary\n5 0 2 level 3:0,1 yes\n6 0 2 relabel 2 2 yes\n")
    used = ["0 session 0 aud get-read plans: yes\n", "2 session 1 sec give read sec root: yes\n", "5 session 0 sec level T:A,B: yes\n"]
    files = ["--used-trust", STANDARD, "trust.journal"]
    answered(["journal", *files], "".join(used), 0)
    answered(["journal", "--by", "sec", "--from", "3", *files], used[2], 0)
    answered(["journal", "--object", "memo", *files], "", 4)
    answered(["journal", "--summary", *files], "entries 3\nsec yes 2\naud yes 1\n", 0)
    not_understood(["journal", "--explain", *files])


def words_that_begin_no_reply():
    rows = [([f"--reply={words}"], f"--reply {words}: {NO_REPLY}") for words in NO_REPLIES]
    most = 2 ** 64 - 1
    rows += [(["--from", "7", "--to", "6"], "--from 7: above --to 6"), (["--to", "0", "--from", str(most)], f"--from {most}: above --to 0"),
             (["--from", "7", "--to", "6", "--reply", "denied"], f"--reply denied: {NO_REPLY}")]
    for words, told in rows:
        refused(["journal", *words, "no.json", "no.journal"], told, 2)


def states_of_a_journal():
    put("memo.journal", MEMO)
    for words, text, status in STATES:
        answered(["state", *words, STANDARD, "memo.journal"], text, status)
    refused(["state", "--at", "4", STANDARD, "memo.journal"], "memo.journal: the journal has 3 entries")


def powers_of_subjects():
    put("root.journal", b"0 0 2 get-write 0 yes\n")
    for words, text, status in POWERS:
        answered(["powers", *words], text, status)
    refused(["powers", STANDARD, "carl"], "carl: bad name")
    refused(["powers", "--journal", "root.journal", "--at", "2", STANDARD], "root.journal: the journal has 1 entry")


def drawing_of_the_standard_start():
    answered(["lattice", STANDARD], LATTICE)
    put("empty.json", b"")
    refused(["lattice", "empty.json"], "empty.json: start 1 Json: empty")


def suspicious_examples():
    for start, text, status in LINTED:
        answered(["lint", start], text, status)


def members_that_are_repeated():
    with open(STANDARD, encoding="ascii") as file:
        standard = file.read()
    for changes, places in TWICE:
        text = standard
        for old, new in changes:
            assert old in text, f"{old} isn't in {STANDARD}"
            text = text.replace(old, new, 1)
        put("twice.json", text.encode())
        same(ran_program(["check", "twice.json"])[0], 0)
        answered(["lint", "twice.json"], "".join(f"{it}: repeated member\n" for it in places) + LINTED[0][1], 4)


# What is added to a start's matrix, and the places of permissions that are there before: its first cell is s read r.
PERMITTED_TWICE = [
    ([("s", "r", ["read"])], ["/matrix/1/modes/0"]), ([("s", "r", ["append", "read", "append"])], ["/matrix/1/modes/1", "/matrix/1/modes/2"]),
    ([("s", "r", ["append"]), ("s", "o", ["read", "append", "read"]), ("s", "r", ["append", "write"]), ("s", "o", ["append"])],
     ["/matrix/2/modes/2", "/matrix/3/modes/0", "/matrix/4/modes/0"]),
    ([("s", "r", ["append"]), ("s", "o", ["read", "append"]), ("t", "r", ["read"]), ("t", "o", [])], []),
]


def permissions_that_are_repeated():
    """Of each permission that the matrix has before there is a line, in front of what else is suspicious, and the answer is the same elsewhere."""
    label = {"security": "U", "integrity": "lo"}
    start = {"security": {"levels": ["U"], "categories": []}, "integrity": {"levels": ["lo"], "categories": []},
             "subjects": [{"name": it, "maximum": "U", "current": "U", "integrity": "lo", "trusted": False} for it in "st"],
             "objects": [{"name": "r", "parent": None, **label}, {"name": "o", "parent": "r", **label}]}
    for cells, places in PERMITTED_TWICE:
        matrix = [("s", "r", ["read"]), *cells]
        for name, once in (("twice.json", False), ("once.json", True)):
            rows = matrix
            if once:
                rows = [(s, o, sorted({m for a, b, modes in matrix if (a, b) == (s, o) for m in modes})) for s, o in sorted({it[:2] for it in matrix})]
            put(name, json.dumps({**start, "matrix": [{"subject": s, "object": o, "modes": modes} for s, o, modes in rows]}).encode())
        status, rest, error = ran_program(["lint", "once.json"])
        told = "".join(f"{it}: repeated permission\n" for it in places) + rest.decode()
        answered(["lint", "twice.json"], told, 4 if told else 0)


def one_repeat_and_nothing_else():
    """A start of which lint has nothing to tell; with a member twice it has that, and ends with 4."""
    root = '{"name":"r","parent":null,"security":"U","integrity":"lo"}'
    for trusted, text, status in ("", "", 0), ('"trusted":true,', "/subjects/0/trusted: repeated member\n", 4):
        subject = f'{{"name":"s","maximum":"U","current":"U","integrity":"lo",{trusted}"trusted":false}}'
        put("once.json", f"""{{"security":{{"levels":["U"],"categories":[]}},"integrity":{{"levels":["lo"],"categories":[]}},
            "subjects":[{subject}],"objects":[{root}],
            "matrix":[{{"subject":"s","object":"r","modes":["read"]}}]}}""".encode())
        answered(["lint", "once.json"], text, status)


CHECKS = [lines_that_are_asked, lines_that_are_explained, releases_before_a_level, lines_that_ask_nothing, words_that_name_nothing,
          where_a_check_points, subjects_who_may, entries_that_are_explained, states_before_entries,
          faults_in_their_order, words_that_no_question_has, listed_entries, states_of_a_journal, suspicious_examples,
          powers_of_subjects, drawing_of_the_standard_start, names_that_are_numbers, entries_about_a_subject,
          entries_that_trust_granted, words_that_begin_no_reply,
          members_that_are_repeated, permissions_that_are_repeated, one_repeat_and_nothing_else]
