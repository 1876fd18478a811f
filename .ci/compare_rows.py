"""Comparisons of the examples with variants of themselves, with answers that were worked out by hand from docs/POLICY.md and docs/FORMATS.md."""
import json

from asking import GONE, OFFICE, STANDARD, asks, put_faulty, shown_below
from outside import EXAMPLES, examples, put, ran_program
from question_rows import MEMO, STRANGE

# sec makes #4, permits it to ann, who is below it; then ann takes the label that she has.
MADE = (
    b"0 0 2 get-write 0 yes\n1 0 2 create 0 2:1 1 created 4\n2 0 2 give read 0 4 yes\n3 0 0 get-read 4 no simple\n4 0 0 level 2:0 yes\n"
)
# the number of a deleted object is used again
AGAIN = (
    b"0 0 2 get-write 0 yes\n1 0 2 create 0 2:1 1 created 4\n2 0 2 delete 4 yes\n3 0 2 create 0 2:0 1 created 4\n4 0 2 give read 0 4 yes\n"
    b"5 0 0 get-read 4 yes\n"
)
# sec may not write root
DENIED = b"0 0 2 get-write 0 no discretionary\n1 0 2 delete 3 no authority\n2 0 2 create 0 0 1 no authority\n3 0 1 get-execute 3 yes\n"


def standard():
    with open(STANDARD, encoding="ascii") as file:
        return json.load(file)


def row(data, kind, name):
    return next(it for it in data[kind] if it["name"] == name)


def cell(data, subject, thing):
    return next(it for it in data["matrix"] if (it["subject"], it["object"]) == (subject, thing))


def as_it_is(data):
    pass


def profile_2(data):
    data["profile"] = 2


def newer(data):
    row(data, "subjects", "bob")["trusted"] = True
    row(data, "objects", "memo")["security"] = "U"
    data["objects"].append({"name": "draft", "parent": "root", "security": "U", "integrity": "hi"})
    cell(data, "sec", "root")["modes"].append("read")


def higher(data):
    row(data, "objects", "plans")["security"] = "T:A"


def without_bob(data):
    data["subjects"].remove(row(data, "subjects", "bob"))
    data["matrix"] = [it for it in data["matrix"] if it["subject"] != "bob"]


def reordered(data):
    data["objects"][1:] = reversed(data["objects"][1:])
    data["subjects"].reverse()
    data["security"]["categories"].reverse()


def of_other_categories(data):
    data["security"]["categories"][0] = "ALPHA"
    for it in (*data["subjects"], *data["objects"]):
        for key in {"maximum", "current", "security"} & set(it):
            it[key] = it[key].replace(":A", ":ALPHA")


def of_other_levels(data):
    data["integrity"]["levels"][1] = "high"
    for it in (*data["subjects"], *data["objects"]):
        it["integrity"] = it["integrity"].replace("hi", "high")


def of_other_order(data):
    data["security"]["levels"] = ["U", "R", "S", "C", "T"]
    data["security"]["categories"].append("N")


def trusting(data):
    """A change that shows in no get."""
    row(data, "subjects", "ann")["trusted"] = True


def lower(data):
    row(data, "subjects", "aud")["current"] = "C:A"
    row(data, "subjects", "sec")["maximum"] = "T:B,A"


def deeper(data):
    data["objects"][2:] = reversed(data["objects"][2:])
    row(data, "objects", "memo")["parent"] = "tool"


def of_other_root(data):
    names = {"root": "tool", "tool": "root"}
    for it in data["objects"]:
        it["name"], it["parent"] = names.get(it["name"], it["name"]), names.get(it["parent"], it["parent"])


def held(data):
    data["accesses"] = [{"subject": "ann", "object": "plans", "modes": ["read"]}]


def without_write(data):
    data["matrix"].remove(cell(data, "sec", "root"))


def writing_root(data):
    data["matrix"].append({"subject": "ann", "object": "root", "modes": ["write"]})


# a start, another, and what is told of them
STARTS = [
    (as_it_is, as_it_is, ""),
    (as_it_is, newer,
     "subject bob trusted: no > yes\nobject memo security: C > U\npermit sec read root: only in second.json\n"
     "only in second.json: object draft\nbob read memo: no star > yes\nsec read root: no discretionary > yes\n"),
    (newer, as_it_is,
     "subject bob trusted: yes > no\nobject memo security: U > C\npermit sec read root: only in first.json\n"
     "only in first.json: object draft\nbob read memo: yes > no star\nsec read root: yes > no discretionary\n"),
    (as_it_is, higher,
     "object plans security: S:A > T:A\n"
     "ann read plans: yes > no simple\nann write plans: yes > no simple\naud read plans: yes > no simple\n"),
    (as_it_is, without_bob, "only in first.json: subject bob\n"),
    (without_bob, newer,
     "object memo security: C > U\npermit sec read root: only in second.json\n"
     "only in second.json: subject bob\nonly in second.json: object draft\nsec read root: no discretionary > yes\n"),
    (newer, without_bob,
     "object memo security: U > C\npermit sec read root: only in first.json\n"
     "only in first.json: subject bob\nonly in first.json: object draft\nsec read root: yes > no discretionary\n"),
    (as_it_is, reordered, ""),
    (as_it_is, of_other_categories,
     "subject ann maximum: S:A > S:ALPHA\nsubject ann current: S:A > S:ALPHA\nsubject sec maximum: T:A,B > T:ALPHA,B\n"
     "subject aud maximum: S:A > S:ALPHA\nobject plans security: S:A > S:ALPHA\n"
     "only in first.json: security category A\nonly in second.json: security category ALPHA\n"),
    (as_it_is, of_other_levels,
     "subject ann integrity: hi > high\nsubject sec integrity: hi > high\nsubject aud integrity: hi > high\n"
     "object root integrity: hi > high\nobject plans integrity: hi > high\n"
     "only in first.json: integrity level hi\nonly in second.json: integrity level high\n"),
    (of_other_order, as_it_is,
     "security levels: U,S,C,T > U,C,S,T\nonly in first.json: security level R\nonly in first.json: security category N\n"
     "ann read memo: no simple > no integrity\n"),
    (as_it_is, profile_2, "profile: 1 > 2\n"),
    (as_it_is, trusting, "subject ann trusted: no > yes\n"),
    (as_it_is, lower, "subject aud current: U > C:A\n"),
    (as_it_is, deeper, "object memo parent: root > tool\n"),
    (deeper, as_it_is, "object memo parent: tool > root\n"),
    (as_it_is, of_other_root,
     "object root parent: (none) > tool\nobject root integrity: hi > lo\nobject plans parent: root > tool\n"
     "object memo parent: root > tool\nobject tool parent: root > (none)\nobject tool integrity: lo > hi\n"
     "ann execute tool: no integrity > yes\nsec write root: yes > no integrity\n"),
    (as_it_is, held, "access ann read plans: only in second.json\n"),
    (held, profile_2, "profile: 1 > 2\naccess ann read plans: only in first.json\n"),
    (as_it_is, without_write, "permit sec write root: only in first.json\nsec write root: yes > no discretionary\n"),
]

# a start, another, and what untrusted subjects could get by one of them alone
COULDS = [
    (as_it_is, as_it_is, ""), (as_it_is, reordered, ""), (as_it_is, profile_2, ""), (as_it_is, without_write, ""), (as_it_is, without_bob, ""),
    (as_it_is, newer, "could bob read memo: only in first.json\ncould bob execute tool: only in first.json\n"),
    (newer, as_it_is, "could bob read memo: only in second.json\ncould bob execute tool: only in second.json\n"),
    (as_it_is, higher, "could ann read plans: only in first.json\ncould ann write plans: only in first.json\n"),
    (as_it_is, writing_root,
     "could ann write root: only in second.json\n"
     "could ann execute plans: only in second.json\ncould ann append plans: only in second.json\n"
     "could ann append memo: only in second.json\ncould ann append tool: only in second.json\n"
     "could bob execute plans: only in second.json\n"
     "could bob execute memo: only in second.json\ncould bob append memo: only in second.json\ncould bob write memo: only in second.json\n"
     "could bob read tool: only in second.json\ncould bob append tool: only in second.json\ncould bob write tool: only in second.json\n"),
]

# a start, another, a journal of the first, and what is told of them
JOURNALS = [
    (as_it_is, newer, MEMO, "entry 1 bob get-read memo: no star > yes\n"), (as_it_is, newer, MADE, ""),
    (as_it_is, without_bob, MEMO, "entry 1 bob get-read memo: no star > undefined\n"), (as_it_is, reordered, MEMO, ""),
    (as_it_is, reordered, MADE, ""), (as_it_is, reordered, STRANGE, ""),
    (as_it_is, of_other_categories, MADE, "entry 4 ann level S:A: yes > undefined\n"),
    (as_it_is, of_other_levels, MADE,
     "entry 1 sec create root S:B hi: created 4 > undefined\nentry 2 sec give read ann #4: yes > undefined\n"
     "entry 3 ann get-read #4: no simple > undefined\n"),
    (as_it_is, without_write, MADE,
     "entry 0 sec get-write root: yes > no discretionary\nentry 1 sec create root S:B hi: created 4 > no authority\n"
     "entry 2 sec give read ann #4: yes > undefined\nentry 3 ann get-read #4: no simple > undefined\n"),
    (profile_2, as_it_is, AGAIN, ""), (profile_2, newer, AGAIN, ""),
    (without_write, profile_2, DENIED,
     "entry 0 sec get-write root: no discretionary > yes\nentry 1 sec delete tool: no authority > yes\n"
     "entry 2 sec create root U hi: no authority > created 3\nentry 3 bob get-execute tool: yes > undefined\n"),
    (as_it_is, as_it_is, b"", ""),
]


def variant(name, change):
    data = standard()
    change(data)
    return put(name, json.dumps(data).encode())


answered, refused, not_understood = asks("compare")


def told(words, text):
    answered(words, text, 4 if text else 0)


def starts_that_are_compared():
    for first, second, text in STARTS:
        told([variant("first.json", first), variant("second.json", second)], text)
    told([OFFICE, OFFICE], "")


def what_could_by_one_start_alone():
    for first, second, text in COULDS:
        told(["--could", variant("first.json", first), variant("second.json", second)], text)


def examples_of_the_documents():
    """The examples of docs/FORMATS.md."""
    for words in ([], ["--could"]):
        shown = dict(shown_below(" ".join(["mls compare", *words, "examples/standard.json new.json"])))
        told([*words, STANDARD, variant("new.json", newer)], shown[""].replace("examples/standard.json", STANDARD))


def journals_that_are_asked_of_another_start():
    for first, second, journal, text in JOURNALS:
        told([variant("first.json", first), variant("second.json", second), put("first.journal", journal)], text)


def faults_of_a_comparison():
    put_faulty(MEMO)
    put("broken.json", b"{")
    refused(["no.json", "none.json", "absent.journal"], f"no.json: {GONE}")
    refused(["empty.json", "none.json", "absent.journal"], f"none.json: {GONE}")
    refused(["empty.json", "broken.json", "absent.journal"], f"absent.journal: {GONE}")
    refused(["empty.json", "broken.json", "torn.journal"], "empty.json: start 1 Json: empty")
    refused([STANDARD, "broken.json", "torn.journal"], "broken.json: start 1 Json")
    refused([STANDARD, "broken.json", "forged.journal"], "broken.json: start 1 Json")
    refused([STANDARD, STANDARD, "torn.journal"], "torn.journal: line 3: entry 1 BadForm")
    refused([STANDARD, STANDARD, "forged.journal"], "forged.journal: replay 2 Differs at 1 expected no star, found yes", 3)
    for words in ([], ["--could"]):
        refused([*words, "empty.json", "broken.json"], "empty.json: start 1 Json: empty")
        refused([*words, STANDARD, "broken.json"], "broken.json: start 1 Json")
    not_understood([STANDARD], [], [STANDARD, STANDARD, "j", "k"], ["--at", "0", STANDARD, STANDARD], ["--could", STANDARD, STANDARD, "first.journal"])


def examples_compared():
    """Each example agrees with itself, also over the journal of its script; with its subjects in another order too, whose numbers are others."""
    for name in examples():
        start = f"{EXAMPLES}/{name}.json"
        assert ran_program(["run", "--journal", "run.journal", start, f"{EXAMPLES}/{name}.script"])[0] == 0
        with open(start, encoding="ascii") as file:
            data = json.load(file)
        data["subjects"].reverse()
        other = put("other.json", json.dumps(data).encode())
        for words in ([start, start], [start, other], [other, start], [start, start, "run.journal"], [start, other, "run.journal"]):
            told(words, "")


CHECKS = [starts_that_are_compared, what_could_by_one_start_alone, examples_of_the_documents, journals_that_are_asked_of_another_start,
          examples_compared, faults_of_a_comparison]
