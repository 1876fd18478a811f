"""The places that `mls lint` tells of start files that are refused: those of start_rows.py and others, with places that were worked out by hand from
docs/FORMATS.md ("Places of a fault"), and random damages of random starts, whose places are known from how they were made."""
import json
import random
import re

import question_worlds as worlds
import start_rows as rows
from outside import example, needs_proof, put, ran_program, same, some

SEED, DAMAGES = 1977, 240
NAME = "s.json"


def told_beside(file, text, told):
    """What mls lint says of a file for which mls check says this: that it is empty, or that mls complete takes it, where it does."""
    if not text:
        return told[:-1] + b": empty\n"
    if b"2 Members" in told and ran_program(["complete", file])[0] == 0:
        return told + f"mls: mls complete {file} fills in what is left out\n".encode()
    return told


def places(text):
    """The places that mls lint tells of a refused file. Its fault is told as by mls check, and the status is 1."""
    file = put(NAME, text)
    checked = ran_program(["check", file])
    status, output, error = ran_program(["lint", file])
    same(checked[:2], (1, b""))
    same((status, error), (1, told_beside(file, text, checked[2])))
    assert output.endswith(b"\n") and not re.search(rb"[^ -~\n]", output), f"{output} isn't lines of ASCII"
    return output.decode().splitlines()


def changed(changes, text=rows.SMALL):
    """A file with changes, each where its text stands first."""
    for old, new in changes:
        assert old in text, f"{old} isn't in {text}"
        text = text.replace(old, new, 1)
    return text.encode()


def listed(place):
    """A place alone, or several."""
    return place if isinstance(place, list) else [place]


def are_told(table, wanted):
    """Each change of the small file has its place, or its places, and no other."""
    same(len(table), len(wanted))
    for changes, place in zip(table, wanted):
        same((changes, places(changed(changes))), (changes, listed(place)))


def renamed(part, member, other):
    """The places of a member that has another key."""
    return [f"{part}/{member}: missing", f"{part}/{other}: unknown member"]


def times(count, *lines):
    return [*lines] * count


MISSING = [f"{it}: missing" for it in (
    "/security", "/integrity", "/subjects", "/objects", "/matrix", "/security/levels", "/security/categories", "/integrity/levels",
    "/subjects/0/name", "/subjects/0/maximum", "/subjects/0/current", "/subjects/0/trusted", "/objects/0/name", "/objects/0/parent",
    "/objects/1/name", "/objects/1/parent", "/matrix/0/subject", "/matrix/0/object", "/matrix/0/modes", "/integrity/categories",
    "/subjects/0/integrity", "/objects/0/security", "/objects/0/integrity", "/objects/1/security", "/objects/1/integrity",
)]

UNKNOWN_MEMBERS = [*[f"{it}/extra: unknown member" for it in ("", "/security", "/integrity", "/subjects/0",
                    "/objects/0", "/objects/1", "/matrix/0")], renamed("", "security", "Security"), renamed("", "subjects", "subject"),
                   renamed("", "matrix", "cells"), "/matrix: missing", "/access: unknown member", renamed("/security", "levels", "level"),
                   renamed("/security", "categories", "category"), renamed("/subjects/0", "maximum", "maximal"),
                   renamed("/subjects/0", "trusted", "trust"), renamed("/objects/0", "parent", "above"),
                   renamed("/matrix/0", "modes", "mode"), renamed("/objects/1", "name", "")]

TYPES = [*times(5, "/security: not an object"), *times(3, "/security/levels: not a list"),
         *times(3, "/security/levels/0: not a string"), "/security/levels/1: not a string",
         "/security/categories: not a list", *times(2, "/security/categories/0: not a string"),
         "/security/categories: not a list", "/integrity: not an object", *times(3, "/subjects: not a list"),
         *times(3, "/subjects/0: not an object"), *times(3, "/subjects/0/name: not a string"),
         *times(2, "/subjects/0/maximum: not a string"), *times(2, "/subjects/0/current: not a string"),
         *times(2, "/subjects/0/integrity: not a string"), *times(4, "/subjects/0/trusted: not true or false"),
         "/objects: empty", *times(3, "/objects: not a list"), *times(2, "/objects/0: not an object"),
         *times(2, "/objects/0/name: not a string"), *times(5, "/objects/0/parent: not null"),
         *times(2, "/objects/0/security: not a string"), "/objects/0/integrity: not a string",
         *times(3, "/objects/1: not an object"), "/objects/1/name: not a string",
         *times(3, "/objects/1/parent: not a string"), "/objects/1/security: not a string",
         "/objects/1/integrity: not a string", *times(3, "/matrix: not a list"), *times(3, "/matrix/0: not an object"),
         *times(2, "/matrix/0/subject: not a string"), *times(2, "/matrix/0/object: not a string"),
         *times(3, "/matrix/0/modes: not a list"), *times(3, "/matrix/0/modes/0: not a string"),
         "/matrix/0/modes/1: not a string"]

# (a member that the file has twice counts as its last value)
TWICE_WRONG = ["/subjects/0/trusted: not true or false"]

FILE_MEMBERS = ["/integrity: missing", "/subjects: missing", "/objects: missing", "/matrix: missing"]
OTHER_JSON = [["/security: missing", *FILE_MEMBERS], *times(6, "/: not an object"),
              ["/security/levels: missing", "/security/categories: missing", *FILE_MEMBERS], "/: not an object"]

# Where JSON breaks off: at the end, where a part begins that is no whole one, behind a number out of range, behind the bracket that nests too deep.
NO_JSON = ["line 1, column 0", "line 1, column 1", "line 1, column 1", "line 1, column 1", "line 1, column 3", "line 1, column 4", "line 1, column 11",
           "line 1, column 1", "not UTF-8", "line 1, column 1", "line 1, column 129"]
MORE_NO_JSON = [(b'{"security": [1,]', "/: line 1, column 17"), (b'{\n "a": 1\n "b": 2\n}', "/: line 3, column 2"),
                (b'{"a": tru}', "/: line 1, column 7"), (b'{"a":1.}', "/: line 1, column 6"),
                (b'["a\\x"]', "/: line 1, column 2"), (b"[\xff]", "/: not UTF-8"), (b'{}\n\n  "\xc3"', "/: not UTF-8"),
                (b"{}\n\n  x", "/: line 3, column 3")]

VALUES = [None, "/subjects/0/trusted: not true or false", None, "/subjects/0/name: bad name"]

SCHEMES = ["/security/levels: no level", "/security/levels: more than 16", "/security/categories: more than 256",
           *times(3, "/security/levels/1: bad name"), *times(2, "/security/categories/0: bad name"),
           "/security/levels/1: repeated name", "/security/categories/2: repeated name", "/integrity/levels: no level",
           "/integrity/levels/1: repeated name", "/integrity/categories/1: repeated name",
           "/security/levels/1: repeated name", *times(2, "/security/levels: no level")]

LABEL_PLACES = ["/subjects/0/maximum", "/subjects/0/current", "/subjects/0/integrity", "/objects/0/security", "/objects/0/integrity",
                "/objects/1/security", "/objects/1/integrity"]
LABEL_ENDS = [*times(4, "bad form"), *times(2, "unknown category"), *times(2, "repeated category")]
NO_LABELS = ["bad form", "unknown level", "unknown level", "bad form", "bad form", "unknown level"]

NAMES = [*times(8, "/subjects/0/name: bad name"), *times(8, "/objects/0/name: bad name"),
         *times(8, "/objects/1/name: bad name"), "/subjects/1/name: repeated name", "/objects/1/name: repeated name",
         "/objects/2/name: repeated name"]

UNKNOWN = [*times(4, "/objects/1/parent: no such object"), *times(3, "/matrix/0/subject: no such subject"),
           *times(2, "/matrix/0/object: no such object"), *times(2, "/matrix/0/modes/0: no such mode"),
           "/matrix/0/modes/1: no such mode", *times(2, "/matrix/0/modes/0: no such mode")]

STARTS = ["/subjects: no subject", "/objects/1/parent: not before it, in a cycle", "/objects/1/parent: not before it",
          "/subjects/0/current: maximum does not dominate it", "/objects/1/security: does not dominate the parent's",
          "/objects/1/integrity: the parent's does not dominate it"]

ACCESSES = [
    *times(4, "/accesses: not a list"), *times(3, "/accesses/0: not an object"),
    [f"/accesses/0/{it}: missing" for it in ("subject", "object", "modes")], "/accesses: not a list",
    "/accesses/0/modes: missing", "/accesses/0/modes: not a list", "/accesses/0/modes/0: not a string", "/accesses/0/subject: not a string",
    "/accesses/0/extra: unknown member", "/accesses/0/subject: no such subject", "/accesses/0/object: no such object",
    "/accesses/0/modes/0: no such mode", "/accesses/0/object: no such object", "/accesses/0/modes/0: discretionary",
    "/accesses/0/modes/1: discretionary",
]
STANDARD_ACCESSES = ["star", "discretionary", "integrity", "integrity", "discretionary"]

PROFILES = [*times(18, "/profile: not 1 or 2"), "/: line 1, column 12", "/: line 1, column 12"]

TWO_FAULTS = [renamed("/matrix/0", "modes", "mode"), "/subjects/0/trusted: not true or false", "/integrity/levels: no level",
              "/security/levels/1: repeated name", "/objects/1/name: repeated name", "/objects/1/name: bad name",
              "/objects/1/integrity: unknown level", "/objects/1/integrity: unknown category",
              "/matrix/0/modes/0: no such mode", "/matrix/0/object: no such object", renamed("/matrix/0", "modes", "mode")]

COUNTS = ["/subjects: more than 256", "/objects: more than 4096", "/subjects: more than 256", "/subjects: no subject",
          "/objects/4096/security: unknown level", "/objects/4096/parent: no such object", "/objects: more than 4096",
          "/objects: more than 4096", "/objects/65540/parent: no such object", "/objects: more than 4096"]

# Keys that a line can't have as they are.
KEYS = [("a/b", "a~1b"), ("a~b", "a~0b"), ("~1", "~01"), ("", ""), ("a b", r"a\x20b"), ("\n", r"\x0a"), ('"', '"'), ("\\", r"\x5c"),
        ("\x7f", r"\x7f"), ("é", r"\xc3\xa9"), ("/: x", r"~1:\x20x"), ("!~}", "!~0}")]

# Several places at once: changes of the small file.
TWO_SUBJECTS = rows.SUBJECT + "," + rows.SUBJECT.replace('"s"', '"t"')
SEVERAL = [
    ([('"levels":["U"]', '"levels":[1,"U",[]],"b":0,"a":0'), ('"trusted":false', '"trusted":"no"'), ('"name":"s",', ""), ('"parent":null', '"parent":"x"'),
      ('"subject":"s",', ""), ("{", '{"profile":"2","frob":{},')],
     ["/security/levels/0: not a string", "/security/levels/2: not a string", "/security/a: unknown member", "/security/b: unknown member",
      "/subjects/0/name: missing", "/subjects/0/trusted: not true or false", "/objects/0/parent: not null", "/matrix/0/subject: missing",
      "/profile: not 1 or 2", "/frob: unknown member"]),
    ([(rows.SUBJECT, f'{rows.SUBJECT},{{}},7'), (f"[{rows.CELL}]", '{"modes":[]}')],
     [*[f"/subjects/1/{it}: missing" for it in ("name", "maximum", "current", "integrity", "trusted")], "/subjects/2: not an object",
      "/matrix: not a list"]),
    ([(rows.LEVELS, '["U","a b","","U"]'), (rows.CATEGORIES, '"categories":["A","A","é"]'), ('["lo"]', '["lo","x.y"]')],
     ["/security/levels/1: bad name", "/security/levels/2: bad name", "/security/categories/2: bad name", "/integrity/levels/1: bad name"]),
    ([(rows.LEVELS, '["U","U","C","C","U"]'), (rows.CATEGORIES, '"categories":["A","A"]'), ('["lo"]', '["lo","lo"]')],
     ["/security/levels/1: repeated name", "/security/levels/3: repeated name", "/security/levels/4: repeated name",
      "/security/categories/1: repeated name", "/integrity/levels/1: repeated name"]),
    ([(rows.LEVELS, "[]"), ('["lo"]', "[]")], ["/security/levels: no level", "/integrity/levels: no level"]),
    ([(rows.CATEGORIES, f'"categories":[{rows.names(257)}]'), (rows.CATEGORIES, f'"categories":[{rows.names(258)}]')],
     ["/security/categories: more than 256", "/integrity/categories: more than 256"]),
    ([(rows.SUBJECT, ",".join([rows.SUBJECT] * 3)), ('"name":"r"', '"name":""'), ('"name":"o"', '"name":""')],
     ["/subjects/1/name: repeated name", "/subjects/2/name: repeated name", "/objects/0/name: bad name", "/objects/1/name: bad name"]),
    ([('"maximum":"U","current":"U","integrity":"lo"', '"maximum":"Q","current":"U:","integrity":"lo:A"'), ('null,"security":"U"', 'null,"security":"u"'),
      ('"lo"}]', '"hi"}]')],
     ["/subjects/0/maximum: unknown level", "/subjects/0/current: bad form", "/subjects/0/integrity: unknown category",
      "/objects/0/security: unknown level", "/objects/1/integrity: unknown level"]),
    ([('"parent":"r"', '"parent":"x"'), ('{"subject":"s","object":"o","modes":["read"]}]',
                                         '{"subject":"x","object":"s","modes":["read","w","","write"]}],"accesses":[{"modes":["Read"],"object":"y","subject":"r"}]')],
     ["/objects/1/parent: no such object", "/matrix/0/subject: no such subject", "/matrix/0/object: no such object", "/matrix/0/modes/1: no such mode",
      "/matrix/0/modes/2: no such mode", "/accesses/0/subject: no such subject", "/accesses/0/object: no such object",
      "/accesses/0/modes/0: no such mode"]),
    ([(rows.CHILD, ",".join(rows.CHILD.replace('"o"', f'"{it}"').replace('"r"', f'"{above}"') for it, above in ("op", "pr", "qq", "xo")))],
     ["/objects/1/parent: not before it", "/objects/3/parent: not before it, in a cycle"]),
    ([(rows.CHILD, ",".join(rows.CHILD.replace('"o"', f'"{it}"').replace('"r"', f'"{above}"') for it, above in ("ao", "oq", "po", "qp")))],
     ["/objects/1/parent: not before it", "/objects/2/parent: not before it, in a cycle"]),
    ([(rows.LEVELS, '["U","C"]'), (rows.SUBJECT, TWO_SUBJECTS.replace('"current":"U"', '"current":"C"'))],
     ["/subjects/0/current: maximum does not dominate it", "/subjects/1/current: maximum does not dominate it"]),
    ([(rows.LEVELS, '["U","C"]'), ('null,"security":"U"', 'null,"security":"C"'),
      (rows.CHILD, rows.CHILD + "," + rows.CHILD.replace('"o"', '"p"').replace('"U"', '"C"') + "," + rows.CHILD.replace('"o"', '"q"').replace('"r"', '"p"'))],
     ["/objects/1/security: does not dominate the parent's", "/objects/3/security: does not dominate the parent's"]),
    ([('["lo"]', '["lo","hi"]'), (rows.CHILD, ",".join(rows.CHILD.replace('"o"', f'"{it}"').replace('"lo"', '"hi"') for it in "opq"))],
     [f"/objects/{it}/integrity: the parent's does not dominate it" for it in (1, 2, 3)]),
]

# Accesses of the standard file, and what is told of each of their modes, if anything.
SEVERAL_ACCESSES = ([("ann", "plans", ["read", "write", "append"]), ("bob", "memo", ["read", "read", "execute"]),
                     ("sec", "memo", ["append", "write"]), ("bob", "plans", ["append"]), ("aud", "plans", ["read"])],
                    ["/accesses/0/modes/2: discretionary", "/accesses/1/modes/0: star", "/accesses/1/modes/1: star",
                     "/accesses/1/modes/2: discretionary", "/accesses/2/modes/1: integrity",
                     "/accesses/3/modes/0: integrity"])


def members_left_out():
    are_told(rows.MISSING, MISSING)


def unknown_members():
    are_told(rows.UNKNOWN_MEMBERS, UNKNOWN_MEMBERS)
    for key, written in KEYS:
        text = rows.SMALL.replace('{"name":"o"', '{' + f'{json.dumps(key, ensure_ascii=False)}:0,"name":"o"', 1)
        same((key, places(text.encode())), (key, [f"/objects/1/{written}: unknown member"]))


@needs_proof
def many_unknown_members():
    keys = [f"x{number}" for number in range(100_000)]
    many = "".join(f'"{key}":null,' for key in keys)
    same(places(rows.SMALL.replace("{", "{" + many, 1).encode()), [f"/{key}: unknown member" for key in sorted(keys)])


def values_of_other_types():
    are_told(rows.TYPES, TYPES)
    are_told(rows.TWICE_WRONG, TWICE_WRONG)
    for text, place in zip(rows.OTHER_JSON, OTHER_JSON, strict=True):
        same((text, places(text)), (text, listed(place)))


def texts_that_are_no_json():
    for text, place in [*zip(rows.NO_JSON, (f"/: {it}" for it in NO_JSON), strict=True), *MORE_NO_JSON]:
        same((text, places(text)), (text, [place]))


def cut_off(head):
    """Where a file breaks off that is cut here: where the string or the word begins that isn't whole, or at its end."""
    word = re.search(rb"[a-z]+\Z", head)
    if head.count(b'"') % 2:
        place = head.rfind(b'"') + 1
    elif word and word[0] not in (b"true", b"false", b"null"):
        place = word.start() + 1
    else:
        place = len(head)
    return f"/: line {head[:place].count(10) + 1}, column {place - head.rfind(10, 0, place) - 1}"


def files_that_are_cut():
    text = example("standard.json").rstrip()
    for count in some(range(0, len(text), 7), 9):
        same((count, places(text[:count])), (count, [cut_off(text[:count])]))


def numbers_and_surrogates():
    for (_, table), place in zip(rows.VALUES, VALUES, strict=True):
        if place:
            are_told(table, [place])


def schemes():
    are_told([changes for _, changes in rows.SCHEMES], SCHEMES)


def labels_in_each_place():
    for (before, old, after), place in zip(rows.LABEL_PLACES, LABEL_PLACES, strict=True):
        ends = [(old + end, words) for end, words in zip(rows.LABEL_ENDS, LABEL_ENDS, strict=True)]
        for label, words in [*ends, *zip(rows.NO_LABELS, NO_LABELS, strict=True)]:
            text = changed([(f'{before}"{old}"{after}', f'{before}"{label}"{after}')]).replace(b'"categories":[]', b'"categories":["A","B"]')
            same((label, places(text)), (label, [f"{place}: {words}"]))


def names_of_subjects_and_objects():
    are_told(rows.NAMES, NAMES)


def names_that_stand_for_nothing():
    are_told(rows.UNKNOWN, UNKNOWN)


def starts_that_are_refused():
    are_told([changes for _, changes in rows.STARTS], STARTS)


def with_accesses(text, accesses):
    return text.rstrip()[:-1] + b',"accesses":' + accesses.encode() + b"}"


def accesses():
    small, standard = rows.SMALL.encode(), example("standard.json")
    for text, place in zip([text for wanted, text in rows.ACCESSES if isinstance(wanted, str)], ACCESSES, strict=True):
        same((text, places(with_accesses(small, text))), (text, listed(place)))
    cell = lambda s, o, modes: {"subject": s, "object": o, "modes": modes}
    faulty = [cell(s, o, [x]) for wanted, s, o, x in rows.STANDARD_ACCESSES if isinstance(wanted, str)]
    for access, words in zip(faulty, STANDARD_ACCESSES, strict=True):
        same((access, places(with_accesses(standard, json.dumps([access])))), (access, [f"/accesses/0/modes/0: {words}"]))
    cells, wanted = SEVERAL_ACCESSES
    same(places(with_accesses(standard, json.dumps([cell(*it) for it in cells]))), wanted)


def profiles():
    faulty = [text for wanted, text in rows.PROFILES if isinstance(wanted, str)]
    for profile, place in zip(faulty, PROFILES, strict=True):
        same((profile, places(rows.SMALL.replace("{", f'{{"profile":{profile},', 1).encode())), (profile, [place]))


def two_faults_at_once():
    are_told([changes for _, changes in rows.TWO_FAULTS], TWO_FAULTS)


def several_places():
    for changes, wanted in SEVERAL:
        same((changes, places(changed(changes))), (changes, wanted))


def changes_of_the_standard_file():
    """The changes that check-program makes."""
    text = example("standard.json")
    plans = next(line for line in text.splitlines() if b'"name": "plans"' in line)
    for refused, place in (
        (text.replace(b'"trusted": false', b'"trusted": 0', 1), "/subjects/0/trusted: not true or false"),
        (text.replace(b'"levels": ["U", "C", "S", "T"]', b'"levels": []'), "/security/levels: no level"),
        (text.replace(b'["lo", "hi"]', b'["lo", "lo"]'), "/integrity/levels/1: repeated name"),
        (text.replace(b'"name": "bob"', b'"name": "ann"'), "/subjects/1/name: repeated name"),
        (text.replace(b'"T:A,B"', b'"T:A,A"'), "/subjects/2/maximum: repeated category"),
        (text.replace(plans, plans.replace(b"root", b"roof")), "/objects/1/parent: no such object"),
        (text.replace(plans, plans.replace(b"root", b"plans")), "/objects/1/parent: not before it, in a cycle"),
    ):
        same(places(refused), [place])


def chain(subjects, objects, last):
    """A file of so many subjects and objects, each object below the one before it, and last this text in the list of objects."""
    people = ",".join(rows.SUBJECT.replace('"s"', f'"s{number}"') for number in range(subjects))
    things = [rows.ROOT.replace('"r"', '"o0"')]
    things += [rows.CHILD.replace('"o"', f'"o{number}"').replace('"r"', f'"o{number - 1}"') for number in range(1, objects)]
    return (f'{{"security":{rows.LOW},"integrity":{rows.INTEGRITY},"subjects":[{people}],"objects":[{",".join(things)}{last}],'
            f'"matrix":[]}}').encode()


@needs_proof
def files_of_many_subjects_and_objects():
    for (subjects, objects, last, _), place in zip([it for it in rows.COUNTS if it[3]], COUNTS, strict=True):
        same((subjects, objects, last, places(chain(subjects, objects, last))), (subjects, objects, last, [place]))


@needs_proof
def files_of_one_name_or_of_many_cells():
    """Places are told in time that grows with the file: of 60,000 objects of one name, and of 60,000 cells of which two are refused."""
    objects = ",".join([rows.CHILD] * 60_000)
    wanted = [f"/objects/{number}/name: repeated name" for number in range(2, 60_001)]
    same(places(changed([(rows.CHILD, objects)])), wanted)
    cells = [rows.CELL] * 60_000
    cells[100] = rows.CELL.replace("read", "reed")
    cells[-1] = rows.CELL.replace('"s"', '"z"')
    same(places(changed([(rows.CELL, ",".join(cells))])), ["/matrix/100/modes/0: no such mode", "/matrix/59999/subject: no such subject"])


def is_below_itself(name, above):
    """Whether the parents from an object on lead back to it."""
    seen, at = [], above[name]
    while at is not None and at not in seen:
        seen.append(at)
        at = above[at]
    return name in seen


class Damage:
    """A random start, to be damaged in some places for one fault."""

    def __init__(self, rnd):
        self.rnd, self.data = rnd, json.loads(worlds.start(rnd))

    def some(self, count):
        """Some of so many places, at least one, in their order."""
        return sorted(self.rnd.sample(range(count), self.rnd.randint(1, count)))

    def cells(self):
        """Each cell with the list that it stands in, and its place there."""
        return [(name, n, cell) for name in ("matrix", "accesses") for n, cell in enumerate(self.data[name])]

    def security(self, text):
        """A security label by the names that the start has, given by those that stand there in the first scheme of the worlds."""
        (levels, categories), own = worlds.SCHEMES[0], self.data["security"]
        level, _, rest = text.partition(":")
        found = ",".join(own["categories"][categories.index(it)] for it in rest.split(",") if it)
        return own["levels"][levels.index(level)] + (f":{found}" if found else "")

    def member(self):
        """Members that are left out, are added or are of another type, of a row; another is left out of a later row."""
        rows_of = [(name, n, row) for name in ("subjects", "objects", "matrix", "accesses") for n, row in enumerate(self.data[name])]
        first, second = (rows_of[it] for it in sorted(self.rnd.sample(range(len(rows_of)), 2)))
        order = {"subjects": ["name", "maximum", "current", "integrity", "trusted"], "objects": ["name", "parent", "security", "integrity"]}
        keys = order.get(first[0], ["subject", "object", "modes"])
        left_out, _ = second[2].popitem()
        last = f"/{second[0]}/{second[1]}/{left_out}: missing"
        words = self.rnd.choice(("missing", "unknown member", "type"))
        if words == "unknown member":
            first[2]["b"] = first[2]["aa"] = 0
            return [*[f"/{first[0]}/{first[1]}/{it}: unknown member" for it in ("aa", "b")], last]
        found = []
        for key in (keys[it] for it in self.some(len(keys))):
            if words == "missing":
                del first[2][key]
            else:
                first[2][key] = {}
            root = (first[0], first[1], key) == ("objects", 0, "parent")
            other = {"trusted": "not true or false", "modes": "not a list"}.get(key, "not null" if root else "not a string")
            found.append(f"/{first[0]}/{first[1]}/{key}: {words if words == 'missing' else other}")
        return [*found, last]

    def scheme(self):
        """Names of a scheme that are none, or that stand before in their list."""
        bad, found = self.rnd.random() < 0.5, []
        for scheme in ("security", "integrity"):
            for kind in ("levels", "categories"):
                names = self.data[scheme][kind]
                where = self.some(len(names))
                if bad:
                    for k in where:
                        names[k] = self.rnd.choice(("", "a b", 33 * "x", "\u00e9"))
                    found += [f"/{scheme}/{kind}/{k}: bad name" for k in where]
                else:
                    found += [f"/{scheme}/{kind}/{len(names) + k}: repeated name" for k in range(len(where))]
                    names += [names[k] for k in where]
        return found

    def name(self):
        found = []
        for kind in ("subjects", "objects"):
            for n in self.some(len(self.data[kind])):
                if n and self.rnd.random() < 0.5:
                    first = self.data[kind][0]["name"]
                    self.data[kind][n]["name"] = first
                    found.append(f"/{kind}/{n}/name: " + ("repeated name" if first and " " not in first else "bad name"))
                else:
                    self.data[kind][n]["name"] = self.rnd.choice(("", "a b"))
                    found.append(f"/{kind}/{n}/name: bad name")
        return found

    def label(self):
        wrong = {"bad form": "U:", "unknown level": "Z:A,Q", "unknown category": "{}:Q,Q", "repeated category": "{}:{},{}"}
        found = []
        for kind, keys in (("subjects", ("maximum", "current", "integrity")), ("objects", ("security", "integrity"))):
            for n in self.some(len(self.data[kind])):
                for key in (keys[it] for it in self.some(len(keys))):
                    scheme = self.data["integrity" if key == "integrity" else "security"]
                    level, category = scheme["levels"][0], scheme["categories"][0]
                    words = self.rnd.choice(list(wrong))
                    self.data[kind][n][key] = wrong[words].format(level, category, category)
                    found.append(f"/{kind}/{n}/{key}: {words}")
        return found

    def unknown(self):
        found = []
        for n, row in enumerate(self.data["objects"][1:], 1):
            if self.rnd.random() < 0.4:
                row["parent"] = "s0"
                found.append(f"/objects/{n}/parent: no such object")
        for name, n, cell in self.cells():
            for key in ("subject", "object"):
                if self.rnd.random() < 0.2:
                    cell[key] = {"subject": "o0", "object": ""}[key]
                    found.append(f"/{name}/{n}/{key}: no such {key}")
            for k in range(len(cell["modes"])):
                if self.rnd.random() < 0.2:
                    cell["modes"][k] = "Read"
                    found.append(f"/{name}/{n}/modes/{k}: no such mode")
        return found

    def parent(self):
        """Objects below themselves or below a later one."""
        objects, found = self.data["objects"], []
        for n, row in enumerate(objects[1:], 1):
            if self.rnd.random() < 0.5:
                row["parent"] = objects[self.rnd.randrange(n, len(objects))]["name"]
                found.append(n)
        above = {row["name"]: row["parent"] for row in objects}
        return [f"/objects/{n}/parent: not before it{', in a cycle' * is_below_itself(objects[n]['name'], above)}" for n in found]

    def current(self):
        """Subjects whose maximum lacks a level or a category that their current label has."""
        found = []
        for n in self.some(len(self.data["subjects"])):
            maximum, current = self.rnd.choice((("S:A,B", "T:A"), ("T:A", "U:B")))
            self.data["subjects"][n].update({"maximum": self.security(maximum), "current": self.security(current)})
            found.append(f"/subjects/{n}/current: maximum does not dominate it")
        return found

    def compatible(self):
        """All objects below the root, of which each has the label of the root or one beside it."""
        objects, found = self.data["objects"], []
        key, words = self.rnd.choice((("security", "does not dominate the parent's"), ("integrity", "the parent's does not dominate it")))
        if key == "integrity":
            for row in objects:
                row["security"] = self.security("U")
        for n, row in enumerate(objects):
            row[key] = {"security": self.security("C:A"), "integrity": "lo"}[key]
            if n and self.rnd.random() < 0.5:
                security, integrity = self.security(self.rnd.choice(("T:B", "U:A"))), self.rnd.choice(("hi", "lo:I"))
                row[key] = {"security": security, "integrity": integrity}[key]
                found.append(f"/objects/{n}/{key}: {words}")
            if n:
                row["parent"] = objects[0]["name"]
        return found

    def access(self):
        """Accesses that nothing permits, behind those that are right."""
        data = self.data
        data["matrix"] = [it for it in data["matrix"] if it["object"] != "o0"]
        data["accesses"] = [it for it in data["accesses"] if it["object"] != "o0"]
        n = len(data["accesses"])
        data["accesses"].append({"subject": "s0", "object": "o0", "modes": ["read", "execute", "read"]})
        return [f"/accesses/{n}/modes/{k}: discretionary" for k in range(3)]


KINDS = [Damage.member, Damage.scheme, Damage.name, Damage.label, Damage.unknown, Damage.parent, Damage.current, Damage.compatible, Damage.access]


def random_damages():
    rnd = random.Random(SEED)
    told = 0
    for number in range(DAMAGES):
        damage = Damage(rnd)
        wanted = KINDS[number % len(KINDS)](damage)
        if wanted:
            told += 1
            same((number, places(json.dumps(damage.data, indent=rnd.choice((None, 1))).encode())), (number, wanted))
    assert told > DAMAGES * 3 // 4, f"only {told} damages"


CHECKS = [members_left_out, unknown_members, many_unknown_members, values_of_other_types, texts_that_are_no_json,
          files_that_are_cut, numbers_and_surrogates, schemes, labels_in_each_place, names_of_subjects_and_objects,
          names_that_stand_for_nothing, starts_that_are_refused, accesses, profiles, two_faults_at_once, several_places,
          changes_of_the_standard_file, files_of_many_subjects_and_objects, files_of_one_name_or_of_many_cells,
          random_damages]
