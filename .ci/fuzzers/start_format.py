"""A reader of start files, written from docs/FORMATS.md alone, as those of formats.py."""
import json
import math
import re

from formats import MODES, NAME, Refused, Start, has_label, label_of, require

DEPTH = 127
STRING = re.compile(rb'"(?:[^"\\]|\\.)*"', re.S)
# The members of each object of the file, and the type of each, where it is always the same.
FILE = {"security": dict, "integrity": dict, "subjects": list, "objects": list, "matrix": list,
        "accesses": list, "profile": int}
SCHEME = {"levels": list, "categories": list}
SUBJECT = {"name": str, "maximum": str, "current": str, "integrity": str, "trusted": bool}
OBJECT = {"name": str, "parent": object, "security": str, "integrity": str}
CELL = {"subject": str, "object": str, "modes": list}
# The members of the file that may be left out, and what they then are.
LEFT_OUT = {"profile": 1, "accesses": []}
# What each mode does: it observes, it alters, it uses.
OBSERVES, ALTERS, USES = {1, 3}, {2, 3}, {0, 1, 3}


def finite(text):
    """A number with a point or an exponent; those that a double can't hold are refused, as docs/FORMATS.md leaves it to
    JSON's reader."""
    require(math.isfinite(float(text)), "1 Json")
    return 0.5


def whole(text):
    """A whole number."""
    finite(text)
    return int(text) if len(text) < 20 else 0


def constant(_):
    raise Refused("1 Json")


def depth_of(text):
    """How deep JSON is nested."""
    deepest = depth = 0
    for byte in STRING.sub(b"", text):
        depth += (byte in b"[{") - (byte in b"]}")
        deepest = max(deepest, depth)
    return deepest


def json_of(text):
    """The value of bytes that are JSON."""
    try:
        value = json.loads(text.decode(), parse_int=whole, parse_float=finite, parse_constant=constant)
        for string in STRING.findall(text) if b"\\u" in text else ():
            json.loads(string).encode()
    except (ValueError, RecursionError):
        raise Refused("1 Json") from None
    require(text.count(b"[") + text.count(b"{") <= DEPTH or depth_of(text) <= DEPTH, "1 Json")
    return value


def require_members(value, members):
    require(type(value) is dict and value.keys() == members.keys(), "2 Members")
    require(all(kind is object or type(value[name]) is kind for name, kind in members.items()), "2 Members")


def require_types(data):
    """Sees that the file has the members that it must have, each of its type."""
    require(type(data) is dict, "2 Members")
    for name, value in LEFT_OUT.items():
        data.setdefault(name, value)
    require_members(data, FILE)
    require(data["profile"] in (1, 2), "2 Members")
    for scheme in (data["security"], data["integrity"]):
        require_members(scheme, SCHEME)
        require(all(type(name) is str for name in [*scheme["levels"], *scheme["categories"]]), "2 Members")
    for kind, members in (("subjects", SUBJECT), ("objects", OBJECT), ("matrix", CELL), ("accesses", CELL)):
        for it in data[kind]:
            require_members(it, members)
    parents = [type(it["parent"]) for it in data["objects"]]
    require(parents and parents[0] is type(None) and all(kind is str for kind in parents[1:]), "2 Members")
    cells = data["matrix"] + data["accesses"]
    require(all(type(mode) is str for cell in cells for mode in cell["modes"]), "2 Members")


def numbered(names):
    """The numbers of names, as bytes."""
    return {name.encode(): number for number, name in enumerate(names)}


def scheme_of(scheme):
    levels, categories = scheme["levels"], scheme["categories"]
    require(levels, "3 Scheme 1 NoLevels")
    require(len(levels) <= 16, "3 Scheme 2 TooManyLevels")
    require(len(categories) <= 256, "3 Scheme 3 TooManyCategories")
    require(all(NAME.fullmatch(name.encode()) for name in levels + categories), "3 Scheme 4 BadName")
    found = numbered(levels), numbered(categories)
    require([*map(len, found)] == [len(levels), len(categories)], "3 Scheme 5 RepeatedName")
    return found


def names_of(rows):
    found = numbered(it["name"] for it in rows)
    require(len(found) == len(rows) and all(map(NAME.fullmatch, found)), "4 Name")
    return found


def labels_of(rows, names, security, integrity):
    """The labels of each row, of these members."""
    schemes = {"integrity": integrity}
    texts = [[(it[name].encode(), schemes.get(name, security)) for name in names] for it in rows]
    require(all(has_label(*text) for row in texts for text in row), "5 Label")
    return [[label_of(*text) for text in row] for row in texts]


def dominates(high, low):
    return high[0] >= low[0] and high[1] & low[1] == low[1]


def start_of(text):
    """What a start file says."""
    data = json_of(text)
    require_types(data)
    security, integrity = scheme_of(data["security"]), scheme_of(data["integrity"])
    subjects, objects = names_of(data["subjects"]), names_of(data["objects"])
    of_subjects = labels_of(data["subjects"], ["maximum", "current", "integrity"], security, integrity)
    of_objects = labels_of(data["objects"], ["security", "integrity"], security, integrity)
    parents = [objects.get(it["parent"].encode()) for it in data["objects"][1:]]
    require(None not in parents, "6 Unknown")
    cells, accesses = [triples_of(data[name], subjects, objects) for name in ("matrix", "accesses")]
    require_start(of_subjects, of_objects, parents)
    require(accesses <= cells, "7 Start 10 NotSecure")
    trusted = [it["trusted"] for it in data["subjects"]]
    for subject, thing, mode in accesses:
        require_secure(of_subjects[subject], trusted[subject], of_objects[thing], mode)
    return Start(subjects, objects, security, integrity, cells, accesses, data["profile"])


def triples_of(rows, subjects, objects):
    """The triples of cells, by the numbers of their names."""
    found = [(subjects.get(it["subject"].encode()), objects.get(it["object"].encode()),
              [MODES.get(mode.encode()) for mode in it["modes"]]) for it in rows]
    require(not any(None in (subject, thing, *modes) for subject, thing, modes in found), "6 Unknown")
    return {(subject, thing, mode) for subject, thing, modes in found for mode in modes}


def require_secure(subject, is_trusted, thing, mode):
    """Sees that labels permit an access: simple security, star and integrity."""
    (maximum, current, own), (label, level) = subject, thing
    is_fit = [mode not in OBSERVES or dominates(maximum, label),
              is_trusted or mode not in OBSERVES or dominates(current, label),
              is_trusted or mode not in ALTERS or dominates(label, current), mode not in USES or dominates(level, own),
              mode not in ALTERS or dominates(own, level)]
    require(all(is_fit), "7 Start 10 NotSecure")


def require_start(subjects, objects, parents):
    """Sees that subjects, objects and their parents are a start's."""
    require(subjects, "7 Start 1 NoSubjects")
    require(len(subjects) <= 256, "7 Start 2 TooManySubjects")
    require(len(objects) <= 4096, "7 Start 3 TooManyObjects")
    require(all(parent < number for number, parent in enumerate(parents, 1)), "7 Start 5 BadParent")
    require(all(dominates(maximum, current) for maximum, current, _ in subjects), "7 Start 6 CurrentAboveMaximum")
    below = [*zip(objects[1:], [objects[parent] for parent in parents])]
    require(all(dominates(child[0], above[0]) for child, above in below), "7 Start 7 NotCompatible")
    require(all(dominates(above[1], child[1]) for child, above in below), "7 Start 8 IntegrityAboveParent")
