"""Start files by chance: valid ones, and the same written otherwise."""
import json
import re

from formats import Refused
from start_format import start_of

MODES = ["execute", "read", "append", "write"]
MEMBER = re.compile(rb'"\w+": *(?:"[^"]*"|true|false|null|\[[^\]{]*\])')
STRING = re.compile(rb'"[^"\\]+"')
TOKEN = re.compile(rb'"[^"]*"|[\w.+-]+|[{}\[\],:]')
SPACES = (b" ", b"\n", b"\t", b"\r\n", b"  ")


def scheme(rng):
    levels, categories = rng.choice((2, 1, 2, 4, 16)), rng.choice((0, 1, 2, 3, 64, 256))
    return {"levels": [f"l{n}" for n in range(levels)], "categories": [f"c{n}" for n in range(categories)]}


def label(rng, names, least=(0, ())):
    """A label that dominates another, as a level and names of categories."""
    more = rng.sample(names["categories"], min(rng.choice((0, 0, 1, 2)), len(names["categories"])))
    categories = [name for name in names["categories"] if name in least[1] or name in more]
    return rng.randrange(least[0], len(names["levels"])), categories


def label_below(rng, most):
    """A label that another dominates."""
    return rng.randrange(most[0] + 1), [name for name in most[1] if rng.random() < 0.7]


def text_of(rng, level_and_categories, names):
    """The text of a label, its categories in some order."""
    level, categories = level_and_categories
    chosen = rng.sample(categories, len(categories))
    return names["levels"][level] + (":" + ",".join(chosen) if chosen else "")


def subject(rng, number, security, integrity):
    maximum = label(rng, security)
    return {"name": f"s{number}", "maximum": text_of(rng, maximum, security),
            "current": text_of(rng, label_below(rng, maximum), security),
            "integrity": text_of(rng, label(rng, integrity), integrity), "trusted": rng.random() < 0.3}


def objects(rng, count, security, integrity):
    """A tree of objects: from parent to child security rises and integrity falls."""
    labels, parents = [(label(rng, security), label(rng, integrity))], [None]
    for number in range(1, count):
        parent = rng.randrange(number)
        labels.append((label(rng, security, labels[parent][0]), label_below(rng, labels[parent][1])))
        parents.append(f"o{parent}")
    return [{"name": f"o{number}", "parent": parent, "security": text_of(rng, secrecy, security),
             "integrity": text_of(rng, trust, integrity), } for number,
            (parent, (secrecy, trust)) in enumerate(zip(parents, labels))]


def cell(rng, data):
    return {"subject": rng.choice(data["subjects"])["name"], "object": rng.choice(data["objects"])["name"],
            "modes": [rng.choice(MODES) for _ in range(rng.randrange(4))]}


def held(rng, data):
    """Some of what the matrix permits, where it may be accessed."""
    found = []
    for it in data["matrix"]:
        for mode in it["modes"]:
            access = {**it, "modes": [mode]}
            try:
                start_of(json.dumps({**data, "accesses": [access]}).encode())
            except Refused:
                continue
            found.append(access)
    return rng.sample(found, rng.randrange(len(found) + 1))


def valid(rng):
    """A start file, as JSON."""
    data = {"security": scheme(rng), "integrity": scheme(rng)}
    kinds = data["security"], data["integrity"]
    data["subjects"] = [subject(rng, number, *kinds) for number in range(rng.choice((1, 2, 3, 5)))]
    data["objects"] = objects(rng, rng.choice((1, 2, 4, 8)), *kinds)
    data["matrix"] = [cell(rng, data) for _ in range(rng.choice((0, 1, 3, 6)))]
    if rng.random() < 0.5:
        data["accesses"] = held(rng, data)
    if rng.random() < 0.5:
        data["profile"] = rng.choice((1, 2))
    return data


def written(rng, data):
    """The bytes of a file."""
    return json.dumps(data, separators=rng.choice(((",", ":"), (", ", ": "))), ensure_ascii=rng.random() < 0.5).encode()


def respelt(rng, text):
    """A file that says the same: a space more, a byte as an escape, or a member that stands twice."""
    way = rng.randrange(3)
    found = [*(TOKEN, STRING, MEMBER)[way].finditer(text)]
    if not found:
        return text
    it = rng.choice(found)
    if way == 0:
        return text[:it.start()] + rng.choice(SPACES) + text[it.start():]
    if way == 1:
        at = rng.randrange(it.start() + 1, it.end() - 1)
        return text[:at] + b"\\u%04x" % text[at] + text[at + 1:]
    return text[:it.end()] + b"," + it[0] + text[it.end():]
