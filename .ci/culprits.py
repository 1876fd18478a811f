"""What is told of a word of a question that names nothing, in Python from docs/FORMATS.md ("Words that name nothing"), and random lines with such
words over random starts whose names are near to each other."""
import functools

# What the words behind the subject and the action's word are: a mode, a subject, an object, a label.
OPERANDS = {"check": "mo", "get-execute": "o", "get-read": "o", "get-append": "o", "get-write": "o", "release": "mo",
            "give": "mso", "rescind": "mso", "create": "oci", "delete": "o", "level": "c", "relabel": "oc"}
LONGEST, FAR = 34, 2
LETTERS = "abA-"


@functools.cache
def distance(one, other):
    """How many characters are put in, taken out or changed, tried from the front."""
    if not one or not other:
        return len(one) + len(other)
    if one[0] == other[0]:
        return distance(one[1:], other[1:])
    return 1 + min(distance(one[1:], other), distance(one, other[1:]), distance(one[1:], other[1:]))


def meant(word, names):
    """The nearest of some names to a word that is none of them, in brackets; of several the first."""
    if len(word.encode()) > LONGEST:
        return ""
    apart = [distance(word, name) for name in names]
    near = min(apart, default=FAR + 1)
    return f" ({names[apart.index(near)]}?)" if near <= min(FAR, len(word.encode()) - 1) else ""


def names_of(data, kind):
    return [it["name"] for it in data[{"s": "subjects", "o": "objects"}[kind]]]


def scheme_of(data, kind):
    return data[{"c": "security", "i": "integrity"}[kind]]


def is_label(text, scheme):
    level, colon, more = text.partition(":")
    words = more.split(",") if colon else []
    return level in scheme["levels"] and all(it in scheme["categories"] for it in words) and len(set(words)) == len(words)


def label_meant(text, scheme):
    level, _, more = text.partition(":")
    if level not in scheme["levels"]:
        return meant(level, scheme["levels"])
    unknown = [it for it in more.split(":")[0].split(",") if it not in scheme["categories"]]
    return meant(unknown[0], scheme["categories"]) if more and unknown else ""


def told(data, line):
    """What is told of a line that has its form; nothing where it has no fault."""
    subject, action, *operands = line.split()
    parts = [("s", subject), *zip(OPERANDS[action], operands)]
    for place, (kind, word) in enumerate(parts):
        if kind in "so" and not word.startswith("#") and word not in names_of(data, kind):
            is_object = place == 0 and word in names_of(data, "o")
            more = ": it is an object: mls about" if is_object else meant(word, names_of(data, kind))
            return f"mls: line: bad name: {word}{more}\n"
    for kind, word in parts:
        if kind in "ci" and not is_label(word, scheme_of(data, kind)):
            return f"mls: line: bad label: {word}{label_meant(word, scheme_of(data, kind))}\n"
    return ""


def misspelled(rnd, word):
    """A word with one to three characters put in, taken out or changed; the first stands."""
    for _ in range(rnd.randint(1, 3)):
        at = rnd.randint(1, len(word))
        word = word[:at] + rnd.choice(("", rnd.choice(LETTERS))) + word[at + rnd.randint(0, 1):]
    return word


def near_names(rnd, count):
    """Names of a few letters, each once."""
    names = []
    while len(names) < count:
        name = "".join(rnd.choice(LETTERS) for _ in range(rnd.randint(1, 5)))
        if name not in names:
            names.append(name)
    return names


def near_start(rnd):
    """A start whose names are near to each other."""
    levels, categories, people, things = (near_names(rnd, rnd.randint(2, 6)) for _ in range(4))
    data = {"security": {"levels": levels, "categories": categories}, "integrity": {"levels": near_names(rnd, 3), "categories": near_names(rnd, 2)}}
    low, trust = levels[0], data["integrity"]["levels"][0]
    data["subjects"] = [{"name": it, "maximum": low, "current": low, "integrity": trust, "trusted": True} for it in people]
    data["objects"] = [{"name": it, "parent": things[0] if n else None, "security": low, "integrity": trust} for n, it in enumerate(things)]
    return {**data, "matrix": []}


def any_word(rnd, data, kind):
    """A word that stands for what it is to, or a misspelled one."""
    if kind == "m":
        return rnd.choice(("read", "write"))
    if kind in "so":
        word = rnd.choice([*names_of(data, kind), "#0"])
        return misspelled(rnd, word) if word[0] != "#" and rnd.random() < 0.4 else word
    scheme = scheme_of(data, kind)
    some = [misspelled(rnd, it) if rnd.random() < 0.3 else it for it in rnd.sample(scheme["categories"], rnd.randint(0, 2))]
    level = rnd.choice(scheme["levels"])
    level = misspelled(rnd, level) if rnd.random() < 0.3 else level
    return level + (":" + ",".join(some) if some else "")


def any_line(rnd, data):
    action = rnd.choice(list(OPERANDS))
    return " ".join([any_word(rnd, data, "s"), action, *(any_word(rnd, data, kind) for kind in OPERANDS[action])])
