"""Changes of start files as JSON: most have a fault of docs/FORMATS.md."""
import copy

NO_NAMES = ["", 33 * "x", "a b", "a.b", "a:b", "\u00e9", "a\u0000", "a,b"]
OTHER_VALUES = [None, True, False, 0, 1.5, "", [], {}, "x", ["read"], [None], {"name": "x"}]
OTHER_MEMBERS = ["extra", "name", "levels", "Name", ""]
LABEL_ENDS = [":", ",c0", ":c0", ":c0,c0", "x"]
LABELS = ["maximum", "current", "integrity", "security"]
# How often a member of a list is repeated: some times, and as often as a limit of a scheme has it.
TIMES = (1, 1, 2, 15, 16, 17, 63, 64, 65, 255, 256, 257)
LIMITS = {"subjects": 256, "objects": 4096}


def slots(value):
    """All places in a JSON value: each as the list or the object that it is in, and its index or its member's name."""
    for key in range(len(value)) if isinstance(value, list) else list(value):
        yield value, key
        if isinstance(value[key], (list, dict)):
            yield from slots(value[key])


def within(data, kind):
    """The values of a kind in a JSON value."""
    return [where[key] for where, key in slots(data) if isinstance(where[key], kind)]


def value_changed(rng, data):
    where, key = rng.choice([*slots(data)])
    where[key] = copy.deepcopy(rng.choice(OTHER_VALUES))


def string_changed(rng, data):
    """A string is another of the file, or no name, or goes on after its end."""
    where, key = rng.choice([it for it in slots(data) if isinstance(it[0][it[1]], str)])
    other = rng.choice(within(data, str))
    where[key] = rng.choice((other, rng.choice(NO_NAMES), where[key] + rng.choice(LABEL_ENDS)))


def label_changed(rng, data):
    """A label of a subject or an object is one of another."""
    rows, name = data["subjects"] + data["objects"], rng.choice(LABELS)
    one, other = rng.choice(rows), rng.choice(rows)
    if name in one:
        one[name] = other.get(name, other.get("current", one[name]))


def parent_changed(rng, data):
    rng.choice(data["objects"])["parent"] = rng.choice(data["objects"])["name"]


def left_out(rng, data):
    where, key = rng.choice([*slots(data)])
    del where[key]


def emptied(rng, data):
    """A list has no members; half of the time the matrix has none either."""
    rng.choice(within(data, list)).clear()
    if rng.random() < 0.5:
        data["matrix"] = []


def member_added(rng, data):
    it = rng.choice([data, *within(data, dict)])
    it[rng.choice(OTHER_MEMBERS)] = copy.deepcopy(rng.choice(OTHER_VALUES))


def with_name(row, name):
    """A member of a list under another name, where it has one."""
    if isinstance(row, dict) and "name" in row:
        return {**row, "name": name}
    return name if isinstance(row, str) else row


def repeated(rng, data):
    """The last member of a list stands again, some times: under names of their own, or the same."""
    it = rng.choice([it for it in within(data, list) if it])
    is_new, count = rng.random() < 0.8, rng.choice(TIMES)
    it += [with_name(it[-1], f"n{number}") if is_new else it[-1] for number in range(count)]


def moved(rng, data):
    """The members of a list or of an object stand in another order."""
    it = rng.choice([data, *within(data, (list, dict))])
    members = [*it.items()] if isinstance(it, dict) else [*it]
    rng.shuffle(members)
    it.clear()
    if isinstance(it, dict):
        it.update(members)
    else:
        it.extend(members)


def filled_up(rng, data):
    """There are as many subjects or objects as there may be, or one more."""
    kind = "objects" if rng.random() < 0.2 else "subjects"
    rows = data[kind]
    last = {**rows[-1], "parent": rows[0]["name"], "security": rows[0]["security"]} if kind == "objects" else rows[-1]
    count = LIMITS[kind] + rng.randrange(2) - len(rows)
    rows += [with_name(last, f"n{number}") for number in range(count)]


CHANGES = [value_changed, string_changed, string_changed, label_changed, label_changed, parent_changed, left_out,
           emptied, member_added, repeated, moved]
FILLED_UP = 0.01


def changed(rng, data):
    """Changes a file some times."""
    for _ in range(rng.choice((1, 1, 1, 2, 3))):
        try:
            (filled_up if rng.random() < FILLED_UP else rng.choice(CHANGES))(rng, data)
        except (AttributeError, IndexError, KeyError, TypeError):
            # (what this changes isn't there any more)
            pass
