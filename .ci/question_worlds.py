"""Random starts that are accepted, and journals of them, made with the policy of policy.py."""
import json

from policy import KINDS, MODES, State, entry_text, join
from question_texts import Entry

# The integrity label that dominates all.
HIGHEST = 1, frozenset([0])
# The names of levels and categories: letters, or numbers that stand for others.
SCHEMES = (["U", "C", "S", "T"], ["A", "B", "N"]), (["3", "2", "1", "7"], ["0", "5", "4"])


def any_label(rnd, levels, categories):
    return rnd.randrange(levels), frozenset(it for it in range(categories) if rnd.random() < 0.4)


def asked_label(rnd, levels, categories, is_any):
    """A label of a scheme, or where any may be asked for now and then one that it may lack."""
    return any_label(rnd, 16, 9) if is_any and rnd.random() < 0.1 else any_label(rnd, levels, categories)


def subject_rows(rnd, security, integrity):
    rows = []
    for k in range(rnd.randint(1, 4)):
        current = any_label(rnd, 4, 3)
        maximum = join(current, any_label(rnd, 4, 3))
        own = rnd.choice((any_label(rnd, 2, 1), HIGHEST))
        rows.append({"name": f"s{k}", "maximum": security(maximum), "current": security(current), "integrity": integrity(own),
                     "trusted": rnd.random() < 0.4})
    return rows


def object_rows(rnd, security, integrity):
    """Objects of which each has a label above its parent's, and integrity below it; the root is lowest and most to be trusted."""
    rows, labels = [], []
    for k in range(rnd.randint(1, 6)):
        parent = rnd.randrange(k) if k else None
        low, high = labels[parent] if k else ((0, frozenset()), HIGHEST)
        own = any_label(rnd, 2, 1)
        labels.append((join(low, any_label(rnd, 3, 3)) if k else low, (min(high[0], own[0]), high[1] & own[1]) if k else high))
        rows.append({"name": f"o{k}", "parent": f"o{parent}" if k else None, "security": security(labels[k][0]),
                     "integrity": integrity(labels[k][1])})
    return rows


def start(rnd):
    """The text of a start file that is accepted."""
    levels, categories = rnd.choice(SCHEMES)
    data = {"security": {"levels": levels, "categories": categories}, "integrity": {"levels": ["lo", "hi"], "categories": ["I"]}}
    text = lambda names: lambda label: names["levels"][label[0]] + (
        ":" + ",".join(names["categories"][it] for it in sorted(label[1])) if label[1] else "")
    data["subjects"] = subject_rows(rnd, text(data["security"]), text(data["integrity"]))
    data["objects"] = object_rows(rnd, text(data["security"]), text(data["integrity"]))
    data["matrix"] = [{"subject": s["name"], "object": o["name"], "modes": [it for it in MODES if rnd.random() < 0.6]}
                       for s in data["subjects"] for o in data["objects"] if o["parent"] is None or rnd.random() < 0.8]
    data["profile"] = rnd.choice((1, 2))
    opening = State(json.dumps(data))
    data["accesses"] = [{"subject": opening.subject(s), "object": opening.object(o), "modes": [MODES[x]]} for s, o,
                        x in sorted(opening.matrix) if rnd.random() < 0.2 and opening.decide(s, (f"get-{MODES[x]}", x,
                         o)) == "yes"]
    return json.dumps(data, indent=1)


def shuffled(rnd, data):
    """The rows of a start in another order: the root first, and each object after its parent."""
    rnd.shuffle(data["subjects"])
    rows, left = data["objects"][:1], data["objects"][1:]
    while left:
        known = [it["name"] for it in rows]
        rows.append(left.pop(rnd.choice([n for n, it in enumerate(left) if it["parent"] in known])))
    data["objects"] = rows


def renamed(data, names):
    """A start with other names of levels, categories, subjects and objects, where it has these."""
    label = lambda text: ":".join(",".join(names.get(it, it) for it in part.split(",")) for part in text.split(":"))
    change = {"levels": lambda it: [names.get(name, name) for name in it], "categories": lambda it: [names.get(name, name) for name in it],
              **dict.fromkeys(("name", "parent", "subject", "object"), lambda it: names.get(it, it)),
              **dict.fromkeys(("maximum", "current"), label)}
    walk = lambda it: (
        {key: change[key](value) if key in change else label(value) if key in KINDS["create"] and isinstance(value, str) else walk(value)
         for key, value in it.items()} if isinstance(it, dict) else [walk(row) for row in it] if isinstance(it, list) else it)
    return walk(data)


def swaps(rnd, names):
    """Two names in place of each other, or a new name in place of one."""
    one, other = rnd.choice(names), rnd.choice(names)
    return rnd.choice(({one: other, other: one}, {one: one + "x"}, {}, {}, {}))


def changed(rnd, data):
    """A start without accesses, with other permissions, trust, levels and parents here and there."""
    data["accesses"] = []
    for row in data["matrix"]:
        row["modes"] = [it for it in MODES if (it in row["modes"]) != (rnd.random() < 0.05)]
    for row in data["subjects"]:
        row["trusted"] = row["trusted"] != (rnd.random() < 0.1)
        row["current"] = row["maximum"] if rnd.random() < 0.1 else row["current"]
    root, *others = data["objects"]
    for row in others:
        row["parent"] = root["name"] if rnd.random() < 0.2 else row["parent"]
    for row in others:
        if rnd.random() < 0.1 and all(it["parent"] != row["name"] for it in others):
            row["security"] = f"{data['security']['levels'][-1]}:{','.join(data['security']['categories'])}"


def other(rnd, text):
    """The text of a start file that is accepted and shares some names with another: it is like that one, or random."""
    data = json.loads(text if rnd.random() < 0.8 else start(rnd))
    if rnd.random() < 0.7:
        changed(rnd, data)
    data["profile"] = rnd.choice((1, 2))
    shuffled(rnd, data)
    names = {**swaps(rnd, [it["name"] for it in data["subjects"]]), **swaps(rnd, [it["name"] for it in data["objects"]])}
    for some in (data["security"]["levels"], data["security"]["categories"], ["lo", "hi"], ["I"]):
        names |= swaps(rnd, some)
    data = renamed(data, names)
    for rows in (data["security"]["levels"], data["security"]["categories"], data["integrity"]["levels"]):
        if rnd.random() < 0.2:
            rows.insert(rnd.randint(0, len(rows)), "R")
    return json.dumps(data, indent=1)


def action(rnd, state, is_any=False):
    """A request of a subject, most of whose operands are there; where any may be asked for, some of its labels aren't its scheme's."""
    word = rnd.choice([*[f"get-{it}" for it in MODES] * 2, *list(KINDS)])
    some = lambda known: rnd.choice(sorted(known)) if rnd.random() < 0.95 else rnd.randrange(9)
    make = {"mode": lambda: rnd.randrange(4), "subject": lambda: some(state.maximum), "object": lambda: some(state.label),
            "security": lambda: asked_label(rnd, 4, 3, is_any), "integrity": lambda: asked_label(rnd, 2, 1, is_any)}
    operands = [make[kind]() for kind in KINDS[word]]
    if word.startswith("get-"):
        operands[0] = MODES.index(word[4:])
    if word == "create" and operands[0] in state.label and rnd.random() < 0.7:
        operands[1:] = join(operands[1], state.label[operands[0]]), (0, frozenset())
    return some(state.maximum), (word, *operands)


def some_action(rnd, state, is_any=False):
    """A request; half of them are tried until one is granted, or some times."""
    for _ in range(rnd.choice((1, 12))):
        s, asked = action(rnd, state, is_any)
        if state.decide(s, asked) == "yes" or state.decide(s, asked).startswith("created"):
            break
    return s, asked


def journal(rnd, state, count):
    """So many random requests, asked of a state: their entries."""
    entries = []
    for number in range(count):
        s, asked = some_action(rnd, state, is_any=True)
        entries.append(Entry(number, rnd.randrange(3), s, asked, state.apply(s, asked)))
    return entries


def lines_of(entries):
    return "".join(f"{it.number} {it.session} {it.subject} {entry_text(it.action)} {it.reply}\n" for it in entries)


def some_filter(rnd, state, entries):
    """Words by which `mls journal` is asked for some of these entries, and what they ask for, as question_texts.listed takes it."""
    filters = {"subject": (entries[0].subject, f"#{entries[0].subject}"),
               "by": (entries[-1].subject, f"#{entries[-1].subject}"), "object": (0, state.objects[0]),
               "session": (1, "1"), "reply": (rnd.choice(("no", "yes", "no star", "created", "undefined")), ) * 2}
    first, last = sorted(rnd.sample(range(len(entries)), 2))
    asked = {name: filters[name] for name in filters if rnd.random() < 0.4}
    words = [it for name, (_, word) in asked.items() for it in (f"--{name}", word)] + ["--from", str(first), "--to", str(last)]
    return words, {**{name: value for name, (value, _) in asked.items()}, "first": first, "last": last}
