"""A start of many subjects and objects, a year's journal over it, and its marks: what a page is looked at with."""
import datetime
import json
import random

import marks
from outside import put, ran_program, same

LEVELS, CATEGORIES = ["public", "internal", "confidential", "secret"], ["crypto", "finance", "legal", "nuclear"]
NAMES = ["anna", "bert", "carla", "dirk", "eva", "frank", "gita", "hugo", "ines", "jan"]
THINGS = ["minutes", "budget", "contract", "memo", "report", "plan", "audit", "offer"]
FOLDERS, TRUSTED = 12, 3


def label(level, categories):
    return LEVELS[level] + (":" + ",".join(CATEGORIES[it] for it in sorted(categories)) if categories else "")


def some_categories(rnd, *counts):
    return rnd.sample(range(4), rnd.choice(counts))


def subjects_of(rnd, count):
    """Subjects, of which the first three are trusted: the name of each, and the parts of its maximum."""
    return [(f"{rnd.choice(NAMES)}{it:02d}", 3 if it < TRUSTED else rnd.choice([1, 2, 2, 3]),
             list(range(4)) if it < TRUSTED else some_categories(rnd, 0, 1, 1, 2)) for it in range(count)]


def subject_row(number, subject):
    name, level, categories = subject
    return {"name": name, "maximum": label(level, categories), "current": label(0, []) if number % 3 else label(level, categories),
            "integrity": "high" if number % 4 else "low", "trusted": number < TRUSTED}


def objects_of(rnd, count):
    rows = [{"name": "root", "parent": None, "security": label(0, []), "integrity": "high"}]
    rows += [{**rows[0], "name": f"folder{it:02d}", "parent": "root"} for it in range(FOLDERS)]
    return rows + [{"name": f"{rnd.choice(THINGS)}-{it:03d}", "parent": f"folder{rnd.randrange(FOLDERS):02d}",
                    "security": label(rnd.choice([0, 1, 1, 2, 2, 3]), some_categories(rnd, 0, 0, 1, 1, 2)),
                    "integrity": "low" if it % 5 else "high"} for it in range(count - FOLDERS - 1)]


def permissions_of(rnd, subjects, objects):
    found = {}
    for number, (name, _, _) in enumerate(subjects):
        for it in rnd.sample(objects[FOLDERS + 1 :], 25):
            found[name, it["name"]] = sorted(rnd.sample(["read", "append", "write"], rnd.choice([1, 1, 2])))
        if number < TRUSTED:
            found |= {(name, it["name"]): ["read", "write"] for it in objects[: FOLDERS + 1]}
    return found


def line_of(rnd, subjects, objects, owned):
    """A line of a script: most are gets and releases of what is permitted."""
    name, level, categories = rnd.choice(subjects[:10] if rnd.random() < 0.5 else subjects)
    kind, thing = rnd.random(), rnd.choice(objects[1:])["name"]
    owner, other = rnd.choice(subjects[:TRUSTED])[0], rnd.choice(subjects)[0]
    if kind < 0.75:
        mine, modes = rnd.choice(owned[name])
        return f"{name} get-{rnd.choice(modes)} {mine}" if kind < 0.45 else f"{name} release {rnd.choice(modes)} {mine}"
    if kind < 0.82:
        return f"{name} get-{rnd.choice(['read', 'write', 'append'])} {thing}"
    if kind < 0.93:
        taken = rnd.sample(categories, rnd.randint(0, len(categories)))
        return f"{name} level {label(rnd.randint(0, level), taken) if kind < 0.9 else label(3, [])}"
    if kind < 0.98:
        return f"{owner if kind < 0.96 else name} give {rnd.choice(['read', 'append'])} {other} {thing}"
    return f"{owner} relabel {thing} {label(rnd.randint(0, 3), some_categories(rnd, 1))}"


def put_marks_of_a_year(rnd, entries):
    """Marks of some 400 batches over a year, but for the last five entries."""
    with open("world.journal", "rb") as lines:
        journal = lines.read()
    ends = sorted(rnd.sample(range(1, entries - 5), min(entries // 5, 400)))
    begin = datetime.datetime(2025, 1, 2, 8)
    times = [begin + datetime.timedelta(minutes=364 * 1440 * it // entries) for it in ends]
    put("world.marks", marks.text_of(marks.made(journal, ends, [it.strftime("%Y-%m-%dT%H:%M:%S.%fZ").encode() for it in times])))


def put_world(subjects, objects, entries, seed=7):
    """Writes world.json, world.journal and world.marks."""
    rnd = random.Random(seed)
    people, things = subjects_of(rnd, subjects), objects_of(rnd, objects)
    permitted = permissions_of(rnd, people, things)
    start = {"security": {"levels": LEVELS, "categories": CATEGORIES}, "integrity": {"levels": ["low", "high"], "categories": []},
             "subjects": [subject_row(number, it) for number, it in enumerate(people)], "objects": things,
             "matrix": [{"subject": s, "object": o, "modes": modes} for (s, o), modes in permitted.items()]}
    put("world.json", json.dumps(start).encode())
    owned = {}
    for (s, o), modes in permitted.items():
        owned.setdefault(s, []).append((o, modes))
    lines = [f"{it[0]} get-write root" for it in people[:TRUSTED]]
    lines += [line_of(rnd, people, things, owned) for _ in range(entries - len(lines))]
    put("world.script", "".join(f"{it}\n" for it in lines).encode())
    status, _, error = ran_program(["run", "--serial", "--journal", "world.journal", "world.json", "world.script"])
    same((status, error), (0, b""))
    put_marks_of_a_year(rnd, entries)
