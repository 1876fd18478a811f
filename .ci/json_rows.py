"""What commands print with --json. Of each object Python writes the line that it tells, from docs/FORMATS.md ("JSON"): that must be the line
that the command prints without --json. Each object must fit its schema of docs/schema/."""
import functools
import json
import shlex

import marks
import question_worlds as worlds
import time_rows
from about_rows import JOURNAL
from compare_rows import newer, variant
from outside import EXAMPLES, TOP, example, in_its_folder, put, ran_program, same, some
from policy import MODES, words_of
from span_rows import OPENED

try:
    import jsonschema
except ImportError:
    jsonschema = None

STANDARD = f"{EXAMPLES}/standard.json"
# A journal in which bob may read memo for a while, and times of its marks.
LEVELS, TIMES = b"0 0 1 level 1 yes\n1 0 1 level 0 yes\n", [b"2026-11-27T11:12:26.736512Z", b"2026-11-27T11:12:27.000000Z"]
WHOLE = {"check", "verify", "ask", "explain", "summary"}
YES = {True: "yes", False: "no"}


def named(row, key):
    return row[f"{key}_name"] if f"{key}_name" in row else f"#{row[key]}"


def reply(row):
    behind = row.get("reason", row.get("created"))
    return row["reply"] + ("" if behind is None else f" {behind}")


def access(row):
    return f"{named(row, 'subject')} {row['mode']} {named(row, 'object')}"


def check_lines(row):
    counts = "".join(f"{it} {row[it]}\n" for it in ("subjects", "objects", "cells", "accesses") if it in row)
    return f"{counts}secure {YES[row['secure']]}\n"


def verify_lines(row):
    times = f"from {row['from']} to {row['to']}\n" if "from" in row else ""
    counts = [f"{name} {row[name]}\n" for name in ("back", "unmarked") if name in row]
    return f"entries {row['entries']}\nlast {row['last']}\n{times}{''.join(counts)}"


def ask_lines(row):
    return {True: "held\n", False: "not held\n"}[row["held"]] if "held" in row else reply(row) + "\n"


def condition_lines(row):
    lines = [f"{row['reason']} {'holds by trust' if row.get('by_trust') else 'holds' if row['holds'] else 'fails'}: {row['basis']}\n"]
    for it in row.get("accesses", []):
        lines.append(f"  {named(it, 'object' if 'object' in it or 'object_name' in it else 'subject')} {it['mode']}\n")
    return "".join(lines)


def missing_line(row):
    what = row["what"]
    if what in ("subject", "object"):
        return f"{'unknown' if what == 'subject' else 'inactive'} {what}: {named(row, what)}\n"
    return f"{what} label outside the scheme: {row[what]}\n"


def explain_lines(row, subject):
    """The subject that asks is told by the words alone."""
    lines = [ask_lines(row), *map(condition_lines, row.get("conditions", [])), *map(missing_line, row.get("missing", []))]
    steps = [step_words(it) for it in row.get("steps", [])]
    if row.get("remedy") is not None:
        releases = [f"{subject} release {it['mode']} {named(it, 'object')}" for it in row.get("releases", [])]
        same(steps, [*releases, f"{subject} level {row['remedy']}"])
    if "instead" in row:
        steps.append(f"{step_words(row['instead'])} instead")
    if "none" in row:
        steps.append({"level": lambda: "none by level", "request": lambda: "none found", "giver": lambda: f"none now: nobody {gives(row['lacks'])}"}[row["none"]]())
    return "".join([*lines, *(f"remedy: {it}\n" for it in steps)])


def gives(row):
    """What is given to whom."""
    return f"gives {row['mode']} {named(row, 'object')} to {named(row, 'whose')}"


def step_words(row):
    """A request of a remedy, with the subjects of whom any may make it."""
    who = " or ".join(named(it, "subject") for it in [row, *row.get("or", [])])
    return f"{who} {gives(row) if row['action'] == 'give' else asked(row).partition(' ')[2]}"


def get_words(row):
    """What is told of a permission: whether its get would be granted."""
    if row["granted"]:
        return "yes"
    releases = ", ".join(f"{it['mode']} {named(it, 'object')}" for it in row.get("releases", []))
    level = "never" if row["remedy"] is None else f"level {row['remedy']}" + (f" after releasing {releases}" if releases else "")
    return f"no {row['reason']}, {level}"


def who_line(row):
    return f"{named(row, 'subject')} {row['mode']} {get_words(row)}\n"


def at(row, key):
    """An entry, with its time where that is told."""
    return f"{row[key]}" + ("" if f"{key}_time" not in row else f" [{row[f'{key}_time'] or '-'}]")


def ever_line(row):
    """A subject and a mode, and the spans in which the get would be granted."""
    begin = lambda span: "start" if span["begin"] is None else at(span, "begin")
    spans = [f"{begin(it)} " + ("on" if it["end"] is None else f"to {at(it, 'end')}") for it in row["spans"]]
    return f"{named(row, 'subject')} {row['mode']}: {', '.join(spans) or 'in no state'}\n"


def future_line(row):
    """A subject, a mode, and what becomes of that access."""
    return f"{named(row, 'subject')} {row['mode']}: {row['future']}\n"


def could_line(row):
    """Whether an access could come about; a request of the script, or a reason."""
    if "answer" in row:
        return f"{row['answer']}\n"
    return f"{row['reason']}: {row['basis']}\n" if "reason" in row else f"{asked(row)}\n"


def hand_text(row):
    """A hand, and the place to which content comes by it."""
    place = named(row, "subject" if "subject" in row or "subject_name" in row else "object")
    if "mode" in row:
        return f" > {place} ({row['mode']})" + (", down" if row.get("down") else "")
    assert named(row, "maker"), row
    return f" > a new object below {named(row, 'parent')} (append) > {place} (read)"


def flow_line(row):
    """A way to a place; a request of the script; or that there is no way, or that none could go through a new object."""
    if "action" in row:
        return f"{asked(row)}\n"
    if "answer" in row:
        return {"never": "never\n", "full": "full: no object could be made without a delete\n"}[row["answer"]]
    kind = "subject" if "subject" in row or "subject_name" in row else "object"
    return f"{kind} {named(row, kind)}: {named(row, 'from')}{''.join(map(hand_text, row['hands']))}\n"


def powers_line(row):
    words = {
        "give": lambda: f"gives and rescinds {named(row, 'object')}",
        "create": lambda: f"creates under {named(row, 'parent')}",
        "delete": lambda: f"deletes {named(row, 'object')}",
        "level": lambda: " ".join(["level", *row["labels"]]),
        "relabel": lambda: " ".join([f"relabels {named(row, 'object')} {row['direction']} to", *row["labels"]]),
    }
    return f"{named(row, 'subject')} {words[row['power']]()}\n"


def lint_line(row):
    words = {
        "dead": lambda: f"dead: {access(row)}: {row['reason']}",
        "unused": lambda: f"unused: {named(row, 'object')}",
        "idle": lambda: f"idle: {named(row, 'subject')}",
        "downflow": lambda: f"downflow: {named(row, 'subject')}: {row['pairs']} pair{'s' * (row['pairs'] != 1)}, as {named(row, 'from')} to {named(row, 'to')}",
        "could": lambda: f"could: {str(row['more']) + ' more' if 'more' in row else access(row)}, by untrusted subjects",
        "syntax": lambda: f"{row['pointer']}: line {row['line']}, column {row['column']}",
    }
    return words.get(row["finding"], lambda: f"{row['pointer']}: {row['finding']}")() + "\n"


def state_line(row):
    kind = row["kind"]
    if kind in ("profile", "next"):
        return f"{kind} {row[kind]}\n"
    if kind in ("permit", "access"):
        return f"{kind} {access(row)}\n"
    labels = "".join(f" {it} {row[it]}" for it in ("maximum", "current", "security", "integrity") if it in row)
    trusted = " trusted" if row.get("trusted") else ""
    parent = f" parent {named(row, 'parent')}" if kind == "object" and row.get("parent", 0) is not None else ""
    return f"{kind} {named(row, kind)}{labels}{trusted}{parent}\n"


def counted(row):
    """How many entries a subject asked, how many were denied, and which was the last."""
    last = "" if row["last"] is None else f", last {row['last']}" + ("" if "last_time" not in row else f" [{row['last_time'] or '-'}]")
    return f"{row['entries']} {'entry' if row['entries'] == 1 else 'entries'}, {row['denied']} denied{last}\n"


def entry_line(row):
    """A line of the journal, with its time where there is one."""
    time = f"[{row['time'] or '-'}] " if "time" in row else ""
    return f"{time}{row['number']} session {row['session']} {asked(row)}: {reply(row)}\n"


def about_line(row):
    """What is told of a subject or of an object, by its kind: a thing is told as by `mls state`."""
    words = {
        "permit": lambda: f"permit {access(row)}: {get_words(row)}\n",
        "who": lambda: f"{named(row, 'subject')} {row['mode']} {get_words(row)}\n",
        "child": lambda: f"child {named(row, 'object')}\n",
        "power": lambda: powers_line(row),
        "asked": lambda: counted(row),
        "entry": lambda: entry_line(row),
    }
    return words.get(row["kind"], lambda: state_line(row))()


def held_line(row):
    begin = "start" if row["begin"] is None else at(row, "begin")
    end = "on" if row["end"] is None else f"to {at(row, 'end')}, {row['by']}"
    return f"{access(row)}: {begin} {end}\n"


def usage_line(row):
    if "permissions" in row:
        return f"{row['permissions']} permission{'s' * (row['permissions'] != 1)}, {row['never_granted']} never granted\n"
    if "by_trust" in row:
        used = "never used" if row["last"] is None else f"{row['by_trust']} granted, last {at(row, 'last')}"
        return f"{named(row, 'subject')} trust: {used}\n"
    counts = f"{row['granted']} granted, {row['denied']} denied, last"
    if row["last"] is None:
        assert row["granted"] == row["denied"] == 0
        return f"{access(row)}: {f'{counts} start' if row['held_at_start'] else 'never asked'}\n"
    return f"{access(row)}: {counts} {at(row, 'last')}{', held at start' if row['held_at_start'] else ''}\n"


def asked(row):
    """A request, as a script line has it."""
    operands = {"level": ["security"], "create": ["parent", "security", "integrity"]}.get(row["action"], ["mode", "whose", "object", "security"])
    told = [named(row, it) if it in ("parent", "whose", "object") else row[it] for it in operands if it in row or f"{it}_name" in row]
    return " ".join([named(row, "subject"), row["action"], *told])


def compare_line(row, *files):
    difference, first, second = row["difference"], row.get("first"), row.get("second")
    file = {"first": files[0], "second": files[1]}.get(row.get("only_in"))
    sides = lambda shown: f"{shown(first)} > {shown(second)}"
    if difference == "name":
        return f"only in {file}: {row['scheme'] + ' ' if 'scheme' in row else ''}{row['kind']} {row['name']}\n"
    if difference in ("permit", "access", "could"):
        return f"{difference} {access(row)}: only in {file}\n"
    if difference == "profile":
        return f"profile: {sides(str)}\n"
    if difference == "levels":
        return f"{row['scheme']} levels: {sides(','.join)}\n"
    if difference == "get":
        return f"{access(row)}: {sides(reply)}\n"
    if difference == "entry":
        return f"entry {row['number']} {asked(row)}: {sides(reply)}\n"
    kind = "subject" if "subject" in row or "subject_name" in row else "object"
    shown = YES.get if difference == "trusted" else lambda it: "(none)" if it is None else it
    return f"{kind} {named(row, kind)} {difference}: {sides(shown)}\n"


def counts_line(row):
    """How much differs between two starts: in all, of a subject by the first words of both replies, or by the second's reason."""
    for kind in ("changes", "gets", "entries"):
        if kind in row:
            return f"{kind} {row[kind]}\n"
    return f"no {row['reason']} {row['count']}\n" if "reason" in row else f"{named(row, 'subject')} {row['first']} > {row['second']} {row['count']}\n"


def summary_lines(row):
    lines = [f"entries {row['entries']}\n", *(f"{named(it, 'subject')} {it['reply']} {it['entries']}\n" for it in row.get("replies", []))]
    return "".join(lines + [f"no {it['reason']} {it['entries']}\n" for it in row.get("reasons", [])])


LINES = {
    "check": check_lines, "verify": verify_lines, "ask": ask_lines, "explain": explain_lines, "who": who_line, "ever": ever_line,
    "future": future_line, "could": could_line, "flow": flow_line, "powers": powers_line, "about": about_line, "lint": lint_line,
    "state": state_line, "held": held_line, "usage": usage_line, "compare": compare_line, "counts": counts_line, "summary": summary_lines,
}
# The objects that were met, by their schema, each once; all of them are held to it at the end.
MET = {}


def rows_of(schema, output):
    """The objects of an output, which has no space outside strings, and members in the order that JSON lists them."""
    lines = output.decode().splitlines()
    rows = [json.loads(it) for it in lines]
    same([json.dumps(it, separators=(",", ":")) for it in rows], lines)
    MET.setdefault(schema, set()).update(lines)
    return rows


def told(schema, words, *more):
    """A command prints the same with --json and without, in another form."""
    status, text, error = ran_program(words)
    found = ran_program([words[0], "--json", *words[1:]])
    same((words, found[0], found[2]), (words, status, error))
    rows = rows_of(schema, found[1])
    if schema in WHOLE and status in (0, 4):
        same((words, len(rows)), (words, 1))
    same((words, "".join(LINES[schema](it, *more) for it in rows)), (words, text.decode()))
    return rows


def of_kind(rows, kind):
    """The objects of a kind, without it."""
    return [{key: it for key, it in row.items() if key != "kind"} for row in rows if row["kind"] == kind]


def told_of_subject(files, name, things, entries):
    """What there is to tell of a subject, as `state` and `powers` tell it, and counted by hand."""
    rows = told("about", ["about", *files, name])
    same([it for it in rows if it["kind"] == "subject"], [it for it in things if it["kind"] == "subject" and named(it, "subject") == name])
    same([it for it in rows if it["kind"] == "access"], [it for it in things if it["kind"] == "access" and named(it, "subject") == name])
    same([access(it) for it in of_kind(rows, "permit")], [access(it) for it in things if it["kind"] == "permit" and named(it, "subject") == name])
    same(of_kind(rows, "power"), rows_of("powers", ran_program(["powers", "--json", *files, name])[1]))
    mine = [it for it in entries if named(it, "subject") == name]
    last = mine[-1]["number"] if mine else None
    same(of_kind(rows, "asked"), [{"entries": len(mine), "denied": sum(it["reply"] == "no" for it in mine), "last": last}])
    given = [it for it in entries if it["action"] in ("give", "rescind") and named(it, "whose") == name]
    same([entry_line(it) for it in of_kind(rows, "entry")], [entry_line(it) for it in given])


def told_of_object(files, name, things):
    """What there is to tell of an object, as `state` and `who` tell it."""
    rows = told("about", ["about", "--as-object", *files, name])
    same([it for it in rows if it["kind"] == "object"], [it for it in things if it["kind"] == "object" and named(it, "object") == name])
    same([it for it in rows if it["kind"] == "access"], [it for it in things if it["kind"] == "access" and named(it, "object") == name])
    children = [it for it in things if it["kind"] == "object" and it.get("parent", 0) is not None and named(it, "parent") == name]
    same([named(it, "object") for it in of_kind(rows, "child")], [named(it, "object") for it in children])
    same(of_kind(rows, "who"), rows_of("who", ran_program(["who", "--json", *files, name])[1]))


def told_of_names(start, journal, subjects, objects):
    """What there is to tell of subjects and objects over a journal."""
    things = rows_of("state", ran_program(["state", "--json", start, journal])[1])
    entries = rows_of("journal", ran_program(["journal", "--json", start, journal])[1])
    for name in subjects:
        told_of_subject(["--journal", journal, start], name, things, entries)
    for name in objects:
        told_of_object(["--journal", journal, start], name, things)


def told_of_state(words, state, lines):
    """What is asked of a state that `words` lead to."""
    for line in lines:
        told("ask", ["ask", *words, line])
        told("explain", ["explain", *words, line], line.split()[0])
    for o in sorted(state.label)[:4]:
        told("who", ["who", *words, f"#{o}"])
        told("about", ["about", *words, f"#{o}"])
        if "--journal" in words and "--at" not in words:
            told("ever", ["who", "--ever", *words, f"#{o}"])
        told("future", ["who", "--could", "--all", *words, f"#{o}"])
        for actors in ([], ["--all"]):
            told("could", ["could", *actors, *words, f"#0 get-read #{o}"])
            told("flow", ["flow", *actors, *words, f"#{o}"])
            told("flow", ["flow", *actors, "--as-object", *words, f"#{o}", "#1"])
    told("powers", ["powers", *words])
    for name in state.subjects[:3]:
        told("about", ["about", *words, name])


def told_of_journal(world):
    files = [world.start, world.journal]
    number = world.rnd.randrange(len(world.entries) + 1) if hasattr(world, "rnd") else len(world.entries) // 2
    told("state", ["state", "--at", str(number), *files])
    told("state", ["state", *files])
    told("held", ["held", *files])
    told("usage", ["usage", *files])
    told("summary", ["journal", "--summary", *files])
    rows_of("journal", ran_program(["journal", "--json", *files])[1])


def told_of_start(world):
    told("check", ["check", world.start])
    told("lint", ["lint", world.start])


def worlds_told(world):
    """A random start and a journal of it, by all commands."""
    told_of_start(world)
    told_of_journal(world)
    lines = []
    for _ in range(6):
        s, action = worlds.action(world.rnd, world.last)
        lines.append(f"{world.last.subject(s)} {words_of(world.last, action)}")
    held = world.rnd.choice(sorted(world.last.accesses) or [(0, 0, 0)])
    lines.append(f"{world.last.subject(held[0])} check {MODES[held[2]]} {world.last.object(held[1])}")
    told_of_state([world.start, "--journal", world.journal], world.last, lines)
    other = put("other.json", worlds.other(world.rnd, world.text).encode())
    told("compare", ["compare", world.start, other], world.start, other)
    told("compare", ["compare", "--could", world.start, other], world.start, other)
    told("compare", ["compare", world.start, other, world.journal], world.start, other)
    for files in ([world.start, other], [world.start, other, world.journal]):
        told("counts", ["compare", "--summary", *files])
        told("compare", ["compare", "--broken", *files], world.start, other)
    told("usage", ["usage", "--never", "--subject", "#0", world.start, world.journal])
    told("lint", ["lint", "--journal", world.journal, world.start])
    told_of_names(world.start, world.journal, [world.rnd.choice(world.opening.subjects)], [world.rnd.choice(world.opening.objects)])
    words = ["--journal", world.journal, "--marks", time_rows.noted(time_rows.marks_by_chance(world.rnd, world)), world.start]
    told("about", ["about", *words, world.rnd.choice(world.opening.subjects)])
    told("about", ["about", *words, f"#{world.rnd.choice(sorted(world.last.label))}"])


def example_told(world):
    """An example and the journal of its script, by all commands; each entry is asked and explained again, over a trial each seventh."""
    told_of_start(world)
    told_of_journal(world)
    told_of_state([world.start], world.opening, [])
    for it in some(world.entries, 7):
        words, state = ["--journal", world.journal, "--at", str(it.number), world.start], world.before(it.number)
        told("explain", ["explain", *words], state.subject(it.subject))
        told("ask", ["ask", *words, f"{state.subject(it.subject)} {words_of(state, it.action)}"])


def refused_start():
    data = json.loads(example("standard.json"))
    data["objects"][2]["parent"] = "roof"
    data["matrix"][0]["modes"] = ["read", "frob"]
    return json.dumps(data).encode()


def files_of_the_documents():
    put("refused.json", refused_start())
    put("held.journal", OPENED)
    put("ever.journal", OPENED + b"5 0 1 level 1 yes\n")
    put("level.journal", b"0 0 0 get-read 1 yes\n")
    put("trust.journal", b"0 0 3 get-read 1 yes\n1 0 2 get-write 0 yes\n")
    put("staff.journal", b"0 0 0 get-read 1 yes\n")
    put("given.journal", b"0 0 2 get-write 0 yes\n1 0 2 give read 2 1 yes\n")
    journal, head = b"0 0 0 get-read 1 yes\n1 0 1 get-read 2 no star\n", marks.head(example("standard.json"))
    put("j", journal)
    put("m", marks.text_of(marks.headed(journal, [2], TIMES[:1], head), head))
    same(ran_program(["run", "--journal", "standard.journal", STANDARD, f"{EXAMPLES}/standard.script"])[0], 0)
    variant("new.json", newer)


@in_its_folder
def objects_of_the_documents():
    """The examples of docs/FORMATS.md, each as it stands there. Each schema has one."""
    files_of_the_documents()
    with open(f"{TOP}/docs/FORMATS.md", encoding="utf-8") as page:
        section = page.read().split("\n### JSON\n")[1].split("\n##")[0]
    found = section.split("\n    $ mls ")[1:]
    assert len(found) > 15, f"only {len(found)}"
    for it in found:
        command, *lines = it.split("\n")
        wanted = [line[4:] for line in lines if line.startswith("    {")]
        words = shlex.split(command.replace("examples/", f"{EXAMPLES}/"))
        count = int(words[-1]) if "|" in words else 0
        words = words[: words.index("|")] if "|" in words else words
        _, output, _ = ran_program(words)
        options = {"--summary": "counts" if words[0] == "compare" else "summary", "--ever": "ever", "--could": "future"}
        schema = next((options[it] for it in words if it in options), words[0])
        rows_of(schema, output)
        same((command, output.decode().splitlines()[-count:]), (command, wanted))


@in_its_folder
def objects_of_each_form():
    """What examples and random worlds may lack: accesses in the way of a relabel, faults of start files and keys in which something is escaped,
    names that are words of lines, files whose names have spaces, marks and entries behind them."""
    files_of_the_documents()
    put("opened.journal", OPENED + b'5 0 1 level 1 yes\n6 0 1 get-read 2 yes\n')
    words = ["--journal", "opened.journal", f"{EXAMPLES}/held.json"]
    for line in ("sec relabel memo T", "sec relabel root C", "sec relabel plans T:A,B", "bob level U", "#9 relabel #7 T", "sec level C"):
        told("explain", ["explain", *words, line], line.split()[0])
    put("key.json", example("standard.json").replace(b'"profile"', b'"a\\"b\\\\c:"').replace(b' "matrix"', b' "a\\"b\\\\c: d": 1, "matrix"'))
    put("broken.json", b'{"security": [1,]')
    put("twice.json", example("standard.json").replace(b'"trusted": false', b'"trusted": true, "trusted": false'))
    put("again.json", example("standard.json").replace(b'"modes": ["read", "write"]', b'"modes": ["read", "write", "read"]'))
    for file in ("key.json", "broken.json", "refused.json", "twice.json", "again.json"):
        told("lint", ["lint", file])
    told("verify", ["verify", STANDARD, "j", "m"])
    journal = b"0 0 0 get-read 1 yes\n1 0 1 get-read 2 no star\n2 0 1 get-read 2 no star\n"
    put("k", journal)
    told("verify", ["verify", STANDARD, "k", "m"])
    put("none", b"")
    told("verify", ["verify", STANDARD, "k", "none"])
    put("back", marks.text_of(marks.made(journal, [1, 2], [TIMES[1], TIMES[0]])))
    told("verify", ["verify", STANDARD, "k", "back"])
    rows_of("journal", ran_program(["journal", "--json", "--marks", "m", STANDARD, "k"])[1])
    for ends in ([1], [1, 2]):
        put("e", LEVELS)
        put("em", marks.text_of(marks.made(LEVELS, ends, TIMES[: len(ends)])))
        told("ever", ["who", "--ever", "--journal", "e", "--marks", "em", STANDARD, "memo"])
        for command in ("held", "usage"):
            told(command, [command, "--marks", "em", STANDARD, "e"])
        for name in ("bob", "memo"):
            told("about", ["about", "--journal", "e", "--marks", "em", STANDARD, name])
    put("about.journal", JOURNAL)
    put("about.marks", marks.text_of(marks.made(JOURNAL, [3, 9], TIMES)))
    for command in ("held", "usage"):
        told(command, [command, "--marks", "about.marks", STANDARD, "about.journal"])
    put("held.journal", OPENED)
    for ends in ([1], [2, 4], [5]):
        put("held.marks", marks.text_of(marks.made(OPENED, ends, TIMES[: len(ends)])))
        for command in ("held", "usage"):
            told(command, [command, "--marks", "held.marks", f"{EXAMPLES}/held.json", "held.journal"])
    for words in ([f"{EXAMPLES}/office.json", "staff", "intern"], ["--all", STANDARD, "plans", "bob"], [f"{EXAMPLES}/held.json", "plans", "plans"]):
        told("flow", ["flow", *words])
    for name in ("bob", "aud", "sec", "plans", "#4", "#5", "#6"):
        for more in ([], ["--marks", "about.marks"]):
            told("about", ["about", "--journal", "about.journal", *more, STANDARD, name])


# Names that are words of lines.
WORDS = {"ann": "subject", "bob": "no", "sec": "entry", "aud": "only", "root": "maximum", "plans": "parent", "memo": "meets", "tool": "yes",
         "U": "yes", "C": "no", "S": "undefined", "lo": "none", "hi": "start"}


@in_its_folder
def names_that_are_words_of_lines():
    """Subjects, objects and levels whose names stand in lines for something else; files whose names have spaces and colons."""
    text = json.dumps(worlds.renamed(json.loads(example("held.json")), WORDS))
    first = put("a: object b", text.encode())
    data = json.loads(text)
    data["subjects"][0]["current"], data["subjects"][1]["trusted"], data["accesses"] = "yes", True, []
    data["matrix"] = data["matrix"][2:]
    data["objects"][2]["security"] = "undefined"
    data["objects"].append({"name": "draft", "parent": "maximum", "security": "yes", "integrity": "none"})
    second = put("b only in", json.dumps(data).encode())
    put("j", OPENED)
    for words in (["compare", first, second], ["compare", second, first], ["compare", first, second, "j"]):
        told("compare", words, *words[1:3])
    for schema, words in (("state", ["state"]), ("held", ["held"]), ("usage", ["usage"]), ("summary", ["journal", "--summary"])):
        told(schema, [*words, first, "j"])
    told("ever", ["who", "--ever", "--journal", "j", first, "meets"])
    told("powers", ["powers", first])
    for name in (*WORDS.values(), "#4"):
        if name in text and name not in ("undefined", "none", "start"):
            told("about", ["about", "--journal", "j", first, name])
    told("lint", ["lint", first])
    for line in ("subject level yes", "entry relabel meets T", "no get-read meets"):
        told("explain", ["explain", "--journal", "j", first, line], line.split()[0])


# Names with which a line about one tells another as well, if it is looked at alone: of subjects, of objects and of levels.
CONFUSED = [
    ("level permit access subject", "yes write level read", "read execute write append"),
    ("level subject permit access", "read maximum U never", "U maximum current integrity"),
    ("gives creates object relabels", "and under down to", "yes no level never"),
    ("0 object child 1", "session security parent 0", "entries denied last security"),
]
GIVEN = b"5 0 2 create 0 0 0 created 4\n6 0 2 give read 1 4 yes\n7 0 0 give write 0 1 no authority\n"


@in_its_folder
def names_that_confuse_lines():
    """What there is to tell of one is told as the other commands tell it, whatever names subjects, objects and levels have."""
    put("names.journal", OPENED + GIVEN)
    for subjects, objects, levels in CONFUSED:
        names = dict(zip("ann bob sec aud root plans memo tool U C S T".split(), f"{subjects} {objects} {levels}".split()))
        put("names.json", json.dumps(worlds.renamed(json.loads(example("held.json")), names)).encode())
        told_of_names("names.json", "names.journal", subjects.split(), objects.split())


def words_that_do_not_fit():
    put("empty.journal", b"")
    for words in (["state", "--start", "--json", STANDARD, "empty.journal"], ["journal", "--explain", "--json", STANDARD, "empty.journal"],
                  ["lattice", "--json", STANDARD], ["replay", "--json", STANDARD, "empty.journal"], ["check", "--json", "--json", STANDARD]):
        status, output, error = ran_program(words)
        same((words, status, output, bool(error)), (words, 2, b"", True))
    same(ran_program(["ask", "--json", STANDARD, "bob frob"]), (1, b"", b"mls: line: bad form: mls ask --help has the forms\n"))
    same(ran_program(["journal", "--summary", "--json", STANDARD, "empty.journal"]), (4, b'{"entries":0}\n', b""))


@functools.cache
def schema_of(name):
    with open(f"{TOP}/docs/schema/{name}.json", encoding="utf-8") as file:
        schema = json.load(file)
    jsonschema.Draft202012Validator.check_schema(schema)
    return jsonschema.Draft202012Validator(schema)


def objects_fit_their_schemas():
    """All objects that the checks before met; and none fits with another member, or with one less where all have it."""
    assert MET, "no object was met"
    for name, lines in sorted(MET.items()):
        schema = schema_of(name)
        for line in sorted(lines):
            row = json.loads(line)
            fault = next(schema.iter_errors(row), None)
            assert fault is None, f"{name}: {line}: {fault.message}"
            assert not schema.is_valid({**row, "text": line}), f"{name} takes another member: {line}"
            first = next(iter(row))
            assert not schema.is_valid({key: it for key, it in row.items() if key != first}), f"{name} takes less than: {line}"


CHECKS = [objects_of_the_documents, objects_of_each_form, names_that_are_words_of_lines, names_that_confuse_lines, words_that_do_not_fit]
OF_WORLDS = [worlds_told]
LAST = objects_fit_their_schemas
UNFIT = {} if jsonschema else {LAST: "python3-jsonschema isn't installed"}
