"""What can be asked of random starts and journals, in Python from docs/FORMATS.md over the policy of policy.py: which permissions were never granted,
a start without them, what another start breaks, and how much that is; lint and lattice of a state; and a report of a part of a journal."""
import copy
import json
import random
import re

import comparisons
import question_texts as texts
import question_worlds as worlds
import report_rows
import time_rows
import usages
from asking import part_by_chance, said
from outside import put, ran_program, rounds, same
from policy import MODES, REASONS, State
from snapshot_rows import start_text

# The random worlds over which a tightened start and what it breaks are judged, and how many entries each has.
MANY, SHORT = rounds(1_000), 16


def is_granted(reply):
    return reply == "yes" or reply.startswith("created")


def is_broken(here, there):
    return is_granted(here) and not is_granted(there)


# usage


def permissions(states, entries, first=0, last=None, subject=None, object=None):
    """The permissions of the states from `first` to `last` that are asked for, each with its line's text and whether it was granted."""
    last = len(entries) if last is None else min(last, len(entries))
    found = sorted({it for state in states[first : last + 1] for it in state.matrix})
    return first, last, [it for it in found if subject in (None, it[0]) and object in (None, it[1])]


def usage(states, entries, marks=None, never=False, **asked):
    """What `mls usage` prints of the permissions that are asked for, and its status."""
    first, last, found = permissions(states, entries, **asked)
    rows = [usages.use_of(states[0], states[first], it, usages.uses(states, entries[first:last], it), marks) for it in found]
    unused = sum(not granted for _, granted in rows)
    text = "".join(text for text, granted in rows if not (never and granted))
    return f"{text}{len(rows)} permission{'s' * (len(rows) != 1)}, {unused} never granted\n", 4 if unused else 0


def tight(states, entries, **asked):
    """The state that a start opens with, without the permissions that were never granted."""
    first, last, found = permissions(states, entries, **asked)
    left = copy.deepcopy(states[0])
    for it in found:
        held = it in states[first].accesses and first <= last
        if not held and not any(use.reply == "yes" for use in usages.uses(states, entries[first:last], it)):
            left.matrix -= {it} - left.accesses
    return left


def chosen(rnd, opening):
    """Words that ask for a subject or an object, and for which."""
    s, o = rnd.randrange(len(opening.subjects)), rnd.randrange(len(opening.objects) + 1)
    words, asked = [], {}
    if rnd.random() < 0.5:
        words, asked = ["--subject", rnd.choice((opening.subject(s), f"#{s}"))], {"subject": s}
    if rnd.random() < 0.4:
        words, asked = [*words, "--object", rnd.choice((opening.object(o), f"#{o}"))], {**asked, "object": o}
    return words, asked


def some_states(world, is_marked=True):
    """Words that ask for some states of a world, and for which."""
    rnd = world.rnd
    _, words, asked = part_by_chance(rnd, len(world.entries), rnd.choice((None, ("from", "to", "between"))))
    if is_marked and rnd.random() < 0.4:
        found = time_rows.marks_by_chance(rnd, world)
        by_time, asked = time_rows.states_by_chance(rnd, found, asked, True)
        return [*words, *by_time], asked, found
    return words, asked, None


def usage_by_chance(world):
    states = [world.before(number) for number in range(len(world.entries) + 1)]
    for _ in range(3):
        words, asked, found = some_states(world)
        more, which = chosen(world.rnd, world.opening)
        never = world.rnd.random() < 0.5
        wanted = usage(states, world.entries, marks=found, never=never, **asked, **which)
        if not (more or never):
            continue
        same(said("usage", *words, *more, *["--never"] * never, world.start, world.journal), wanted)


def tightened_by_chance(world):
    """The start without what was never granted over some states; what is left out are the lines of `--never`."""
    states = [world.before(number) for number in range(len(world.entries) + 1)]
    words, asked, _ = some_states(world)
    more, which = chosen(world.rnd, world.opening)
    words = [*words, *more, world.start, world.journal]
    text, status = said("usage", "--tighten", *words)
    same((text, status), (start_text(tight(states, world.entries, **asked, **which)), 0))
    left, never = State(text), said("usage", "--never", *words)[0].splitlines()[:-1]
    named = lambda it: f"{world.opening.subject(it[0])} {MODES[it[2]]} {world.opening.object(it[1])}"
    unused = {it.partition(":")[0] for it in never}
    same(left.matrix, {it for it in world.opening.matrix if named(it) not in unused or it in world.opening.accesses})


# compare


def counts(rows):
    """The lines that count requests: of each a subject's name and two replies."""
    lines = []
    for _, name in sorted({(s, name) for s, name, _, _ in rows}):
        for one in texts.REPLIES:
            for other in texts.REPLIES:
                count = sum((it, here.split()[0], there.split()[0]) == (name, one, other) for _, it, here, there in rows)
                lines += [f"{name} {one} > {other} {count}\n"] if count else []
    for reason in REASONS:
        count = sum(there == f"no {reason}" for *_, there in rows)
        lines += [f"no {reason} {count}\n"] if count else []
    return lines


def starts(words, first, second, broken=False, summary=False):
    """What `mls compare` prints of two starts, and its status."""
    gets = [it for it in comparisons.gets_of(first, second) if it[3] != it[4] and not (broken and not is_broken(*it[3:]))]
    if summary:
        all_lines = comparisons.starts(words, first, second)[0].count("\n")
        changes = all_lines - sum(here != there for *_, here, there in comparisons.gets_of(first, second))
        heads = [f"gets {len(gets)}\n"] if broken else [f"changes {changes}\n", f"gets {len(gets)}\n"]
        lines = heads + counts([(s, first.subjects[s], here, there) for s, _, _, here, there in gets])
        return "".join(lines), 4 if gets or (changes and not broken) else 0
    if not broken:
        return comparisons.starts(words, first, second)
    return comparisons.ended([f"{comparisons.get_words(first, *it[:3])}: {it[3]} > {it[4]}\n" for it in gets])


def journal(first, second, entries, asked=None, broken=False, summary=False):
    """What `mls compare` prints of a journal of the first of two starts, of the entries that are asked for, and its status."""
    found = [(it, there) for it, there in comparisons.replies_there(first, second, entries) if not comparisons.agree(it.reply, there)]
    found = [it for it in found if (asked is None or it[0] in asked) and (not broken or is_broken(it[0].reply, it[1]))]
    if summary:
        lines = [f"entries {len(found)}\n"] + counts([(it.subject, first.subject(it.subject), it.reply, there) for it, there in found])
        return "".join(lines), 4 if found else 0
    return comparisons.ended([comparisons.entry_line(first, it, there) for it, there in found])


def some_entries(world):
    """Words that ask for some entries of a world, by number or by time, and these."""
    rnd, count = world.rnd, len(world.entries)
    words, entries = [], world.entries
    if rnd.random() < 0.5:
        first, last = sorted(rnd.sample(range(count + 1), 2))
        words, entries = ["--from", str(first), "--to", str(last)], [it for it in entries if first <= it.number <= last]
    if rnd.random() < 0.5:
        found = time_rows.marks_by_chance(rnd, world)
        since, until = (time_rows.instant_by_chance(rnd, found) if rnd.random() < 0.6 else None for _ in range(2))
        words = [*words, "--marks", time_rows.noted(found)]
        words += [] if since is None else [f"--since={time_rows.word_of(rnd, since)}"]
        if None not in (since, until) and since > until:
            until = None
        words += [] if until is None else ["--until", time_rows.word_of(rnd, until, is_last=True)]
        entries = [it for it in time_rows.between(world.entries, found, since, until) if it in entries]
    return words, entries


def compared_by_chance(world):
    """With another start, in each way, without and with the journal."""
    text = worlds.other(world.rnd, world.text)
    second, files = State(text), (world.start, put("other.json", text.encode()))
    for options in (["--broken"], ["--summary"], ["--broken", "--summary"]):
        ways = {it[2:]: True for it in options}
        same(said("compare", *options, *files), starts(files, world.opening, second, **ways))
        words, entries = some_entries(world)
        same(said("compare", *options, *words, *files, world.journal), journal(world.opening, second, world.entries, entries, **ways))
    words, entries = some_entries(world)
    same(said("compare", *words, *files, world.journal), journal(world.opening, second, world.entries, entries))


# settings


def some_setting(rnd, data, state):
    """A setting of a start, and what makes it of the file's tree."""
    kind = rnd.choice(("subjects", "objects"))
    row = rnd.choice(data[kind])
    member = rnd.choice(("maximum", "current", "integrity", "trusted") if kind == "subjects" else ("security", "integrity"))
    label = worlds.any_label(rnd, *((2, 1) if member == "integrity" else (4, 3)))
    value = rnd.choice((True, False)) if member == "trusted" else getattr(state, "integrity" if member == "integrity" else "security").text(label)
    word = f"{row['name']}.{member}={json.dumps(value) if member == 'trusted' else value}"

    def make(tree):
        for it in tree[kind]:
            if it["name"] == row["name"]:
                it[member] = value

    return word, make


def set_by_chance(world):
    """A start as settings have it is what another file says that has them: also where that is refused."""
    data = json.loads(world.text)
    words, tree = [], copy.deepcopy(data)
    for _ in range(world.rnd.choice((1, 1, 2, 4))):
        word, make = some_setting(world.rnd, data, world.opening)
        words += ["--set", word]
        make(tree)
    other = put("set.json", json.dumps(tree).encode())
    for options in ([], ["--broken"], ["--summary"]):
        for more in ([], [world.journal]):
            status, output, error = ran_program(["compare", *options, *words, world.start, *more])
            wanted = ran_program(["compare", *options, world.start, other, *more])
            same((status, output, error.replace(b"--set", b"set.json")), wanted)


# states


def lint_and_lattice_of_states(world):
    """Of a state of the journal, by number or by time; its labels each once, and just their covering pairs."""
    number = world.rnd.randrange(len(world.entries) + 1)
    state = world.before(number)
    files = ["--journal", world.journal, "--at", str(number), world.start]
    same(said("lint", *files), texts.lint(state))
    text, status = said("lattice", *files)
    drawn = [re.fullmatch(r'"([^"]*)" (?:\[label="(.*)"\]|-> "([^"]*)");', it) for it in text.splitlines() if it.startswith('"')]
    read = state.security.read
    nodes, edges = [read(it[1]) for it in drawn if it[2] is not None], [(read(it[1]), read(it[3])) for it in drawn if it[3] is not None]
    same((status, nodes, set(edges)), (0, texts.in_use(state), texts.covering(texts.labels(state))))
    same(len(edges), len(set(edges)))
    same(said("lint", "--journal", world.journal, world.start), texts.lint(world.last))


class SeenPart:
    """A part of a world's journal, between two states, and what the commands print of it."""

    def __init__(self, world, first, last, found):
        states = [world.before(number) for number in range(len(world.entries) + 1)]
        self.opening, self.entries, self.many, self.found = states[first], world.entries[first:last], len(world.entries), found
        self.left_out = len(states[0].matrix) - len(tight(states, world.entries, first=first, last=last).matrix)
        files = [world.start, world.journal]
        self.told = {"denials": said("journal", "--explain", "--reply", "no", *between(first, last), *files)[0],
                     "powers": said("powers", "--journal", world.journal, "--at", str(last), world.start)[0],
                     "held": said("held", *(between(first, last) if first < last else ["--at", str(first)]), *files)[0], "usage": usage(states, world.entries, first=first, last=last)[0]}

    def denied(self):
        return [it for it in self.entries if it.reply.startswith("no ")]

    def subject(self, name):
        return self.opening.numbers(name, self.opening.subjects)


def between(first, last):
    """Words that ask for the entries between two states; where there are none, for those of a number that no entry has."""
    return ["--from", str(first), "--to", str(last - 1)] if first < last else ["--from", "1000000"]


def report_agrees(world, words, first, last, found):
    """A page of a part of the journal is what the commands print of it: its labels are those of its first state, its powers those of the last."""
    page = report_rows.reported(*words, world.start, world.journal)
    report_rows.sections_agree(page, SeenPart(world, first, last, found))
    report_rows.lattice_agrees(page, "--journal", world.journal, "--at", str(first), world.start)


def reports_of_parts(world):
    """By numbers and by times, and of the journal as it was then."""
    rnd, count = world.rnd, len(world.entries)
    for is_marked in (False, True):
        words, asked, found = some_states(world, is_marked)
        first, last = asked.get("first", 0), min(asked.get("last", count), count)
        if first <= last:
            report_agrees(world, words, first, last, found)
    at = rnd.randrange(count + 1)
    page = report_rows.reported("--at", str(at), world.start, world.journal)
    report_rows.sections_agree(page, SeenPart(world, 0, at, None))


# many worlds


def short_world(seed):
    """A random start, and the states and entries of a journal of it."""
    rnd = random.Random(seed)
    text = worlds.start(rnd)
    opening = State(text)
    entries = worlds.journal(rnd, copy.deepcopy(opening), SHORT)
    states = [opening]
    for it in entries:
        states.append(copy.deepcopy(states[-1]))
        states[-1].apply(it.subject, it.action)
    put("many.json", text.encode())
    put("many.journal", worlds.lines_of(entries).encode())
    return rnd, states, entries


def judged(states, entries, text):
    """What a tightened start breaks, as the policy judges it: nothing that was granted is denied, and no less than it has would do."""
    left = State(text)
    for it, there in comparisons.replies_there(states[0], left, entries):
        assert not is_broken(it.reply, there), f"entry {it.number}: {it.reply} > {there}"
    given = {(it.action[2], it.action[3], it.action[1]) for it in entries if it.action[0] == "give" and it.reply == "yes"}
    for cell in left.matrix - left.accesses - given:
        less = copy.deepcopy(left)
        less.matrix -= {cell}
        assert any(is_broken(it.reply, there) for it, there in comparisons.replies_there(states[0], less, entries)), f"{cell} isn't needed"


def starts_tightened_over_many_worlds():
    """Over whole journals: just what was granted is needed of a start, and what another start breaks is what it denies of that."""
    for seed in range(MANY):
        rnd, states, entries = short_world(10_000_000 + seed)
        text, status = said("usage", "--tighten", "many.json", "many.journal")
        same((seed, text, status), (seed, start_text(tight(states, entries)), 0))
        judged(states, entries, text)
        put("tight.json", text.encode())
        same((seed, *said("compare", "--broken", "many.json", "tight.json", "many.journal")), (seed, "", 0))
        other = worlds.other(rnd, json.dumps(json.loads(text)))
        put("other.json", other.encode())
        wanted = journal(states[0], State(other), entries, broken=True)
        same((seed, *said("compare", "--broken", "many.json", "other.json", "many.journal")), (seed, *wanted))


OF_WORLDS = [usage_by_chance, tightened_by_chance, compared_by_chance, set_by_chance, lint_and_lattice_of_states, reports_of_parts]
ONCE = [starts_tightened_over_many_worlds]
