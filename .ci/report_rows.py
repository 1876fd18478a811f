"""Pages about journals: `mls report`. What a page tells is what the policy in Python has, grouped here and put in order by weight, and what
the commands print that it names; of an example it was worked out by hand."""
import collections
import copy
import datetime
import json
import os
import re

import closures
import marks
import question_texts as texts
from asking import GONE, HELD, OPENED, STANDARD, asks, put_faulty, put_marks
from browsing import CHROMIUM, pages_in_a_browser
from outside import EXAMPLES, examples, in_its_folder, put, ran_program, same
from pages import (
    appendix, bar_of, beside, columns_of, drawn, grid_of, hands_of, lattice_lines, more, page_of, rows_of, section, stretches_of, tables,
    titles_of,
)
from policy import MODES, REASONS, State, dominates
from time_rows import marks_by_chance

SHOWN, LISTED, WEEKS, PARTS, DRAWN, ACROSS, HANDS = 40, 2_000, 106, 24, 60, 20, 12
TIME = b"2026-11-27T11:12:26.736512Z"
NEVER = "\u00b7" * 4


def said(*words):
    status, output, error = ran_program(words)
    assert not error and status in (0, 4), f"{words}: {status} {error}"
    return output.decode()


def by_commands(start, journal):
    """What the commands print that a page names."""
    return {"denials": said("journal", "--explain", "--reply", "no", start, journal),
            "powers": said("powers", "--journal", journal, start), "held": said("held", start, journal),
            "usage": said("usage", start, journal)}


def reported(*words):
    status, output, error = ran_program(["report", *words])
    same((words, status, error), (words, 0, b""))
    return page_of(output)


_, refused, not_understood = asks("report")


class Seen:
    """A start, its entries, and what the commands print of both; and how many entries the whole journal has."""

    def __init__(self, start, journal, found=None):
        with open(start, encoding="utf-8") as text:
            self.opening = State(text.read())
        with open(journal, encoding="utf-8") as text:
            self.entries = [texts.entry_of(line) for line in text.read().splitlines()]
        self.many = len(self.entries)
        self.told = by_commands(start, journal)
        self.left_out = len(self.opening.matrix) - len(State(said("usage", "--tighten", start, journal)).matrix)
        self.found = found

    def denied(self):
        return [it for it in self.entries if it.reply.startswith("no ")]

    def subject(self, name):
        return self.opening.numbers(name, self.opening.subjects)


def heaviest_first(rows):
    """Rows by their weights; of equally heavy ones the one that is first here stays first."""
    return [row for _, _, row in sorted((-weight, at, row) for at, (weight, row) in enumerate(rows))]


def cut(rows):
    """The rows that are printed, those of the appendix, and how many aren't printed."""
    return rows[:SHOWN], rows[SHOWN : SHOWN + LISTED], max(0, len(rows) - SHOWN)


def found_in(page, title):
    part = section(page, title)
    return *rows_of(part), more(part)


def object_of(entry):
    """The object that an entry is about: the parent of one that is to be made."""
    about = entry.objects()
    return None if entry.action[0] == "level" else about[0]


def denials_of(seen):
    """The denied entries, by subject, object and reason: the most first, and else by their numbers."""
    groups = collections.defaultdict(list)
    for it in seen.denied():
        groups[it.subject, -1 if object_of(it) is None else object_of(it), REASONS.index(it.reply[3:])].append(it)
    return heaviest_first([(len(groups[key]), (*key, [it.number for it in groups[key]])) for key in sorted(groups)])


def explanations(text):
    """Of the lines of denied entries: what stands under each, by its number, and what it asked."""
    found = {}
    for line in text.splitlines():
        if line.startswith("  "):
            found[number][1].append(line[2:])
        else:
            number = int(line.split()[0])
            found[number] = line.rpartition(": ")[0], []
    return found


def day_of(found, number):
    """The day of an entry, where a mark covers it."""
    for it in found or []:
        if number <= it.number:
            return " " + it.time.decode()[:10]
    return ""


def dated(seen, number):
    """The number of an entry, with its day."""
    return f"{number}{day_of(seen.found, int(number))}"


def denials_agree(page, seen):
    groups = denials_of(seen)
    name = seen.opening
    rows = [[name.subject(s), "-" if o < 0 else name.object(o), REASONS[why], str(len(numbers)), dated(seen, numbers[-1])]
            for s, o, why, numbers in groups]
    printed, behind, left = cut(rows)
    part = section(page, "Denied entries")
    shown, listed = rows_of(part)
    same(([it for it in shown if len(it) == 5], listed, more(part)), (printed, behind, left))
    same(sum(int(it[3]) for it in printed + behind), len(seen.denied()))
    told = explanations(seen.told["denials"])
    folded = [(it.one("summary").text(), it.one("pre").text().splitlines()) for it in part.all("details") if it.all("pre")]
    same(folded, [told[numbers[-1]] for _, _, _, numbers in groups[:SHOWN]])
    if not rows:
        assert "No entry was denied." in part.text()


def trusting_of(seen):
    """How often trust alone granted something, by subject: what would be denied, were the subject not trusted."""
    state, counts = copy.deepcopy(seen.opening), collections.Counter()
    for it in seen.entries:
        if it.subject in state.trusted and not it.reply.startswith(("no", "undefined")):
            state.trusted.remove(it.subject)
            counts[it.subject] += state.decide(it.subject, it.action).startswith("no")
            state.trusted.add(it.subject)
        same(state.apply(it.subject, it.action), it.reply)
    return heaviest_first([(counts[s], (seen.opening.subject(s), counts[s])) for s in sorted(counts) if counts[s]])


def trust_agrees(page, trusting):
    same(rows_of(section(page, "Trust"))[0], [[name, str(count)] for name, count in trusting])


def uses_of(seen):
    """The permissions, each with how often it was granted and denied, and its last entry."""
    rows = []
    for line in seen.told["usage"].splitlines()[:-1]:
        if line.split()[1] == "trust:":
            continue
        access, _, told = line.rpartition(": ")
        found = re.fullmatch(r"(\d+) granted, (\d+) denied, last (.*?)(, held at start)?", told)
        rows.append([access, *found.groups()[:3], bool(found[4]) or found[3] == "start"] if found else [access, "0", "0", told, False])
    return rows


def removable(unused, count, left_out):
    """The line of what was never granted, with how many cells of the start `usage --tighten` leaves out."""
    return (f"{unused} of {count} permissions were never granted (mls usage --never). From START, {left_out} of them could be removed "
            "(mls usage --tighten), unless they are young.")


def is_unused(row):
    return row[1] == "0" and not row[4]


def usage_agrees(page, seen):
    part = section(page, "Use of permissions")
    uses = uses_of(seen)
    same(part.all("p")[1].text(), seen.told["usage"].splitlines()[-1])
    kept = [k for k in (1, 2) if any(it[k] != "0" for it in uses)]
    totals = collections.defaultdict(list)
    for it in uses:
        totals[it[0].split()[0]].append(it)
    rows = []
    for name, found in totals.items():
        unused = sum(map(is_unused, found))
        lasts = [int(it[3]) for it in found if it[3].isdigit()]
        last = dated(seen, max(lasts)) if lasts else "-"
        sums = [str(sum(int(it[k]) for it in found)) for k in kept]
        rows.append((unused, [name, str(len(found)), str(unused), *sums, last]))
    shown, listed = rows_of(part)
    same(shown, heaviest_first(rows)[:SHOWN])
    same(listed, [[it[0], *(it[k] for k in kept), dated(seen, it[3]) if it[3].isdigit() else it[3]] for it in sorted(uses, key=lambda it: not is_unused(it))[:LISTED]])


def span_of(line, entries):
    """Who held what, and in which states: they are numbered from 0, before entry 0, to that after the last entry."""
    access, _, told = line.partition(": ")
    begin, _, end = told.partition(" to ")
    begin, last = begin.removesuffix(" on"), end.partition(",")[0]
    first = 0 if begin == "start" else int(begin) + 1
    return access, begin, last, (first, (int(last) if last else entries) + 1 - first)


def spans_agree(page, seen):
    entries, held = seen.many, collections.defaultdict(list)
    names = {}
    for line in seen.told["held"].splitlines():
        access, *told = span_of(line, entries)
        s, x, o = access.split()
        key = seen.subject(s), seen.opening.numbers(o, seen.opening.objects), ("execute", "read", "append", "write").index(x)
        names[key] = [s, x, o]
        held[key].append(told)
    rows = []
    for key in sorted(held):
        spans = held[key]
        begin, end = spans[0][0], spans[-1][1]
        extent = (begin if begin == "start" else dated(seen, begin)) + (f" to {dated(seen, end)}" if end else " on")
        bars = [it[2] for it in spans]
        rows.append((sum(length for _, length in bars), ([*names[key], str(len(spans)), extent, ""], bars)))
    rows = heaviest_first(rows)
    part = section(page, "Held")
    same((*rows_of(part), more(part)), cut([row for row, _ in rows]))
    svgs = [stretches_of(it) for it in part.all("svg")]
    same(svgs, [(bars, entries + 1) for _, bars in rows[: SHOWN + LISTED]])
    if not rows:
        assert "Nothing was held." in part.text()


def kind_of(line):
    """Of which kind a change is, of those that are told together."""
    words = line.split()
    return "relabels" if words[1] == "relabels" else words[1]


def cut_change(line):
    """A change as the page has it: of more than three labels the first three."""
    front, found, labels = line.partition(" level" if line.split()[1] == "level" else " to ")
    words = labels.split()
    if not found or len(words) <= 3:
        return line.partition(" ")[2]
    return f"{front}{found.rstrip()} {' '.join(words[:3])} and {len(words) - 3} more".partition(" ")[2]


def powers_agree(page, seen):
    """Of each subject and kind three changes are told, and how many more there are; of each change three labels."""
    changes = collections.defaultdict(list)
    for line in seen.told["powers"].splitlines():
        changes[line.split()[0]].append(line)
    rows = []
    for name, lines in changes.items():
        kinds = collections.defaultdict(list)
        for line in lines:
            kinds[kind_of(line)].append(cut_change(line))
        items = []
        for found in kinds.values():
            items += found[:3] + ([f"and {len(found) - 3} more of this kind"] if len(found) > 3 else [])
        rows.append((len(lines), [name, "".join(items)]))
    same(found_in(page, "Powers"), cut(heaviest_first(rows)))


def last_state(seen):
    state = copy.deepcopy(seen.opening)
    for it in seen.entries:
        state.apply(it.subject, it.action)
    return state


def sign(state, could, access):
    """What a grid has at the place of a mode."""
    if access in state.accesses:
        return "ERAW"[access[2]]
    return ("eraw"[access[2]] if access in state.matrix else "+") if access in could else "\u00b7"


def weight(signs):
    """First those that are not permitted and could be got, then the others that are held or could be."""
    return signs.count("+"), len(signs) - signs.count("\u00b7")


def grid_agrees(page, seen):
    """The heaviest objects and subjects, and of each of these accesses what the closure in Python says of it."""
    state = last_state(seen)
    could = closures.closure(state, closures.untrusted(state))[0]
    signs = {(s, o): "".join(sign(state, could, (s, o, x)) for x in range(4)) for s in state.maximum for o in state.label}
    whole = lambda k, n: weight("".join(found for key, found in signs.items() if key[k] == n))
    subjects = sorted(state.maximum, key=lambda s: [-it for it in whole(0, s)] + [s])
    objects = sorted(state.label, key=lambda o: [-it for it in whole(1, o)] + [o])
    part = section(page, "What could come about")
    same(grid_of(part), ([state.subject(s) for s in subjects[:ACROSS]],
                         {state.object(o): [signs[s, o] for s in subjects[:ACROSS]] for o in objects[:SHOWN]}))
    same(list(grid_of(part)[1]), [state.object(o) for o in objects[:SHOWN]])
    same(beside(part), (max(0, len(objects) - SHOWN), max(0, len(subjects) - ACROSS)))
    hands_agree(part, state, signs, subjects[:HANDS], objects[:HANDS])


def hands_agree(part, state, signs, subjects, objects):
    """The drawing has a line of each of these objects to each subject that sees it, or could, and of each subject to what it alters, or could."""
    could = lambda s, o, modes: any(signs[s, o][it] != "\u00b7" for it in modes)
    seen = {(i, j) for i, o in enumerate(objects) for j, s in enumerate(subjects) if could(s, o, (1, 3))}
    altered = {(j, i) for i, o in enumerate(objects) for j, s in enumerate(subjects) if could(s, o, (2, 3))}
    down = {(j, i) for j, i in altered if any(not dominates(state.label[objects[i]], state.label[objects[k]]) for k, at in seen if at == j)}
    cut = lambda names: [it if len(it) <= 28 else it[:28] + "\u2026" for it in names]
    same(hands_of(part), (cut(map(state.object, objects)), cut(map(state.subject, subjects)), {"seen": seen, "altered": altered, "down": down}))


WORDS = {"\u00b7": "never", "+": "could"} | {it: "could" for it in "eraw"} | {it: "held" for it in "ERAW"}


def grid_is_told(page, start, journal):
    """Of each object of the grid and each of its subjects, `who --could` prints the same."""
    subjects, rows = grid_of(section(page, "What could come about"))
    for name, cells in rows.items():
        told = said("who", "--could", "--journal", journal, start, name).splitlines()
        lines = {f"{s} {mode}: {WORDS[it]}" for s, cell in zip(subjects, cells) for mode, it in zip(MODES, cell)}
        same({it for it in told if it.split()[0] in subjects}, lines)
        same(len(told), 4 * (len(subjects) + beside(section(page, "What could come about"))[1]))


def counts_of(seen):
    """How many entries of each subject were granted, denied and undefined, and how many were denied for each reason."""
    subjects, reasons = {}, collections.Counter()
    for it in seen.entries:
        counts = subjects.setdefault(it.subject, [0, 0, 0])
        counts[{"no": 1, "undefined": 2}.get(it.reply.split()[0], 0)] += 1
        if it.reply.startswith("no "):
            reasons[it.reply[3:]] += 1
    return subjects, reasons


def counts_agree(page, seen):
    part = section(page, "Entries")
    subjects, reasons = counts_of(seen)
    sums = [sum(it) for it in zip(*subjects.values())] or [0] * 3
    same(tables(part).get("Denied, by reason", []), [[it, str(reasons[it])] for it in REASONS if reasons[it]])
    columns = [k for k in range(3) if sums[k]]
    rows = heaviest_first([(sum(subjects[s]), [seen.opening.subject(s), *(str(subjects[s][k]) for k in columns)]) for s in sorted(subjects)])
    shown, listed = rows_of(part)
    same((shown[len(reasons):], listed, more(part)), cut(rows))
    titles = ["Subject", *(["Granted", "Denied", "Undefined"][k] for k in columns)]
    if rows:
        same([it.texts("th") for it in part.all("thead")][-1], titles)
    for table in part.all("table"):
        bars_agree(table, max([max(it) for it in subjects.values()], default=0) if table.one("caption").text() != "Denied, by reason"
                   else max(reasons.values()))
    return sums


def bars_agree(table, greatest):
    """Each bar of a table is as long as its number is of the greatest."""
    for it in table.all("td"):
        if it.all("svg"):
            number = int(it.text())
            same(bar_of(it.one("svg")), (0, number, greatest) if number else None)


def week_of(time):
    """The Monday of a time."""
    day = datetime.date.fromisoformat(time.decode()[:10])
    return day - datetime.timedelta(days=day.weekday())


def trend_of(seen):
    """How many entries were denied in each column, and what stands below them."""
    denied, ending, which = seen.denied(), "", ""
    weeks = {it.number: found[0] for it in seen.entries
             if (found := [week_of(mark.time) for mark in seen.found or [] if it.number <= mark.number])}
    if weeks:
        first, span = min(weeks.values()), (max(weeks.values()) - min(weeks.values())).days // 7
        width = span // WEEKS + 1
        columns = [0] * (span // width + 1)
        for entry in denied:
            if entry.number in weeks:
                columns[(weeks[entry.number] - first).days // 7 // width] += 1
        last = first + datetime.timedelta(days=7 * width * (len(columns) - 1))
        told = f"By {'week' if width == 1 else f'{width} weeks'}, from {first} to the one of {last}"
        missing = len(denied) - sum(columns)
        ending = f"; {missing} more behind the last mark" if missing else ""
        over, which = columns[:-1], "that are over "
    else:
        columns = [0] * min(PARTS, len(seen.entries))
        for place, entry in enumerate(seen.entries):
            columns[place * len(columns) // len(seen.entries)] += entry.reply.startswith("no ")
        told = f"In {len(columns)} equal parts of the entries, from the first to the last"
        over = columns
    told += f"; at most {max(columns, default=0)}"
    if len(over) >= 8 and not ending:
        told += f"; in the last four {which}{sum(over[-4:])}, in the four before {sum(over[-8:-4])}"
    return columns, f"{told}{ending}."


def short_agrees(page, seen, sums, trusting):
    """The five lines of what matters."""
    part = section(page, "In short")
    lines = part.all("li")
    same(len(lines), 5)
    same(lines[0].text(), "{} {}: {} granted, {} denied, {} undefined.".format(
        len(seen.entries), "entry" if len(seen.entries) == 1 else "entries", *sums))
    same(lines[1].one("b").text(), f"{sums[1]} denied")
    if sums[1]:
        columns, told = trend_of(seen)
        # (one column would be a block)
        drawn = [[it * 100 // max(columns) + 2 if it and max(columns) else 0 for it in columns]] if len(columns) > 1 else []
        same([columns_of(it) for it in lines[1].all("svg")], drawn)
        same(lines[1].one("span").text(), told)
    else:
        assert not lines[1].all("svg")
    names = ", ".join(f"{name} {count}" for name, count in trusting[:5]) + (", and others" if len(trusting) > 5 else "")
    same(lines[2].text(), f"{sum(it for _, it in trusting)} granted by trust alone" + (f": {names}." if names else "."))
    unused, count = sum(map(is_unused, uses_of(seen))), len(uses_of(seen))
    same(lines[3].text(), removable(unused, count, seen.left_out))
    wanted = "The journal was verified: each reply is the one that the rules give. No marks were looked at."
    if seen.found is not None:
        digest = seen.found[-1].digest.hex() if seen.found else "0" * 64
        behind = seen.many - (seen.found[-1].number + 1 if seen.found else 0)
        wanted = f"The journal was verified and its marks, up to the digest {digest}; entries behind the last mark: {behind}."
    same(lines[4].text(), wanted)


def lattice_agrees(page, *files):
    nodes, pairs = drawn(said("lattice", *files))
    part = section(page, "Lattice")
    if len(nodes) <= SHOWN:
        same(lattice_lines(page), (nodes, pairs))
    if len(nodes) > DRAWN:
        assert not part.all("path") and "More than 60 labels are not drawn." in part.text()
        return
    paths = {kind: [it.attributes["d"] for it in part.all("path") if it.attributes["class"] == kind] for kind in ("box", "link")}
    tops = [int(re.fullmatch(r"M\d+ (\d+)h208v\d+h-208z", it)[1]) for it in paths["box"]]
    same(len(tops), len(nodes))
    labels = [it.text() for it in part.all("text") if it.attributes["class"] == "label"]
    same(labels, [it if len(it) <= 28 else it[:28] + "\u2026" for it in nodes])
    # a label is drawn above those that it covers, and lines go up
    height = dict(zip(nodes, tops))
    assert all(height[high] < height[low] for low, high in pairs), height
    lines = [tuple(map(int, re.fullmatch(r"M(\d+) (\d+)L(\d+) (\d+)", it).groups())) for it in paths["link"]]
    assert all(low > high for _, low, _, high in lines), lines
    assert len(lines) >= len(pairs)


def verified_agrees(page, seen):
    rows = [["Entries that were replayed", str(seen.many)]]
    if seen.found is not None:
        rows.append(["Digest of the last mark", seen.found[-1].digest.hex() if seen.found else "0" * 64])
        if seen.found:
            rows += [["Time of the first mark", seen.found[0].time.decode()], ["Time of the last mark", seen.found[-1].time.decode()]]
        rows.append(["Entries behind the last mark", str(seen.many - (seen.found[-1].number + 1 if seen.found else 0))])
    same(tables(section(page, "Verified"))["When this page was written"], rows)


def sections_agree(page, seen):
    """What a page tells of entries is what is told of the same, but for the labels."""
    trusting = trusting_of(seen)
    sums = counts_agree(page, seen)
    short_agrees(page, seen, sums, trusting)
    denials_agree(page, seen)
    trust_agrees(page, trusting)
    usage_agrees(page, seen)
    spans_agree(page, seen)
    powers_agree(page, seen)
    grid_agrees(page, seen)
    verified_agrees(page, seen)


def page_agrees(start, journal, found=None):
    """What a page tells is what is told of the same files."""
    if found is None:
        page = reported(start, journal)
    else:
        put("page.marks", marks.text_of(found))
        page = reported("--marks", "page.marks", start, journal)
    sections_agree(page, Seen(start, journal, found))
    lattice_agrees(page, start)
    grid_is_told(page, start, journal)
    return page


def a_page_by_hand():
    """The page of the example in FORMATS.md."""
    put("held.journal", OPENED)
    page = reported(HELD, "held.journal")
    same((page.one("h1").text(), page.one("title").text()), ("Report of held.journal", "mls report: held.journal"))
    same(tables(section(page, "Verified")), {"When this page was written": [["Entries that were replayed", "5"]]})
    lines = section(page, "In short").texts("li")
    same((lines[0], lines[2:]), (
        "5 entries: 4 granted, 1 denied, 0 undefined.",
        ["0 granted by trust alone.", removable(10, 12, 10),
         "The journal was verified: each reply is the one that the rules give. No marks were looked at."]))
    same(columns_of(section(page, "In short").one("svg")), [0, 102, 0, 0, 0])
    same(section(page, "In short").one("span").text(), "In 5 equal parts of the entries, from the first to the last; at most 1.")
    part = section(page, "Denied entries")
    same(rows_of(part)[0][0], ["bob", "memo", "star", "1", "1"])
    same(part.one("summary").text(), "1 session 0 bob get-read memo")
    same(part.one("pre").text().splitlines()[:4],
         ["discretionary holds: bob is permitted read of memo", "simple holds: maximum C dominates C of memo",
          "star fails: current U does not dominate C of memo", "integrity holds: lo of memo dominates lo of bob"])
    part = section(page, "Entries")
    same(tables(part), {"Denied, by reason": [["star", "1"]],
                        "By the subject that asked": [["ann", "3", "0"], ["bob", "0", "1"], ["sec", "1", "0"]]})
    same([bar_of(it) for it in part.all("svg")], [(0, 1, 1), (0, 3, 3), None, None, (0, 1, 3), (0, 1, 3), None])
    same(titles_of(section(page, "Held")), ["Subject", "Mode", "Object", "Times", "From and to", "Time line"])
    same(rows_of(section(page, "Held"))[0], [["ann", "read", "plans", "2", "start on", ""], ["sec", "write", "root", "1", "4 on", ""]])
    same([stretches_of(it) for it in section(page, "Held").all("svg")], [([(0, 3), (4, 2)], 6), ([(5, 1)], 6)])
    same(lattice_lines(page), (
        {"S:A": ["ann maximum, current", "aud maximum", "plans"], "C": ["bob maximum", "memo"],
         "U": ["bob current", "sec current", "aud current", "root", "tool"], "T:A,B": ["sec maximum"]},
        {("S:A", "T:A,B"), ("C", "S:A"), ("U", "C")}))
    same(rows_of(section(page, "Use of permissions"))[0],
         [["ann", "4", "3", "2", "0", "3"], ["bob", "3", "3", "0", "1", "1"], ["sec", "4", "3", "1", "0", "4"], ["aud", "1", "1", "0", "0", "-"]])
    # ann holds read of plans, and may write it; bob's maximum and integrity let it read memo and execute tool; sec holds write of root, and
    # doesn't act. Nobody who acts could write root, so nobody gives anything
    same(grid_of(section(page, "What could come about")), (["ann", "bob", "sec", "aud"], {
        "plans": ["\u00b7R\u00b7w", NEVER, NEVER, NEVER], "root": [NEVER, NEVER, "\u00b7\u00b7\u00b7W", NEVER],
        "memo": [NEVER, "\u00b7r\u00b7\u00b7", NEVER, NEVER], "tool": [NEVER, "e\u00b7\u00b7\u00b7", NEVER, NEVER]}))
    same(section(page, "What could come about").one("ul").texts("code"), ["ERAW", "eraw", "++++", NEVER])
    assert sum(more(section(page, it)) for it in ("Denied entries", "Held", "Powers", "Entries", "Lattice")) == 0


def pages_of_the_examples():
    for name in examples():
        if not os.path.exists(f"{EXAMPLES}/{name}.script"):
            continue
        start = f"{EXAMPLES}/{name}.json"
        said("run", "--serial", "--journal", "j", start, f"{EXAMPLES}/{name}.script")
        page_agrees(start, "j")
    put("empty.journal", b"")
    page_agrees(STANDARD, "empty.journal")


def pages_with_marks():
    """The digest, the days and the weeks, as marks.py makes the marks."""
    put("held.journal", OPENED)
    later = b"2026-12-07T00:00:00.000000Z"
    found = marks.made(OPENED, [1, 4], [TIME, later])
    page = page_agrees(HELD, "held.journal", found)
    # by hand: the Monday of 27 November 2026, a Friday, is the 23rd; entry 1 is in the batch of the second mark, two weeks on
    same(section(page, "In short").all("li")[1].one("span").text(), "By week, from 2026-11-23 to the one of 2026-12-07; at most 1.")
    same(columns_of(section(page, "In short").one("svg")), [0, 0, 102])
    same(rows_of(section(page, "Denied entries"))[0][0][4], "1 2026-12-07")
    page_agrees(HELD, "held.journal", [])
    # weeks of leap years, of years without one, and of turns of years; more weeks than columns
    for first, last in ((b"2024-02-28", b"2024-03-01"), (b"2100-02-28", b"2100-03-01"), (b"1999-12-31", b"2000-01-03"),
                        (b"2023-01-01", b"2023-01-02"), (b"2020-01-01", b"2026-11-27"), (b"1600-02-29", b"2400-02-29")):
        found = marks.made(OPENED, [1, 5], [first + TIME[10:], last + TIME[10:]])
        page_agrees(HELD, "held.journal", found)


def trust_by_hand():
    """Of three grants of a trusted subject, star would deny the second without trust, and authority the third."""
    script = b"sec level C\nsec get-write memo\nsec level T:A,B\nsec get-write plans\nsec give read bob root\nsec rescind read bob root\n"
    put("trust.script", script)
    said("run", "--serial", "--journal", "trust.journal", STANDARD, "trust.script")
    page_agrees(STANDARD, "trust.journal")


def pages_of_hostile_files():
    """Names of files are all on a page that no grammar bounds; and a journal has numbers that nobody has, as large as they may be."""
    for name in (b"<script>alert(1)<", b"'\"&amp;&#60;b", b"]]>--><!--", b"a\x01\n\r\x7fb", "</title>\u00e9\u202e".encode()):
        name = name.replace(b"/", b"\xe2\x88\x95").decode()
        put(name, OPENED)
        put(f"{name}.json", open(HELD, "rb").read())
        page = page_agrees(f"{name}.json", name)
        shown = "".join("\ufffd" if it < " " or it == "\x7f" else it for it in name)
        same((page.one("h1").text(), page.one("title").text()), (f"Report of {shown}", f"mls report: {shown}"))
        same(page.one("header").all("code")[0].text(), f"{shown}.json")
    put("strange.journal", b"0 4294967295 65535 relabel 65535 15:0,255 undefined\n1 0 2 create 65535 9:7 15 undefined\n2 7 1 get-read 2 no star\n")
    page_agrees(STANDARD, "strange.journal")
    for told in (b"0 0 0 get-read <b> yes\n", b"0 0 <b> get-read 1 yes\n", b"0 0 0 get-read 1 <script>\n", b"<b> 0 0 get-read 1 yes\n"):
        status, output, error = ran_program(["report", STANDARD, put("html.journal", told)])
        same((status, output, error[:38]), (1, b"", b"mls: html.journal: line 1: entry 1 Bad") if b"BadForm" in error else (status, b"", error[:38]))
        assert status == 1 and b"<" not in error


def wide_start(subjects, objects):
    """A start of many subjects, objects and labels, in which each subject may read each object."""
    levels, categories = ["U", "C", "S", "T"], [f"K{it}" for it in range(8)]
    label = lambda k: levels[k % 4] + (f":K{k % 8}" if k % 3 else "")
    named = [{"name": f"s{k}", "maximum": "T:" + ",".join(categories), "current": "U", "integrity": "lo", "trusted": k == 1}
             for k in range(subjects)]
    things = [{"name": "root", "parent": None, "security": "U", "integrity": "lo"}] + [
        {"name": f"o{k}", "parent": "root", "security": label(k), "integrity": "lo"} for k in range(1, objects)]
    return {"security": {"levels": levels, "categories": categories}, "integrity": {"levels": ["lo"], "categories": []},
            "subjects": named, "objects": things,
            "matrix": [{"subject": s["name"], "object": o["name"], "modes": ["read"]} for s in named for o in things]}


def pages_of_many_rows():
    """At most 40 rows are printed, the heaviest, and 2,000 more are in the appendix."""
    for subjects in (SHOWN - 1, SHOWN, SHOWN + 1, SHOWN + 9):
        put("wide.json", json.dumps(wide_start(subjects, 12)).encode())
        lines = [f"s{k} get-read o{1 + (k * 7 + j) % 11}\n" for k in range(subjects) for j in range(1 + k % 4)]
        put("wide.script", "".join(lines).encode())
        said("run", "--serial", "--journal", "wide.journal", "wide.json", "wide.script")
        page = page_agrees("wide.json", "wide.journal")
        same(more(section(page, "Entries")), max(0, subjects - SHOWN))
        assert bool(appendix(section(page, "Entries")).all("table")) == (subjects > SHOWN)
        same(beside(section(page, "What could come about")), (0, subjects - ACROSS))


def faults_of_pages_in_their_order():
    put_faulty()
    put_marks("good.marks", OPENED, [5], [TIME])
    put("torn.marks", open("good.marks", "rb").read()[:-1])
    put_marks("other.marks", OPENED.replace(b"star", b"root"), [5], [TIME])
    refused(["no.json", "no.journal"], f"no.json: {GONE}")
    refused(["--marks", "no.marks", "empty.json", "no.journal"], f"no.marks: {GONE}")
    refused(["--marks", "torn.marks", "empty.json", "no.journal"], f"no.journal: {GONE}")
    refused(["--marks", "other.marks", "empty.json", "opened.journal"], "other.marks: differs at entry 4", 3)
    refused(["empty.json", "torn.journal"], "empty.json: start 1 Json: empty")
    refused([HELD, "torn.journal"], "torn.journal: line 5: entry 1 BadForm")
    refused([HELD, "forged.journal"], "forged.journal: replay 2 Differs at 1 expected no star, found yes", 3)
    refused(["--marks", "torn.marks", HELD, "opened.journal"], "torn.marks: torn before entry 0")
    not_understood([HELD], [], [HELD, "opened.journal", "more"])


def pages_by_chance(world):
    """Pages of a random start and journal, without marks and with marks."""
    page_agrees(world.start, world.journal)
    page_agrees(world.start, world.journal, marks_by_chance(world.rnd, world))


CHECKS = [*map(in_its_folder, [a_page_by_hand, pages_of_the_examples, pages_with_marks, trust_by_hand, pages_of_hostile_files,
           pages_of_many_rows, faults_of_pages_in_their_order, ])]
BROWSED = in_its_folder(pages_in_a_browser)
CHECKS.append(BROWSED)
UNFIT = {} if CHROMIUM else {BROWSED: "chromium isn't installed"}
# (it is asked of random starts and journals)
OF_WORLDS = [pages_by_chance]
