"""Questions about a journal with its marks: `--marks`, `--since`, `--until` and `--when`, with answers that are computed from marks.py and
the policy in Python, and rows by hand for words, faults and their order."""
import os
import subprocess

import marks
import question_texts as texts
import question_worlds as worlds
from asking import GONE, NO_REPLY, NO_TIME, STANDARD, asks, packed, put_marks, said
from outside import PROGRAM, SECONDS, in_its_folder, put, ran_program, same, some
from policy import explained, who, words_of

MICROSECOND, SECOND = 1_000, marks.SECOND
DAY = 86_400 * SECOND
LINE = "ann get-read plans"
_, refused, not_understood = asks()


# times


def marks_by_chance(rnd, world):
    """Marks of a world's journal: perhaps not of its last entries, and of a clock that may go back or stand still."""
    count = len(world.entries)
    ends = sorted(rnd.sample(range(1, count + 1), rnd.choice((0, 1, 3, 8))))
    at, times = marks.instant(b"2026-11-27T11:12:26.736512Z"), []
    for _ in ends:
        at += rnd.choice((0, 1, 999_999, 1_000_000, 86_400_000_000, -1, -3_600_000_000)) * MICROSECOND
        times.append(marks.time_text(at))
    return marks.made(worlds.lines_of(world.entries).encode(), ends, times)


def instant_by_chance(rnd, found):
    """An instant at, or right beside, the time of a mark; or before all, or after."""
    at = marks.instant(rnd.choice(found).time if found else b"2026-11-27T11:12:26.736512Z")
    return at + rnd.choice((0, 0, 1, -1, 999, MICROSECOND, -MICROSECOND, SECOND, -SECOND, DAY, -DAY, 400 * DAY, -400 * DAY))


def word_of(rnd, at, is_last=False):
    """A word for an instant, with any offset; and for one that begins a day in UTC perhaps its date, or for one that ends it."""
    date, *rest = marks.parts(at + 1 if is_last else at)
    if rest == [0, 0, 0, 0] and rnd.random() < 0.5:
        return marks.parts(at)[0].isoformat()
    minutes = rnd.choice((0, 0, 60, -60, 330, -1439, 1439))
    date, hour, minute, second, nanos = marks.parts(at + minutes * 60 * SECOND)
    digits = f"{nanos:09}".rstrip("0")
    digits += rnd.randrange(10 - len(digits)) * "0"
    hours = f"{'-' if minutes < 0 else '+'}{abs(minutes) // 60:02}:{abs(minutes) % 60:02}"
    zone = rnd.choice(("Z", "z", "+00:00", "-00:00")) if minutes == 0 else hours
    return f"{date.isoformat()}{rnd.choice('TTTt')}{hour:02}:{minute:02}:{second:02}{'.' if digits else ''}{digits}{zone}"


def noted(found):
    return put("start.marks", marks.text_of(found))


def first_since(found, at):
    """The number of the first entry of the first mark of a time or later, and of the state before it; without such a mark, behind the last one."""
    number, behind = marks.since(found, at), found[-1].number + 1 if found else 0
    return behind if number is None else number


def states_by_chance(rnd, found, asked, is_range):
    """Words that tell marks, and perhaps by time from which state on and up to which; and what then is asked for beside what was: states
    from `first` to `last`."""
    words, first = ["--marks", noted(found)], None
    if is_range and rnd.random() < 0.5:
        first = at = instant_by_chance(rnd, found)
        words.append(f"--since={word_of(rnd, at)}")
        asked = {**asked, "first": max(asked.get("first", 0), first_since(found, at))}
    if is_range and rnd.random() < 0.5:
        at = instant_by_chance(rnd, found)
        number = marks.until(found, at)
        last = 0 if number is None else number + 1
        if first is not None and first > at:
            return words, asked
        words += ["--until", word_of(rnd, at, is_last=True)]
        asked = {**asked, "last": min(asked.get("last", last), last)}
    return words, asked


# lists


def between(entries, found, since, until):
    """The entries from the first mark of a time or later, or else from behind all marks, and to the last mark of a time or earlier."""
    first = 0 if since is None else first_since(found, since)
    last = len(entries) if until is None else marks.until(found, until)
    return [it for it in entries if last is not None and first <= it.number <= last]


def with_times(found, entries, line_of):
    """Lines, each with the time of its entry before it."""
    lines = []
    for it in entries:
        time = marks.time_of(found, it.number)
        lines.append(f"[{time.decode() if time else '-'}] {line_of(it)}")
    return "".join(lines), 0 if entries else 4


def objects_with_times(found, entries, json_of):
    """JSON objects, each with the time of its entry as the last member."""
    lines = []
    for it in entries:
        time = marks.time_of(found, it.number)
        told = f'"{time.decode()}"' if time else "null"
        lines.append(f'{json_of(it).rstrip().removesuffix("}")},"time":{told}}}\n')
    return "".join(lines), 0 if entries else 4


def entries_by_times(world):
    """In some form, with `--since`, `--until`, both or neither, beside the other filters."""
    rnd, opening = world.rnd, world.opening
    found = marks_by_chance(rnd, world)
    files = ["--marks", noted(found), world.start, world.journal]
    for _ in range(2):
        since, until = (instant_by_chance(rnd, found) if rnd.random() < 0.6 else None for _ in range(2))
        words = [] if since is None else [f"--since={word_of(rnd, since)}"]
        words += [] if until is None else ["--until", word_of(rnd, until, is_last=True)]
        if since is not None and until is not None and since > until:
            refused(["journal", *files[:2], *words, *files[2:]], f"--since {words[0].partition('=')[2]}: behind --until {words[2]}", 2)
            continue
        entries = between(world.entries, found, since, until)
        if rnd.random() < 0.4:
            number = rnd.randrange(len(world.entries))
            words += rnd.choice((["--from", str(number)], ["--from", str(number), "--to", str(number + 5)]))
            entries = [it for it in entries if number <= it.number <= (number + 5 if "--to" in words else it.number)]
        if rnd.random() < 0.4:
            words += ["--by", "#0"]
            entries = [it for it in entries if it.subject == 0]
        what = (words, [it.time for it in found])
        listed = [([], lambda: with_times(found, entries, lambda it: texts.entry_line(opening, it))),
                  (["--json"], lambda: objects_with_times(found, entries, lambda it: texts.entry_json(opening, it))),
                  (["--summary"], lambda: texts.summary(opening, entries)),
                  (["--explain"], lambda: with_times(found, entries, lambda it: texts.explained_entry(world.before,
                   opening, it)))]
        form, wanted = rnd.choice(listed)
        same((what, form, said("journal", *form, *words, *files)), (what, form, wanted()))


def states_by_times(world):
    """Each command that looks at a state, after the last batch by a time; and where marks are read alone, after all entries."""
    rnd = world.rnd
    found = marks_by_chance(rnd, world)
    beside = ["--marks", noted(found)]
    for at in (None, instant_by_chance(rnd, found)):
        words = [*beside] if at is None else [*beside, "--when", word_of(rnd, at)]
        last = len(world.entries) - 1 if at is None else marks.until(found, at)
        s, action = worlds.action(rnd, world.last)
        line = f"{world.last.subject(s)} {words_of(world.last, action)}"
        asked = [("state", *words, world.start, world.journal)]
        of_journal = ["--journal", world.journal, *words, world.start]
        asked += [("explain", *of_journal, line), ("ask", *of_journal, line), ("who", *of_journal, "#0")]
        if last is None:
            refused(rnd.choice(asked), "start.marks: no mark by then")
            continue
        state = world.before(last + 1)
        text, status = explained(state, s, action)
        of_number = ("--at", str(last + 1), world.start, world.journal)
        rows = [*zip(asked, [texts.state_lines(state), (text, status), (text.split("\n")[0] + "\n", status), who(state, 0)])]
        rows.append((("state", "--start", *words, world.start, world.journal), None))
        for it, answer in rnd.sample(rows, 2):
            same((it, said(*it)), (it, answer or said("state", "--start", *of_number)))


def marks_that_differ(world):
    """One mark with another digest, or of another entry, is refused, and so is a torn end, by each command."""
    rnd = world.rnd
    found = marks_by_chance(rnd, world)
    if not found:
        return
    place = rnd.randrange(len(found))
    wrong = found[:place] + [found[place]._replace(digest=marks.ZEROS)] + found[place + 1 :]
    text = marks.text_of(found)
    count = found[-1].number
    rows = [(marks.text_of(wrong), f"differs at entry {found[place].number}", 3), (text + b"x\n", f"line {len(found) + 1}: mark", 1)]
    rows += [(text + b"7 20", f"torn after entry {count}", 1), (text + bytes(3), f"torn after entry {count}", 1)]
    noted_by, told, status = rnd.choice(rows)
    put("start.marks", noted_by)
    beside = ["--marks", "start.marks"]
    words = [("journal", *beside, world.start, world.journal), ("state", *beside, world.start, world.journal)]
    words += [(it, "--journal", world.journal, *beside, world.start, "#0 get-read #0") for it in ("ask", "explain")]
    words += [("who", "--journal", world.journal, *beside, world.start, "#0"), ("state", "--start", *beside, world.start, world.journal)]
    refused(rnd.choice(words), f"start.marks: {told}", status)


# by hand

THREE = b"0 0 0 get-read 1 yes\n1 0 1 get-read 2 no star\n2 0 0 release read 1 yes\n"
# A clock that goes back between the two marks of the first two entries; the third has none.
BACK = marks.made(THREE, [1, 2], [b"2026-11-27T11:00:00.000001Z", b"2026-11-27T10:00:00.000000Z"])
LINES = ["[2026-11-27T11:00:00.000001Z] 0 session 0 ann get-read plans: yes\n",
         "[2026-11-27T10:00:00.000000Z] 1 session 0 bob get-read memo: no star\n",
         "[-] 2 session 0 ann release read plans: yes\n"]
# What is asked of it, and which lines are listed.
LISTED = packed("""
    : 0 1 2 | --since 2026-11-27T10:30:00Z : 0 1 2 | --since 2026-11-27T11:00:00.000001Z : 0 1 2
    --since 2026-11-27T11:00:00.000001001Z : 2 | --since 2026-11-27T11:00:00.000000999Z : 0 1 2 | --since 2026-11-28 : 2
    --since 2026-11-27 : 0 1 2 | --since=0000-01-01T00:00:00Z : 0 1 2 | --until 2026-11-27T10:30:00Z : 0 1
    --until 2026-11-27T10:00:00Z : 0 1 | --until 2026-11-27T11:00:00+01:00 : 0 1 | --until 2026-11-27T09:59:59.999999999Z :
    --until 2026-11-27T15:30:00+05:30 : 0 1 | --until 9999-12-30T22:00:00.999999999Z : 0 1 | --until 2026-11-27 : 0 1 | --until 2026-11-26 :
    --on 2026-11-27 : 0 1 | --on 2026-11-26 : | --on 2026-11-28 : | --since 2026-11-27 --until 2026-11-27 : 0 1
    --until 2026-11-26T23:59:59.999999999Z : | --since 2026-11-27T23:59:59.999999Z --until 2026-11-27 :
    --since 2026-11-27T10:30:00Z --until 2026-11-27T10:30:00Z : 0 1
    --since 2026-11-27T10:30:00Z --until 2026-11-27T10:30:00Z --from 1 : 1 | --since 2026-11-27T10:30:00Z --to 0 : 0
    --until 2026-11-27T10:59:60Z --subject bob : 1 | --until 2026-11-27T10:30:00Z --session 1 :
""")
WORDS = [
    "", "x", "now", "2026", "2026-11", "2026-11-31", "2026-02-29", "2026-13-01", "2026-00-01", "2026-01-00", "2026-1-27", "2026.11.27", "20261127",
    "2026-11-27Z", " 2026-11-27", "2026-11-27 ", "2026-11-27T11:00:00Z ", "2026-11-27T24:00:00Z", "2026-11-27T11:60:00Z",
    "2026-11-27T11:00:61Z", "2026-11-27T1:00:00Z", "2026-11-27T11:00:00.Z", "2026-11-27T11:00:00.1234567890Z", "2026-11-27T11:00:00+1:00",
    "2026-11-27T11:00:00+01:60", "2026-11-27T11:00:00+26:00", "2026-11-27T11:00:00 Z", "-001-01-01T00:00:00Z", "9999-12-30T22:00:01Z", "9999-12-31",
    "2026-W48-5", "1764241200", "@1764241200", "2026-11-27T11:00:00Zx", "2026-11-27T11:00:00\u00a0Z", "2026-11-27T\u0661\u0661:00:00Z",
]


def put_back():
    put("back.journal", THREE)
    put("back.marks", marks.text_of(BACK))
    return ["--marks", "back.marks", STANDARD, "back.journal"]


def entries_of_a_clock_that_goes_back():
    """The first mark of a time or later and the last of a time or earlier, by their places."""
    files = put_back()
    for words, places in LISTED:
        same((words, said("journal", *words, *files)), (words, ("".join(LINES[int(it)] for it in places), 0 if places else 4)))
    json = '{"number":2,"session":0,"subject":0,"subject_name":"ann","action":"release","mode":"read","object":1,"object_name":"plans","reply":"yes"'
    same(said("journal", "--json", "--from", "2", *files), (json + ',"time":null}\n', 0))
    same(said("journal", "--json", "--from", "2", *files[2:]), (json + "}\n", 0))
    json = '{"number":1,"session":0,"subject":1,"subject_name":"bob","action":"get-read","object":2,"object_name":"memo","reply":"no","reason":"star"'
    same(said("journal", "--json", "--by", "bob", *files), (json + ',"time":"2026-11-27T10:00:00.000000Z"}\n', 0))
    same(said("journal", "--summary", *files), ("entries 3\nann yes 2\nbob no 1\nno star 1\n", 0))
    same(said("journal", *files[2:]), ("".join(line.partition("] ")[2] for line in LINES), 0))


def states_of_a_clock_that_goes_back():
    put_back()
    rows = [("2026-11-27T10:00:00Z", 2), ("2026-11-27T10:30:00Z", 2), ("2026-11-27T11:00:00.000001Z", 2), ("2026-12-01", 2), (None, 3)]
    for when, at in rows:
        words = ["--journal", "back.journal", "--marks", "back.marks", *(["--when", when] if when else []), STANDARD]
        answer = said("ask", "--journal", "back.journal", "--at", str(at), STANDARD, "ann check read plans")
        same((when, answer), (when, ("held\n", 0) if at < 3 else ("not held\n", 4)))
        for command in ("ask", "explain"):
            same((when, said(command, *words, "ann check read plans")), (when, answer))
    for command in ("ask", "explain", "who"):
        words = ["--journal", "back.journal", "--marks", "back.marks", "--when", "2026-11-27T09:59:59.999999Z", STANDARD]
        refused([command, *words, "plans" if command == "who" else LINE], "back.marks: no mark by then")


def marks_beside_a_number():
    """Marks that are read with --at, or from a pipe, must agree all the same."""
    files = put_back()
    for noted, told in (("back.marks", None), ("none.marks", "line 1: mark")):
        put("none.marks", b"x\n")
        words = ["--journal", "back.journal", "--at", "1"]
        for asked in (["explain", *words, STANDARD], ["ask", *words, STANDARD, LINE], ["who", *words, STANDARD, "plans"]):
            wanted = ran_program(asked)
            found = ran_program([*asked[:1], "--marks", noted, *asked[1:]])
            same((asked, found), (asked, (1, b"", f"mls: {noted}: {told}\n".encode()) if told else wanted))
        wanted = said("state", "--at", "1", STANDARD, "back.journal")
        if not told:
            same(said("state", "--marks", noted, "--at", "1", STANDARD, "back.journal"), wanted)
    words = f"cat back.marks | '{PROGRAM}' journal --marks /dev/stdin '{STANDARD}' back.journal"
    done = subprocess.run(["sh", "-c", words], capture_output=True, timeout=SECONDS)
    same((done.returncode, done.stdout.decode(), done.stderr), (0, said("journal", *files)[0], b""))


def words_that_are_no_times():
    """They are refused before a file is read."""
    for word in some(WORDS, 2):
        for command, option in (("journal", "since"), ("journal", "until"), ("state", "when")):
            refused([command, "--marks", "no.marks", f"--{option}={word}", "no.json", "no.journal"], f"--{option} {word}: {NO_TIME}", 2)
    for command in ("ask", "explain", "who"):
        refused([command, "--journal", "no.journal", "--marks", "no.marks", "--when", "x", "no.json", LINE], f"--when x: {NO_TIME}", 2)
    # (of two the first in this order)
    for words, told in (([], f"--since x: {NO_TIME}"), (["--reply=z"], f"--reply z: {NO_REPLY}"),
                        (["--from=2", "--to=1"], "--from 2: above --to 1")):
        refused(["journal", "--marks", "m", "--since=x", "--until=y", *words, "no.json", "no.journal"], told, 2)


def words_that_are_no_days():
    """--on takes a date alone; a time without a zone says so; the first time isn't behind the last."""
    for words in (["journal"], ["held"], ["usage"]):
        for day in ("2026-11-27T11:00:00Z", "27.11.2026", "2026-13-01", "2026-11-31", "x", ""):
            refused([*words, "--marks=m", f"--on={day}", "no.json", "j"], f"--on {day}: not a date; write it as 2026-11-27", 2)
        for option in ("since", "until"):
            refused([*words, "--marks=m", f"--{option}=2026-11-27T14:02:00", "no.json", "j"],
                    f"--{option} 2026-11-27T14:02:00: no zone: add Z or +01:00", 2)
        for since, until in (("2026-11-28", "2026-11-27"), ("2026-11-28T00:00:00Z", "2026-11-27"), ("2026-11-27T12:00:00+01:00", "2026-11-27T10:59:59Z")):
            refused([*words, "--marks=m", f"--since={since}", f"--until={until}", "no.json", "j"], f"--since {since}: behind --until {until}", 2)


def words_that_no_question_of_times_has():
    """--marks without a journal, times without --marks, --when beside --at, and times of other commands."""
    time, noted, when = "2026-11-27T11:00:00Z", ["--marks", "m"], ["--when", "2026-11-27T11:00:00Z"]
    not_understood(["ask", *noted, STANDARD, LINE], ["explain", *noted, STANDARD, LINE], ["who", *noted, STANDARD, "plans"])
    not_understood(*([it, "--journal", "j", *when, STANDARD, LINE] for it in ("ask", "explain", "who")), ["lint", *noted, STANDARD])
    not_understood(["state", *when, STANDARD, "j"], ["journal", "--since", time, STANDARD, "j"], ["journal", "--until", time, STANDARD, "j"])
    not_understood(["state", *noted, "--at", "0", *when, STANDARD, "j"], ["journal", *noted, *when, STANDARD, "j"])
    not_understood(["ask", "--journal", "j", *noted, "--at", "0", *when, STANDARD, LINE], ["explain", "--journal", "j", *noted, *when, STANDARD])
    not_understood(*([*it, *noted, "--on=2026-11-27", option, time, STANDARD, "j"] for it in (["journal"], ["held"], ["usage"]) for option in ("--since", "--until")))
    not_understood(["held", *noted, "--on=2026-11-27", "--at=1", STANDARD, "j"], ["held", *noted, "--on=2026-11-27", *when, STANDARD, "j"], ["usage", "--on=2026-11-27", STANDARD, "j"])
    not_understood(["compare", *noted, *when, STANDARD, STANDARD, "j"], ["state", *noted, "--since", time, STANDARD, "j"])


def faults_of_times_in_their_order():
    files = put_back()
    forged = THREE.replace(b"no star", b"yes")
    for name, content in (("empty.json", b""), ("forged.journal", forged), ("torn.marks", marks.text_of(BACK)[:-1]), ("none.marks", b"x\n")):
        put(name, content)
    put_marks("of-forged.marks", forged, [2], [BACK[0].time])
    when = ["--when", "2026-11-26"]
    asked = lambda start, noted, journal, *more: ["state", "--marks", noted, *more, start, journal]
    refused(asked("no.json", "no.marks", "no.journal"), f"no.json: {GONE}")
    refused(asked("empty.json", "no.marks", "no.journal"), f"no.marks: {GONE}")
    refused(asked("empty.json", "none.marks", "no.journal"), f"no.journal: {GONE}")
    refused(asked("empty.json", "torn.marks", "back.journal"), "torn.marks: torn after entry 0")
    refused(asked("empty.json", "none.marks", "back.journal"), "none.marks: line 1: mark")
    refused(asked("empty.json", "back.marks", "forged.journal", *when), "back.marks: differs at entry 1", 3)
    refused(asked("empty.json", "of-forged.marks", "forged.journal", *when), "of-forged.marks: no mark by then")
    refused(asked("empty.json", "of-forged.marks", "forged.journal"), "empty.json: start 1 Json: empty")
    refused(asked(STANDARD, "of-forged.marks", "forged.journal"), "forged.journal: replay 2 Differs at 1 expected no star, found yes", 3)
    refused(asked(STANDARD, "back.marks", "back.journal", *when), "back.marks: no mark by then")
    refused(asked(STANDARD, "back.marks", "back.journal", "--at", "4"), "back.journal: the journal has 3 entries")
    refused(["journal", "--subject", "zoe", *files[:1], "none.marks", *files[2:]], "none.marks: line 1: mark")
    refused(["journal", "--subject", "zoe", *files], "zoe: bad name (bob?)")
    os.mkdir("folder.marks")
    refused(asked(STANDARD, "folder.marks", "back.journal"), "folder.marks: Is a directory (os error 21)")


CHECKS = [*map(in_its_folder, [entries_of_a_clock_that_goes_back, states_of_a_clock_that_goes_back,
           marks_beside_a_number, words_that_are_no_times, words_that_are_no_days, words_that_no_question_of_times_has,
           faults_of_times_in_their_order, ])]
# (each is asked of random starts and journals)
OF_WORLDS = [entries_by_times, states_by_times, marks_that_differ]
