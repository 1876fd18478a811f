"""Questions about one state of a journal in segments, and its replay: what they say is what is said of the one journal; which files they read,
and which they don't; and a service beside them."""
import json
import os
import random
import re
import threading

from durable_segments import CUT, drawn, filled
from outside import EXAMPLES, IS_PROVED, example, in_its_folder, put, ran_program, rounds, same, some
from segments import joined, numbered, remove, segment, state
from serving import STANDARD, Serving, content, ready, served

LINE = "bob get-append plans"


def about_a_state(journal, start=STANDARD, at=None, line=LINE, name="plans", subject="ann"):
    """The words of each question about one state."""
    before = [] if at is None else ["--at", str(at)]
    seen = ["--journal", journal, *before, start]
    return [["ask", *seen, line], ["ask", *seen, "ann check read plans"], ["explain", *seen, line],
            ["who", *seen, name], ["who", *seen, name, "read"], ["powers", *seen], ["powers", *seen, subject],
            ["who", "--could", "--all", *seen, name, "read"], ["could", "--all", *seen, line], ["lint", *seen], ["lattice", *seen],
            ["state", *before, start, journal], ["state", "--start", *before, start, journal],
            *([] if at is None else [["explain", *seen]])]


def said(words, journal, whole):
    """What a command says of the one journal, with the name of the one in segments, and without the reply that is found, which is told of one
    file alone."""
    status, output, error = ran_program([whole if word == journal else word for word in words])
    error = re.sub(rb"^(mls: .* expected .*?), found .*\n", rb"\1\n", error)
    return status, output, error.replace(b"mls: %s: " % whole.encode(), b"mls: %s: " % journal.encode())


def is_alike(words, journal, whole):
    same((words, ran_program(words)), (words, said(words, journal, whole)))


def near_cuts(journal, count):
    """Numbers of entries at which something may change: the first, the last, those beside a cut, and one that isn't there."""
    cuts = {0, count, count + 1, *numbered(journal), *numbered(journal, "state.")}
    return sorted({at + by for at in cuts for by in (-1, 0, 1) if 0 <= at + by})


def each_question_at_each_cut():
    """Over a journal in segments each question says what it says over its files put together: before each entry beside a cut, before some
    others, and after all."""
    due = filled("q", 1_500)
    whole, count = put("whole", due.journal), due.journal.count(b"\n")
    rnd = random.Random(1)
    places = near_cuts("q", count) + rnd.sample(range(count), rounds(60))
    for at in [None, *rnd.sample(places, min(len(places), 300 if IS_PROVED else 6))]:
        for words in about_a_state("q", at=at):
            is_alike(words, "q", whole)


def each_state():
    """Before each entry the state, and why that entry is answered as it is, are those of the files put together."""
    due = filled("e", 1_000)
    whole, count = put("whole", due.journal), due.journal.count(b"\n")
    for at in range(0, count + 2, 1 if IS_PROVED else 61):
        is_alike(["state", "--at", str(at), STANDARD, "e"], "e", whole)
        is_alike(["explain", "--journal", "e", "--at", str(at), STANDARD], "e", whole)


def objects_that_were_made():
    """The same of a journal in which objects are made, deleted and made again, labels change and permissions are given, over each example."""
    for name in some(("standard", "reused", "office", "database", "guard", "wide"), 3):
        start = f"{EXAMPLES}/{name}.json"
        data = json.loads(example(f"{name}.json"))
        first, other = data["subjects"][0]["name"], data["objects"][-1]["name"]
        remove("o")
        lines = b"".join(re.sub(rb"^\$\w+ = ", b"", line) for line in example(f"{name}.script").splitlines(True) if b" $" not in line)
        served((1 + 24_000 // len(lines)) * lines, "o", *CUT, start=start)
        whole = put("whole", joined("o"))
        count = joined("o").count(b"\n")
        assert len(numbered("o")) > 1, (name, count)
        places = random.Random(2).sample(near_cuts("o", count), 4 if IS_PROVED else 1)
        for at in [None, *places]:
            for words in about_a_state("o", start, at, f"{first} get-read {other}", other, first):
                is_alike(words, "o", whole)
        is_alike(["replay", start, "o"], "o", whole)


def names_of_another_start():
    """The states that were kept are used for the start that was kept with them, byte for byte: with another one, or none, a question says
    what it says over the files put together, also where a state was forged."""
    due = filled("n", 1_000)
    whole = put("whole", due.journal)
    data = json.loads(content(STANDARD))
    data["objects"][1:] = data["objects"][:0:-1]
    other = put("other.json", json.dumps(data).encode())
    for number in numbered("n", "state."):
        put(state("n", number), content(state("n", number)).replace(b"permit aud read plans\n", b"", 1))
    for at in (None, 200):
        for words in about_a_state("n", other, at):
            is_alike(words, "n", whole)
    os.remove("n.start")
    for words in about_a_state("n"):
        is_alike(words, "n", whole)


def faults_of_questions():
    """Words that name nothing, numbers of entries that aren't there, a start that is refused: the same lines and statuses."""
    due = filled("f", 1_000)
    whole, count = put("whole", due.journal), due.journal.count(b"\n")
    broken = put("broken.json", content(STANDARD).replace(b'"profile"', b'"profil"', 1) + b"}")
    for at in some((3, None, count + 1, count, 10**18), 2):
        for words in (
            *about_a_state("f", at=at, line="zoe get-read plans", name="memmo", subject="anne"), *about_a_state("f", at=at, line="$x"),
            *about_a_state("f", broken, at),
        ):
            is_alike(words, "f", whole)
    is_alike(["replay", broken, "f"], "f", whole)


def forged(number, journal):
    """Changes a state that was kept into another one that is secure."""
    path = state(journal, number)
    text = content(path)
    changed = text.replace(b"permit aud read plans\n", b"", 1)
    assert changed != text
    put(path, changed)


def state_that_was_forged():
    """A forged state, secure and of the start, is found by replay, and not by a question, which goes on from it; one that isn't a state is
    refused by both. What begins before it doesn't look at it. One with which no file begins is looked at by replay alone."""
    due = filled("g", 2_000)
    whole, states = put("whole", due.journal), numbered("g", "state.")
    middle = states[len(states) // 2]
    true = content(state("g", middle))
    told = b"mls: " + state("g", middle).encode()
    forged(middle, "g")
    listed = lambda at: ["state", "--at", str(at), STANDARD, "g"]
    same(ran_program(["replay", STANDARD, "g"]), (3, b"", told + b": differs\n"))
    for at in (middle, middle + 5):
        status, output, error = ran_program(listed(at))
        same((status, error), (0, b""))
        assert b"permit aud read plans\n" not in output
    put(state("g", middle), b"no state\n")
    for words in (listed(middle), listed(middle + 5), ["explain", "--journal", "g", "--at", str(middle), STANDARD]):
        status, output, error = ran_program(words)
        same((status, output), (3, b""))
        assert re.fullmatch(re.escape(told) + rb": line \d+: not of a state\n", error), error
    for at in (middle - 1, states[-1], None):
        for words in about_a_state("g", at=at):
            is_alike(words, "g", whole)
    put(state("g", middle), true)
    within = state("g", middle + 1)
    put(within, ran_program(["state", "--at", str(middle + 1), STANDARD, whole])[1].replace(b"permit aud read plans\n", b"", 1))
    for at in (middle + 1, middle + 2):
        for words in about_a_state("g", at=at):
            is_alike(words, "g", whole)
    same(ran_program(["replay", STANDARD, "g"]), (3, b"", b"mls: %s: differs\n" % within.encode()))
    os.remove(within)
    is_alike(["replay", STANDARD, "g"], "g", whole)


def segment_that_is_damaged():
    """A damaged segment isn't seen by a question about a state before it or behind the next state that was kept. Where it is read, the line is
    counted over all files; and replay tells the first line that isn't an entry's, whatever came before."""
    due = filled("d", 2_500)
    whole, closed = put("whole", due.journal), numbered("d")
    place = len(closed) // 2
    damaged = closed[place]
    path = segment("d", damaged)
    os.chmod(path, 0o600)
    lines = content(path).splitlines(True)
    put(path, b"".join(lines[:3] + [b"damaged\n"] + lines[4:]))
    told = b"mls: d: line %d: entry 1 BadForm\n" % (damaged + 4)
    for at in (closed[place - 1] + 2, damaged, damaged + 3, closed[place + 1], closed[place + 1] + 1, None):
        for words in about_a_state("d", at=at):
            if at != damaged + 3 or words[0] != "explain" or LINE in words:
                is_alike(words, "d", whole)
    for at in (damaged + 4, closed[place + 1] - 1):
        same(ran_program(["state", "--at", str(at), STANDARD, "d"]), (1, b"", told))
    same(ran_program(["explain", "--journal", "d", "--at", str(damaged + 3), STANDARD]), (1, b"", told))
    # a reply that was changed two files before: what comes first is told, by replay and by a question that reads it
    earlier = closed[place - 2]
    os.chmod(segment("d", earlier), 0o600)
    lines = content(segment("d", earlier)).splitlines(True)
    changed = next(it for it, line in enumerate(lines) if line.endswith(b" no star\n"))
    put(segment("d", earlier), b"".join([*lines[:changed], lines[changed].replace(b"no star", b"yes"), *lines[changed + 1 :]]))
    told = (3, b"", b"mls: d: replay 2 Differs at %d expected no star\n" % (earlier + changed))
    same(ran_program(["replay", STANDARD, "d"]), told)
    same(ran_program(["state", "--at", str(closed[place - 1] - 1), STANDARD, "d"]), told)
    is_alike(["state", "--at", str(damaged - 1), STANDARD, "d"], "d", whole)


def replay_of_segments():
    """replay says of the files what it says of them put together: of a reply that was changed, of lines that are no entries in each file, of a
    file that lacks. Of states that differ the first is told."""
    due = filled("r", 1_500)
    put("whole", due.journal)
    words = ["replay", STANDARD, "r"]
    is_alike(words, "r", "whole")
    states = numbered("r", "state.")
    true = {state("r", number): content(state("r", number)) for number in states[1:3]}
    for number in states[1:3]:
        forged(number, "r")
    same(ran_program(words), (3, b"", b"mls: %s: differs\n" % state("r", states[1]).encode()))
    for path, text in true.items():
        put(path, text)
    for path in (segment("r", numbered("r")[-1]), segment("r", numbered("r")[1]), "r"):
        text = content(path)
        os.chmod(path, 0o600)
        for changed in (text.replace(b" yes\n", b" no star\n", 1), text[:-1], text + b"\n", text.replace(b"\n", b"\r\n", 1)):
            put(path, changed)
            if path == "r" or changed[-1:] == b"\n":
                put("whole", joined("r"))
                is_alike(words, "r", "whole")
        put(path, text)
    # (the last line of a closed file has a newline: without one it is no entry's)
    last = numbered("r")[1]
    put(segment("r", last), content(segment("r", last))[:-1])
    same(ran_program(words), (1, b"", b"mls: r: line %d: entry 1 BadForm\n" % numbered("r")[2]))
    os.remove(segment("r", last))
    put("whole", joined("r"))
    is_alike(words, "r", "whole")


def missing(number, journal="a"):
    """The line where the entries before the one of this number were moved away."""
    return b"mls: %s: entries before %d are not here\n" % (journal.encode(), number)


def is_alike_behind(words, number, journal, whole):
    """What is said of the one journal, behind the line of the entries that aren't here."""
    status, output, error = said(words, journal, whole)
    same((words, ran_program(words)), (words, (status, output, missing(number, journal) + error)))


def files_in_an_archive():
    """Once the first files are moved away, each question says which entries are not here. Those about states from there on are answered: before
    a state that was kept, and all behind it; the others, and replay, are refused by that line alone."""
    due = filled("a", 2_500)
    whole, closed = put("whole", due.journal), numbered("a")
    place = len(closed) // 2
    for number in closed[:place]:
        os.remove(segment("a", number))
    first = closed[place]
    lacking = (1, b"", missing(first))
    for at in (first, first + 3, closed[-1], due.next, None):
        for words in about_a_state("a", at=at):
            is_alike_behind(words, first, "a", whole)
    for words in about_a_state("a", at=closed[place - 1]):
        if words[0] == "explain" and LINE not in words:
            same((words, ran_program(words)), (words, lacking))
        else:
            is_alike_behind(words, first, "a", whole)
    for words in (["replay", STANDARD, "a"], ["state", "--at", str(first - 1), STANDARD, "a"], ["journal", STANDARD, "a"],
                  ["journal", "--json", STANDARD, "a"], ["held", STANDARD, "a"], ["usage", STANDARD, "a"], ["report", STANDARD, "a"],
                  ["compare", STANDARD, STANDARD, "a"], ["who", "--ever", "--journal", "a", STANDARD, "plans"],
                  ["about", "--journal", "a", STANDARD, "ann"]):
        same((words, ran_program(words)), (words, lacking))
    # before entry 0 the state is that of the start
    is_alike_behind(["state", "--at", "0", STANDARD, "a"], first, "a", whole)
    # all closed files, and the live one is empty: replay says that entries are missing
    for number in closed[place:]:
        os.remove(segment("a", number))
    put("a", b"")
    last = numbered("a", "state.")[-1]
    same(ran_program(["state", STANDARD, "a"])[:2], (0, content(state("a", last))))
    same(ran_program(["replay", STANDARD, "a"]), (3, b"", b"mls: %s: behind the last entry\n" % state("a", last).encode()))


def files_that_a_crash_left():
    """Whatever of the steps between two files was done, the questions say what they say of the one journal, and so does replay. A state behind
    all entries, which no crash leaves, isn't looked at by a question, and is refused by replay."""
    due = filled("c", 1_000)
    whole, count = put("whole", due.journal), due.journal.count(b"\n")
    text = ran_program(["state", STANDARD, "whole"])[1]
    first = numbered("c", "state.")[-1]

    def is_asked():
        for at in (None, first - 1, first, first + 1, count, count + 1):
            for words in about_a_state("c", at=at):
                is_alike(words, "c", whole)

    def is_read():
        is_asked()
        is_alike(["replay", STANDARD, "c"], "c", whole)

    put(state("c", count), text)
    is_read()
    os.link("c", segment("c", first))
    is_read()
    put("c.new", b"")
    os.rename("c.new", "c")
    is_read()
    put(state("c", count + 1), b"no state\n")
    is_asked()
    same(ran_program(["replay", STANDARD, "c"]), (3, b"", b"mls: %s: behind the last entry\n" % state("c", count + 1).encode()))


def link_to_the_journal():
    """A journal by a link: the files are beside the one that it leads to."""
    os.mkdir("there")
    due = filled("there/l", 1_000)
    os.symlink("there/l", "l")
    whole = put("whole", due.journal)
    for at in (None, 100, 10**6):
        for words in about_a_state("l", at=at):
            is_alike(words, "l", whole)
    is_alike(["replay", STANDARD, "l"], "l", whole)


def service_beside_the_readers():
    """While a service closes one file after the other, each question and each replay is of what was there at some moment."""
    remove("s")
    due = drawn(20_000)
    lines = due.asked.splitlines(True)
    seen, over = [], threading.Event()
    with Serving("s", *CUT) as run:
        same(run.read(len(ready(0))), ready(0))
        run.feed(b"".join(lines), 2_000)
        reader = threading.Thread(target=lambda: (run.read(len(due.answers)), over.set()))
        reader.start()
        while not over.is_set():
            seen.append(ran_program(["replay", STANDARD, "s"]))
            seen.append(ran_program(["state", STANDARD, "s"])[::2])
            seen.append(ran_program(["explain", "--journal", "s", "--at", "40", STANDARD])[2:])
        reader.join()
        same(run.end()[::2], (0, b""))
    same(joined("s"), due.journal)
    torn = re.compile(rb"mls: s: (line \d+: entry 1 BadForm|no entry 40: the journal has 40 entries|the journal has \d+ entries|file|No such file or directory \(os error 2\))\n")
    counts = []
    for found in seen:
        # (a line of which a part was written, as of a journal that isn't cut)
        assert found[-1] == b"" or torn.fullmatch(found[-1]), found
        if len(found) == 3 and found[-1] == b"":
            counts.append(int(found[1].split()[1]))
    same(counts, sorted(counts))
    put("whole", due.journal)
    is_alike(["replay", STANDARD, "s"], "s", "whole")


CHECKS = [*map(in_its_folder, [each_question_at_each_cut, each_state, objects_that_were_made, names_of_another_start,
           faults_of_questions, state_that_was_forged, segment_that_is_damaged, replay_of_segments, files_in_an_archive,
           files_that_a_crash_left, link_to_the_journal, service_beside_the_readers])]
