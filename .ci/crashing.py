"""What the rows of crashes share: how a service is killed while its client writes, or runs over a disk whose calls fail, and what must be
there then."""
import concurrent.futures
import os
import random
import signal
import subprocess
import threading

import marks
from outside import SECONDS, put, same, shown
from serving import Due, Serving, content, is_kept, ready, served, shim, words_of

# How often a service is killed; check-durable has an option for it.
KILLS = 300
# After so many of them the journal begins anew.
KILLS_OF_A_JOURNAL = 25
# A kill comes at most so many seconds after the start of the service, or after it was ready.
LATEST_KILL = 0.03
# What is told of the calls that are counted.
CALLS = {"write": "append", "sync": "sync", "cut": "cut", "rename": "rename", "link": "link"}


def count_of(journal):
    """How many whole lines a journal has."""
    return journal.count(b"\n")


def cut_line(journal, count):
    """What is told where what stands behind so many entries was cut off."""
    place = b"after entry %d" % (count - 1) if count else b"before entry 0"
    return b"mls: %s: cut %s\n" % (journal.encode(), place)


def killed_while_it_serves(rnd, run, due, said, latest=LATEST_KILL):
    """Kills a service while its client writes and reads: at some moment behind its start, behind the line that says it is ready, or, half of
    the times, behind its first answer. Returns what it wrote."""
    behind = rnd.choice((0, len(said), len(said) + 1, len(said) + 1))
    output = run.read(min(behind, len(said)))
    run.feed(due.asked, rnd.choice((20, 200, 5_000, 70_000)), closes=False)
    output += run.read(behind - len(output))
    killer = threading.Timer(rnd.uniform(0, latest), run.run.kill)
    killer.start()
    output += run.run.stdout.read()
    killer.join()
    same(run.run.wait(), -signal.SIGKILL)
    assert said.startswith(output[: len(said)]), shown(output[:100])
    return output


def are_marked(journal, before, due, output, written):
    """Each entry of which something was answered has a mark in m that agrees."""
    noted = content("m") if os.path.exists("m") else b""
    older = content("m.1") if os.path.exists("m.1") else b""
    covered = marks.checked(journal, noted[: noted.rfind(b"\n") + 1], older)
    needed = count_of(before + due.behind(written))
    assert not output or covered >= needed, f"{needed} entries were answered, {covered} have a mark"


def killed_once(rnd, journal, flags, lines, before, left, goes_on, is_marked=False, latest=LATEST_KILL):
    """A service is killed at some moment while its client writes and reads: what is left has each entry that was answered, with its mark, and
    the next service goes on. Returns what there is then, and how many bytes of answers the client had got."""
    due, said = Due(lines, count_of(before)), ready(count_of(before))
    with Serving(journal, "--recover", *flags) as run:
        output = killed_while_it_serves(rnd, run, due, said, latest)
    written, now = output[len(said):], left()
    is_kept(now, before, due, written)
    if is_marked:
        are_marked(now, before, due, output, written)
    return goes_on(before, due, written), len(written)


def kills(seed, times, of_a_journal, begin, once, ended=None):
    """So many kills; after some of them the files begin anew. Of all, more than a fourth come behind an answer."""
    rnd, before, answered = random.Random(seed), b"", []
    for turn in range(times):
        if turn % of_a_journal == 0:
            begin()
            before = b""
        before, written = once(rnd, before)
        answered.append(written)
        if ended and turn % of_a_journal == of_a_journal - 1:
            ended(before)
    many = sum(count > 0 for count in answered)
    assert many > times // 4, f"only {many} of {times} were killed after an answer"


def asked_in_batches(run, batches, first):
    """Asks batches, each once the one before is answered, as long as they are; returns what was written in all."""
    written = b""
    for batch in batches:
        due = Due(batch, first)
        first = due.next
        try:
            run.ask(due.asked)
        except BrokenPipeError:
            return written
        part = run.read(len(due.answers))
        written += part
        if part != due.answers:
            return written
    return written


def notes_of(name):
    """The lines that the shim noted: what was asked, the file, the bytes, and whether it was done."""
    lines = content(name).decode().splitlines() if os.path.exists(name) else []
    return [(asked, file, int(count), done == "ok") for asked, file, count, done in (line.split() for line in lines)]


def calls_noted(name):
    """The calls on files that the shim noted, without those on the output."""
    return [note for note in notes_of(name) if note[1] != "out"]


def run_of_lines(journal, due, *flags, **words):
    """Serves lines, all of them by one read, over the shim. Returns the status, what was written before the answers and for them, the error
    text, and the calls on files."""
    if os.path.exists("notes"):
        os.remove("notes")
    put("lines", due.asked)
    env = shim(notes=os.path.abspath("notes"), **words)
    with open("lines", "rb") as lines:
        done = subprocess.run(words_of(journal, *flags), stdin=lines, capture_output=True, timeout=SECONDS, env=env)
    said = ready(0) if done.stdout.startswith(ready(0)) else b""
    return done.returncode, said, done.stdout[len(said):], done.stderr, calls_noted("notes")


def many_recovered(files, judge):
    """Recovers files side by side, each by a service of its own, and judges each by its content before, the status, and its content after."""

    def one(numbered):
        place, file = numbered
        name = put(f"crash{place}", file)
        try:
            status, output, error = served(b"", name, "--recover")
            judge(file, status, output, error.replace(name.encode(), b"t"), content(name))
        finally:
            for it in (name, f"{name}.torn"):
                if os.path.exists(it):
                    os.remove(it)

    with concurrent.futures.ThreadPoolExecutor(len(os.sched_getaffinity(0))) as pool:
        for _ in pool.map(one, enumerate(files)):
            pass
