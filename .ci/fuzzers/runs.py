"""Fuzzes runs of scripts: by mls run in threads and one after the other, with their journals, and by mls replay."""
import json
import os
import re

import script_inputs
import start_inputs
import starts
from answers import FAULTS, are_numbered, compared, lines_in
from formats import SCRIPT_LIMIT, Refused, entries_of, label_text
from fuzzing import Fuzzer
from outside import example, examples, put, ran_program, same, shown
from start_format import start_of


def line_of(entry, start):
    """The line of a script that asks what an entry says."""
    schemes = iter((start.security, start.integrity))
    words = [b"#%d" % it if isinstance(it, int) else it if isinstance(it, bytes) else label_text(it, next(schemes))
             for it in entry.operands]
    return b" ".join([b"#%d" % entry.subject, entry.action, *words])


def read(name):
    with open(name, "rb") as file:
        return file.read()


class Runs(Fuzzer):
    """A run is accepted where its start file is."""

    name, count = "runs", 5_000
    wanted = {*FAULTS, "held", "not held", "yes", "created", "undefined", "serial", "threads", "a start is refused"}

    def prepare(self):
        self.files = starts.seeds()
        self.scripts = {example(f"{name}.json"): [example(f"{name}.script")] for name in examples()}

    def start_made(self, rng):
        way = rng.random()
        if way < 0.15:
            return starts.made(rng, self.files)
        return rng.choice([*self.scripts]) if way < 0.7 else json.dumps(start_inputs.valid(rng)).encode()

    def made(self, rng):
        """A start file, the scripts, and the flags."""
        text, flags = self.start_made(rng), ["--serial"] if rng.random() < 0.4 else []
        try:
            start = start_of(text)
        except Refused:
            return text, [b"; no script"], flags
        count, seeds = rng.choice((1, 1, 2, 3, 4)), self.scripts.get(text, [])
        return text, [script_inputs.made(rng, start, seeds) for _ in range(count)], flags

    def kept(self, made):
        return repr(made).encode()

    def judged(self, made):
        text, scripts, flags = made
        if os.path.exists("journal"):
            os.remove("journal")
        names = [put(f"script{number}", script) for number, script in enumerate(scripts)]
        status, output, error = ran_program(["run", *flags, "--journal", "journal", put("start", text), *names])
        try:
            start = start_of(text)
        except Refused as fault:
            same((status, output, error), (1, b"", b"mls: start: start %b\n" % str(fault).encode()))
            assert not os.path.exists("journal"), "a refused run makes its journal"
            return False, ["a start is refused"]
        same((status, error), (0, b""))
        words = self.compare(scripts, output, start)
        self.compare_again(start)
        return True, [*words, "serial" if flags else "threads"]

    def compare(self, scripts, output, start):
        """Compares what a run prints with its scripts, and the journal with both. Returns the words of the answers."""
        entries, fault = entries_of(read("journal"))
        same((fault, [it.number for it in entries]), (None, [*range(len(entries))]))
        are_numbered([it.reply for it in entries], start)
        printed, words = iter(output.split(b"\n")), []
        for session, script in enumerate(scripts):
            same(next(printed, None), b"session %d" % session)
            found, requests = compared(lines_in(script), printed, start)
            same([(*it[2:5], it.reply) for it in entries if it.session == session], requests)
            words += found
        same([*printed], [b"entries %d" % len(entries), b"secure yes", b""])
        assert all(it.session < len(scripts) for it in entries), "an entry is of no session"
        return words

    def compare_again(self, start):
        """The journal replays, and a script of its requests has just that journal, as session 0."""
        journal = read("journal")
        entries, _ = entries_of(journal)
        same(ran_program(["replay", "start", "journal"]), (0, b"entries %d\nsecure yes\n" % len(entries), b""))
        script = script_inputs.joined(line_of(it, start) for it in entries)
        if len(script) <= SCRIPT_LIMIT:
            words = ["run", "--serial", "--journal", "again", "start", put("script", script)]
            status, output, error = ran_program(words)
            assert (status, error) == (0, b"") and output, f"status {status}, {shown(error)}"
            same(read("again"), re.sub(rb"(?m)^(\d+) \d+ ", rb"\1 0 ", journal))
