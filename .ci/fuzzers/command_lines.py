"""Fuzzes command lines: words, with files that are read, refused, too long, missing or no files, streams that fail, and
little memory."""
import os
import random
import resource
import subprocess

import journal_inputs
import script_inputs
import starts
import word_inputs
from formats import SCRIPT_LIMIT, START_LIMIT
from fuzzing import ROOM, Fuzzer
from journals import OF_LINES
from outcomes import fault_of, outcome_of
from outside import IS_PROVED, PROGRAM, SECONDS, example, put, ran_program, same
from start_format import start_of

CLIMB = b"bob get-read memo\nbob level C\n"
# How many start files are made, and how many journals of each start, of so many lines.
FILES, JOURNALS, LINES = 2_000, 8, 40
# The steps in which the least room is sought, and the rooms in which no 64 threads can be started.
STEP, FEW_THREADS = 1 << 17, (1 << 24, 3 << 24)
# The share of command lines that are run in little room, or with a stream that fails.
FAILING = 0.08


class CommandLines(Fuzzer):
    """A command line is accepted where the status is 0. A trial isn't run in little memory, since it needs more for its
    checks, nor on the longest input, which takes it half a minute."""

    name, count, room = "command lines", 5_000, 1 << 32 if IS_PROVED else ROOM
    wanted = {"answered", "counted", "run", "replayed", "told", "words", "at most 64 scripts", "input: read",
              "output: write", "input: too long", "memory", "thread", "file", "too long", "replay 1 Number",
              "replay 2 Differs", *(f"start {it[0]}" for it in starts.FAULTS), *(f"entry {it}" for it in OF_LINES)}
    wanted = wanted if IS_PROVED else wanted - {"memory", "thread", "input: too long"}

    def prepare(self):
        self.pool = {name: example(f"{name}.json") for name in word_inputs.STARTS}
        self.starts = {name: start_of(text) for name, text in self.pool.items()}
        self.pool.update({"empty": b"", "climb": CLIMB, "many": (40_000 * CLIMB)[:SCRIPT_LIMIT],
                          "long": (40_000 * CLIMB)[:SCRIPT_LIMIT + 1], "long.json": (START_LIMIT + 1) * b" "})
        os.mkdir("folder")
        self.times = {}
        for name in self.pool:
            self.lay(name)
        rng, self.files = random.Random(1), {}
        for _ in range(FILES):
            text = starts.made(rng, starts.seeds())
            self.files.setdefault(fault_of(text)[:1], []).append(text)
        self.journals = {name: [self.journal(rng, name) for _ in range(JOURNALS)] for name in self.starts}
        os.remove("made")
        rooms = range(8 * STEP, 800 * STEP, STEP)
        self.least = IS_PROVED and STEP + next(it for it in rooms if self.within(it, ["check", "standard"])[0] == 0)

    def lay(self, name):
        """Makes a file of the pool, and notes when."""
        self.times[name] = os.stat(put(name, self.pool[name])).st_mtime_ns

    def journal(self, rng, name):
        """A journal of a script by chance over a start."""
        script = script_inputs.joined(script_inputs.line(rng, self.starts[name]) for _ in range(LINES))
        status, _, error = ran_program(["run", "--serial", "--journal", "made", name, put("script", script)])
        same((status, error), (0, b""))
        with open("made", "rb") as file:
            return file.read()

    def within(self, room, words):
        """Runs the program with so much room for memory."""
        def narrow():
            resource.setrlimit(resource.RLIMIT_AS, (room, room))

        given = {"stdin": subprocess.DEVNULL, "timeout": SECONDS, "preexec_fn": narrow}
        done = subprocess.run([PROGRAM, *words], capture_output=True, **given)
        return done.returncode, done.stdout, done.stderr

    def made(self, rng):
        """The words, what fails or how much room there is, and the files that are laid anew."""
        name, failing = rng.choice(word_inputs.STARTS), None
        files = {"start": self.pool[name] if rng.random() < 0.7 else rng.choice(self.files[rng.choice([*self.files])]),
                 "journal": journal_inputs.made(rng, self.journals[name]),
                 "script": script_inputs.made(rng, self.starts[name], [])}
        if rng.random() < FAILING:
            return *self.made_to_fail(rng), files
        words = word_inputs.valid(rng)
        for _ in range(rng.choice((0, 0, 0, 0, 1, 1, 2))):
            words = word_inputs.changed(rng, words)
        return words, failing, files

    def made_to_fail(self, rng):
        """Words with a stream that fails, or with little room."""
        failing = [([], "input"), ([], "long"), (word_inputs.valid(rng), "output")]
        if IS_PROVED:
            failing.append(([b"run", b"--serial", b"standard", b"many", b"many"], self.least + rng.randrange(1 << 21)))
            many = [b"run", b"--journal", b"made", b"standard", *64 * [b"empty"]]
            failing.append((many, rng.randrange(*FEW_THREADS)))
        else:
            failing.remove(([], "long"))
        return rng.choice(failing)

    def kept(self, made):
        return repr(made).encode()

    def ran(self, words, failing, files):
        """Lays the files, and runs the program."""
        for name, text in files.items():
            put(name, text)
        if isinstance(failing, int):
            return self.within(failing, words)
        folder, full = os.open("folder", os.O_RDONLY), os.open("/dev/full", os.O_WRONLY)
        with open("long" if failing == "long" else "script", "rb") as script:
            streams = {"stdin": folder if failing == "input" else script,
                       "stdout": full if failing == "output" else subprocess.PIPE}
            done = subprocess.run([PROGRAM, *words], stderr=subprocess.PIPE, timeout=SECONDS, **streams)
        os.close(folder)
        os.close(full)
        return done.returncode, done.stdout or b"", done.stderr

    def judged(self, made):
        words, failing, files = made
        status, output, error = self.ran(words, failing, files)
        outcome = outcome_of(words, failing, {**self.pool, **files, "-": files["script"]}, status, output, error)
        self.see_files(words, status == 0 or outcome == "output: write", status < 0)
        return status == 0, [outcome]

    def see_files(self, words, may_write, is_ended):
        """Sees that nothing is made but by a run, and puts all as it was before. A run that a signal ends leaves the file empty that it has
        opened for its journal."""
        known = {*self.pool, "folder", "start", "journal", "script"}
        for name in os.listdir("."):
            is_new = name not in known and not name.startswith("input-")
            if is_new or name in self.times and os.stat(name).st_mtime_ns != self.times[name]:
                is_left = is_new and is_ended and not os.path.getsize(name)
                assert (may_write or is_left) and b"run" in words, f"{name} is written"
                if is_new:
                    os.remove(name)
                else:
                    self.lay(name)
