"""Help, the prompt at a terminal, and what a fault's line says beside the fault: each example of docs/FORMATS.md, and rows by hand."""
import os
import pty
import re
import select
import subprocess
import time

from asking import GONE, HELD, OPENED, STANDARD, asks, documents
from outside import EXAMPLES, PROGRAM, SECONDS, TOP, example, in_its_folder, put, ran_program, same, shown_by

answered, refused, not_understood = asks()
# The commands under their headings.
GROUPS = {"Decide": ["init", "complete", "check", "run", "lint"], "Serve": ["serve"],
          "Ask": ["ask", "explain", "who", "could", "flow", "powers", "about", "lattice"],
          "Audit": ["replay", "verify", "journal", "state", "held", "usage", "compare", "report"]}
WIDTH = 78
JOURNAL = b"0 0 0 get-read 1 yes\n1 0 1 get-read 2 no star\n2 0 0 release read 1 yes\n"


def lines_of(*words):
    status, output, error = ran_program(words)
    same((words, status, error), (words, 0, b""))
    return output.decode().splitlines()


def short_help():
    """A line a command, of at most 78 columns, under four headings."""
    lines, found, group = lines_of("-h"), {}, None
    assert all(len(it) <= WIDTH for it in lines), max(lines, key=len)
    for line in lines:
        if heading := re.fullmatch(r"(\w+):", line):
            group = found.setdefault(heading[1], [])
        elif row := re.fullmatch(r"  (\w+) +(\S.*)", line):
            group.append(row[1])
    same({name: sorted(rows) for name, rows in found.items()}, {name: sorted(rows) for name, rows in GROUPS.items()})
    same(list(found), ["Decide", "Ask", "Audit", "Serve"])


def long_help():
    """At most 78 columns, but where a word is longer; the words are those of the lines that aren't broken."""
    for words in ([], *([it] for rows in GROUPS.values() for it in rows)):
        lines = lines_of(*words, "--help")
        for line in lines:
            assert len(line) <= WIDTH or " " not in line.strip(), line
        assert any(len(it) > WIDTH - 12 for it in lines) or len(lines) < 12, f"{words}: nothing is as wide as it may be"
        same(lines, lines_of("help", *words))
    # (a row goes on below where its text begins)
    at = next(n for n, line in enumerate(lines_of("who", "--help")) if line.strip().startswith("--ever "))
    first, second = lines_of("who", "--help")[at:at + 2]
    same(len(second) - len(second.lstrip()), len(first) - len(first.lstrip().split("  ", 1)[1].lstrip()))


class Typed:
    """The program at a terminal, to which is typed."""

    def __init__(self, *words, **streams):
        ours, theirs = pty.openpty()
        self.terminal, self.said = ours, ""
        streams = {"stdin": theirs, "stdout": theirs, "stderr": theirs, **streams}
        self.running = subprocess.Popen([PROGRAM, *words], start_new_session=True, **streams)
        os.close(theirs)

    def until(self, text):
        """What is written up to a text, and with it."""
        ends = time.monotonic() + SECONDS
        while text not in self.said:
            assert select.select([self.terminal], [], [], max(0, ends - time.monotonic()))[0], f"no {text!r} in {self.said!r}"
            self.said += os.read(self.terminal, 65536).decode().replace("\r\n", "\n")
        found, _, self.said = self.said.partition(text)
        return found + text

    def asks(self, line):
        """What is written behind a line, up to the next prompt."""
        os.write(self.terminal, f"{line}\n".encode())
        self.until(f"{line}\n")
        return self.until("mls> ").removesuffix("mls> ")

    def ended(self, line=None):
        os.write(self.terminal, b"\x04" if line is None else f"{line}\n".encode())
        status = self.running.wait(SECONDS)
        os.close(self.terminal)
        return status


def prompt_at_a_terminal():
    """It has names, help, ?, quit and exit; what is asked is answered as in a script, with its variables. Any other single word has a hint."""
    shell = Typed()
    head = shell.until("mls> ")
    same(head.splitlines()[:2], ["subjects ann bob sec aud", "objects root plans memo tool"])
    assert "quit" in head, head
    same(shell.asks("ann get-read plans"), "yes\n")
    for word in ("help", "?"):
        same(shell.asks(word), head.removesuffix("mls> "))
    same(shell.asks("bob get-read memo"), "no star\n")
    same(shell.asks("; a note"), "")
    for word in ("helpless", "hlp", "bye", "ann", "HELP", "quits"):
        same((word, shell.asks(word)), (word, "bad form (help?)\n"))
    for line, answer in (("", ""), (";note", ""), (" hlp", "bad form\n"), ("help me", "bad form\n"), ("ann frob", "bad form\n")):
        same((line, shell.asks(line)), (line, answer))
    same(shell.asks("ann check read plans"), "held\n")
    same(shell.ended("quit"), 0)
    for line in ("exit", None):
        same(Typed().ended(line), 0)


def prompt_that_a_pipe_does_not_see():
    for script in (b"help\n", b"quit\nann get-read plans\n", b"?\n", b"exit\n"):
        status, output, error = ran_program([], script)
        same((script, status, error, b"mls>" in output), (script, 0, b"", False))
    same(ran_program([], b"quit\nann get-read plans\n")[1], b"bad form\nyes\n")
    # (where only one of the streams is a terminal there is no prompt)
    shell = Typed(stdout=subprocess.PIPE)
    os.write(shell.terminal, b"ann get-read plans\n\x04")
    same((shell.running.communicate(timeout=SECONDS)[0], shell.running.returncode), (b"yes\n", 0))
    os.close(shell.terminal)


def told_at_a_terminal(words):
    """The status, and what is written where standard error alone is a terminal."""
    ours, theirs = pty.openpty()
    done = subprocess.run([PROGRAM, *words], timeout=SECONDS, stdin=subprocess.DEVNULL, stdout=subprocess.DEVNULL, stderr=theirs)
    os.close(theirs)
    return done.returncode, shown_by(ours).replace("\r\n", "\n")


def put_files():
    put("standard.journal", JOURNAL)
    put("other.journal", JOURNAL.replace(b"1 yes", b"1 no star", 1))
    put("forged.journal", JOURNAL.replace(b"no star", b"yes"))
    put("windows.journal", JOURNAL.replace(b"\n", b"\r\n"))
    put("empty.json", b"")
    put("a.script", b"ann get-read plans\n")
    put("notes.script", b"; a note\n\n$x = sec create root U hi\n")
    put("prose", b"ann reads plans\nann get-read plans\n")
    put("broken.json", b"{\nann get-read plans\n")


# Words of commands whose lines are fixed, the fixed line, and what is behind it at a terminal.
FIXED = [
    ("check none.json", 1, "none.json: file", f": {GONE}"), ("check empty.json", 1, "empty.json: start 1 Json", ": empty"),
    ("check standard.journal", 1, "standard.journal: start 1 Json", ": looks like a journal"), ("run none.json a", 1, "none.json: file", f": {GONE}"),
    ("run STANDARD none", 1, "none: file", f": {GONE}"), ("replay STANDARD none", 1, "none: file", f": {GONE}"),
    ("replay STANDARD other.journal", 3, "other.journal: replay 2 Differs at 0 expected yes", ", found no star: another start's journal?"),
    ("replay STANDARD forged.journal", 3, "forged.journal: replay 2 Differs at 1 expected no star", ", found yes"),
    ("replay STANDARD windows.journal", 1, "windows.journal: line 1: entry 4 BadReply", ": line ends in CR"),
    ("replay empty.json standard.journal", 1, "empty.json: start 1 Json", ": empty"),
    ("run a.script empty.json", 1, "a.script: start 1 Json", ": looks like a script"), ("run empty.json a.script", 1, "empty.json: start 1 Json", ": empty"),
    ("check notes.script", 1, "notes.script: start 1 Json", ": looks like a script"),
    ("check prose", 1, "prose: start 1 Json", ""), ("check broken.json", 1, "broken.json: start 1 Json", ""),
    ("run --journal none/j STANDARD a.script", 1, "none/j: file", f": {GONE}"), ("serve --journal new none.json", 1, "none.json: file", f": {GONE}"), ("verify none.json j m", 1, "none.json: file", f": {GONE}"),
]


def lines_that_are_fixed():
    """What says more is there where standard error is a terminal, and not else."""
    put_files()
    for row, status, line, more in FIXED:
        words = row.replace("STANDARD", STANDARD).split()
        same((words, *ran_program(words)), (words, status, b"", f"mls: {line}\n".encode()))
        found, told = told_at_a_terminal(words)
        same((words, found, told.splitlines()[0]), (words, status, f"mls: {line}{more}"))


def scripts_that_end_in_carriages():
    """At a terminal run names each script with a line that ends in CR; answers and status are the same."""
    put("a.script", b"ann get-read plans\r\n")
    put("b.script", b"ann get-read plans\nann get\rread plans\n")
    words = ["run", "--serial", STANDARD, "a.script", "b.script", "a.script"]
    status, output, error = ran_program(words)
    same((status, error), (0, b""))
    same(told_at_a_terminal(words), (0, "mls: a.script: line ends in CR\n" * 2))


# Questions about a start and a journal.
QUESTIONS = ["state START J", "journal START J", "journal --explain START J", "journal --summary START J", "held START J", "usage START J",
             "report START J", "about --journal J START memo", "who --journal J START memo", "who --ever --journal J START memo",
             "powers --journal J START", "explain --at 0 --journal J START", "compare START START J", "state --start START J"]


def questions_that_say_why():
    """Each question says always what a command of fixed lines says at a terminal."""
    put_files()
    for row, status, line, more in FIXED:
        if row.startswith("replay"):
            _, start, journal = row.replace("STANDARD", STANDARD).split()
            told = line.replace(": file", "") + more
            for question in QUESTIONS:
                words = [{"START": start, "J": journal}.get(it, it) for it in question.split()]
                same((words, *ran_program(words)), (words, status, b"", f"mls: {told}\n".encode()))


def ended_into(output, words):
    """The status, and what is written to standard error, where standard output is this."""
    done = subprocess.run([PROGRAM, *words], timeout=SECONDS, stdin=subprocess.DEVNULL, stdout=output, stderr=subprocess.PIPE)
    return done.returncode, done.stderr


def readers_that_stop():
    """Where nobody reads the output of a question, nothing is said; of a command with fixed lines the line is there."""
    put_files()
    silent = [*(it for it in QUESTIONS if not it.startswith("compare ")), "compare START HELD", "who START memo", "ask START bob_get-read_memo", "lint START", "lattice START", "complete START", "-h", "--help", "who --help",
              "--version"]
    for row, told in [*((it, b"") for it in silent), ("check START", b"mls: output: write\n"), ("run START a.script", b"mls: output: write\n"),
                      ("replay START J", b"mls: output: write\n")]:
        words = [{"START": STANDARD, "HELD": HELD, "J": "standard.journal"}.get(it, it.replace("_", " ")) for it in row.split()]
        ours, theirs = os.pipe()
        os.close(ours)
        same((words, *ended_into(theirs, words)), (words, 1, told))
        os.close(theirs)
        with open("/dev/full", "wb") as full:
            same((words, *ended_into(full, words)), (words, 1, b"mls: output: write\n"))


def examples_of_faults():
    """Each command that FORMATS.md shows with a line of a fault below it has just that line."""
    put_files()
    put("held.journal", OPENED)
    os.symlink(EXAMPLES, "examples")
    page, count = documents(), 0
    for command, told in re.findall(r"^    \$ mls (.*)\n    (mls: .*)$", page, re.M):
        if command.startswith("lint "):
            continue
        done = subprocess.run(["sh", "-c", f'"$0" {command}', PROGRAM], timeout=SECONDS, stdin=subprocess.DEVNULL, capture_output=True, text=True)
        same((command, done.stdout, done.stderr), (command, "", f"{told}\n"))
        count += 1
    assert count >= 18, f"only {count}"


# Scripts, and the number and the answer of the first line that isn't understood.
STRICT = [(b"ann get-read plans\nbob get-read memo\n", ""), (b"", ""), (b"ann frob plans\n", "1: bad form"), (b"ann get-read plan\nann get-read plans\n", "1: bad name"),
          (b"ann level Q\n", "1: bad label"), (b"ann check read plans\n", ""), (b"; a note\n\nann get-read plans\n  \n  ; \xff\nann level Q\nann frob\n", "6: bad label"),
          (b"ann check read plans\nbob get-read memo\nbob frob", "3: bad form"), (b"$x = sec create root U hi\nann get-read $x\n", "2: bad name"),
          (b";" + 19_999 * b"x" + b"\nann frob\n", "2: bad form"), (b";" + 20_000 * b"x" + b"\nann frob\n", "1: bad form"),
          (20_000 * b" " + b"\nann frob\n", "2: bad form"), (20_001 * b" " + b"\nann frob\n", "1: bad form")]


def runs_that_are_strict():
    """All is as without it but the status, which is 4 where a line wasn't understood, and standard error, which has the first one."""
    put("good.script", b"ann get-read plans\n")
    for number, (script, told) in enumerate(STRICT):
        put("a.script", script)
        for before, place in (("good.script", "a.script"), ("a.script", "a.script")):
            plain = ran_program(["run", "--serial", "--journal", "plain", STANDARD, before, "a.script"])
            same((plain[0], plain[2]), (0, b""))
            status, error = (4, f"mls: {place}: line {told}\n".encode()) if told else (0, b"")
            strict = ran_program(["run", "--serial", "--strict", "--journal", "strict", STANDARD, before, "a.script"])
            same((number, strict), (number, (status, plain[1], error)))
            with open("plain", "rb") as one, open("strict", "rb") as other:
                same(one.read(), other.read())
    same(ran_program(["run", "--strict", STANDARD, "a.script"])[::2], (4, b"mls: a.script: line 1: bad form\n"))
    put("b.script", b"\nann frob\n")
    same(ran_program(["run", "--strict", STANDARD, "good.script", "b.script", "a.script"])[::2], (4, b"mls: b.script: line 2: bad form\n"))
    refused(["run", "--strict", "none.json", "a.script"], "none.json: file")


def scripts_that_are_starts():
    """At a terminal run names the first script that is a start file; answers and status are the same."""
    put_files()
    for name, text in (("empty.object", b"{}"), ("short.json", b'{\n "subjects": []\n}\n')):
        put(name, text)
        same(ran_program(["run", STANDARD, name]), (0, b"session 0\n" + text.count(b"\n", 0, -1) * b"bad form\n" + b"bad form\nentries 0\nsecure yes\n", b""))
        same(told_at_a_terminal(["run", STANDARD, name]), (0, f"mls: {name}: looks like a start file\n"))
    same(told_at_a_terminal(["run", "--serial", STANDARD, "a.script", "empty.object", STANDARD]), (0, "mls: empty.object: looks like a start file\n"))
    for text in (b"[]\n7\n", b" {}\n", b"{\nann get-read plans\n", b'"subjects"\n'):
        put("odd", text)
        same((text, told_at_a_terminal(["run", STANDARD, "odd"])), (text, (0, "")))


def files_that_are_standard_input():
    """Where a start file, a script or a journal is read, - is standard input; ./- is a file."""
    put_files()
    start, script = example("standard.json"), b"ann get-read plans\nbob get-read memo\nann release read plans\n"
    put("the.script", script)
    put("short.json", b'{"security": {"levels": ["a"]}, "subjects": [{"name": "s", "maximum": "a"}], "objects": [{"name": "o", "security": "a"}]}')
    rows = [("check -", STANDARD), ("lint -", STANDARD), ("lattice -", STANDARD), ("run - a.script", STANDARD), ("run STANDARD -", "the.script"),
            ("run --strict STANDARD a.script -", "the.script"), ("replay STANDARD -", "standard.journal"), ("journal STANDARD -", "standard.journal"),
            ("state STANDARD -", "standard.journal"), ("who --journal - STANDARD memo", "standard.journal"), ("complete -", "short.json"),
            ("compare - HELD", STANDARD), ("compare STANDARD -", HELD), ("check --json -", STANDARD), ("report STANDARD -", "standard.journal")]
    for row, name in rows:
        words = [{"STANDARD": STANDARD, "HELD": HELD}.get(it, it) for it in row.split()]
        with open(name, "rb") as file:
            given = file.read()
        status, output, error = ran_program([name if it == "-" else it for it in words])
        same((row, ran_program(words, given)), (row, (status, output.replace(name.encode(), b"-"), error)))
    same(ran_program(["check", "-"], b"{"), (1, b"", b"mls: -: start 1 Json\n"))
    same(ran_program(["run", "--strict", STANDARD, "-"], b"ann frob\n"), (4, b"session 0\nbad form\nentries 0\nsecure yes\n", b"mls: -: line 1: bad form\n"))
    put("-", b"")
    refused(["check", "./-"], "./-: start 1 Json")
    same(ran_program(["check", "-"], start), ran_program(["check", STANDARD]))


# Words of options that are to be numbers, and what is told of them.
ENTRY, SESSION, SEGMENT = "the number of an entry; the first entry is 0", "the number of a session; write it as 0 or 7", "from 4096 to 268435456 bytes"
NUMBERS = [("state --at -1 START J", "--at -1", ENTRY), ("state --at=-1 START J", "--at -1", ENTRY), ("journal --from -1 START J", "--from -1", ENTRY),
           ("journal --from 0 --to -1 START J", "--to -1", ENTRY), ("ask --journal J --at x START LINE", "--at x", ENTRY),
           ("usage --from 18446744073709551616 START J", "--from 18446744073709551616", ENTRY), ("held --at 1.5 START J", "--at 1.5", ENTRY),
           ("journal --session -1 START J", "--session -1", SESSION), ("serve --session 4294967296 --journal J START", "--session 4294967296", SESSION),
           ("serve --segment -1 --journal J START", "--segment -1", SEGMENT), ("serve --journal J --segment 4095 START", "--segment 4095", SEGMENT),
           ("serve --segment=268435457 --journal J START", "--segment 268435457", SEGMENT), ("state --at START J", "--at START", ENTRY)]


def numbers_that_are_none():
    """What isn't a number where one is due is told in a line, with what a number is."""
    for row, option, due in NUMBERS:
        same((row, *ran_program(row.split())), (row, 2, b"", f"mls: {option}: not {due}\n".encode()))
    for words in (["who", STANDARD, "memo", "see"], ["state", "--at", "0", "--frob", STANDARD, "j"], ["state", "--at"]):
        status, output, error = ran_program(words)
        same((words, status, output, error.startswith(b"error: ")), (words, 2, b"", True))


def lines_that_are_not_quoted():
    """A line that is given word by word is told to be one argument."""
    for words in (["ask", STANDARD, "bob", "get-read", "memo"], ["explain", STANDARD, "bob", "get-read", "memo"], ["could", STANDARD, "bob", "get-write", "memo"]):
        status, output, error = ran_program(words)
        same((words, status, output, error.endswith(b"\nmls: LINE is one argument: quote it\n")), (words, 2, b"", True))
    for words in (["ask", STANDARD], ["ask", STANDARD, "bob get-read memo", "more"], ["journal", STANDARD, "j", "get-read"]):
        status, output, error = ran_program(words)
        same((words, status, output, b"quote" in error), (words, 2, b"", False))


CHECKS = [short_help, long_help, prompt_at_a_terminal, prompt_that_a_pipe_does_not_see, numbers_that_are_none, lines_that_are_not_quoted,
          *map(in_its_folder, [lines_that_are_fixed, scripts_that_end_in_carriages, questions_that_say_why, readers_that_stop, examples_of_faults, runs_that_are_strict,
                                scripts_that_are_starts, files_that_are_standard_input])]
