"""A core that pretends, for checks of mlsd: its journal is a file of holes, and what each answer comes with is told by
the checks, so that none of them waits for a clock or a full disk.

    pretended_core.py serve --sessions --names --journal FILE STEPS

STEPS is a file of JSON: a list with an object for each line that is asked, in turn. Behind the last one all is answered
`yes`.

| Member | What it does |
|---|---|
| size | FILE has so many bytes before the answer |
| answer | the answer; `yes` where it isn't named |
| end | in place of an answer the core ends with this status |
| waits | it waits before the answer until this file is there |
"""
import json
import os
import sys
import time

SUBJECTS, OBJECTS = ("ann", "bob", "sec", "aud"), ("root", "plans", "memo", "tool")


def say(text):
    os.write(1, text.encode())


def answered(session, step, journal):
    """Does what a step says, and answers."""
    if "size" in step:
        os.truncate(journal, step["size"])
    while "waits" in step and not os.path.exists(step["waits"]):
        time.sleep(0.01)
    if "end" in step:
        sys.exit(step["end"])
    say(f"{session} {step.get('answer', 'yes')}\n")


# What the standard start opens with, as far as mlsd reads it.
STATE = "".join(f"subject {name} maximum T:A,B current U integrity hi\n" for name in SUBJECTS) + "".join(
    f"object {name} security U integrity hi{' parent root' if name != 'root' else ''}\n" for name in OBJECTS
)


def main(words):
    if words[0] == "state":
        return say(STATE)
    journal = words[words.index("--journal") + 1]
    with open(words[-1], encoding="utf-8") as file:
        steps = iter(json.load(file))
    with open(journal, "ab"):
        pass
    for word, names in (("subject", SUBJECTS), ("object", OBJECTS)):
        say("".join(f"{word} {number} {name}\n" for number, name in enumerate(names)))
    say("ready 0\n")
    for line in sys.stdin:
        session, _, asked = line.partition(" ")
        # (mlsd's own question, whether the core answers, is no step)
        is_own = asked.startswith("#0 check execute #0")
        answered(session, {"answer": "not held"} if is_own else next(steps, {}), journal)


if __name__ == "__main__":
    main(sys.argv[1:])
