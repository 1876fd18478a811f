"""Fuzzes scripts over the standard start, by mls."""
import script_inputs
import script_rows
from answers import ALL_ANSWERS, FAULTS, are_numbered, compared, lines_in
from formats import SCRIPT_LIMIT
from fuzzing import Fuzzer
from outside import IS_PROVED, example, ran_program, shown
from start_format import start_of

# The shares of scripts of the most bytes, of which a trial gets none, and of those that use up the numbers of objects.
LONG, USED_UP = 0.004 if IS_PROVED else 0, 0.002


class Scripts(Fuzzer):
    """A script is accepted where a line of it is answered and none has a fault."""

    name, count, wanted = "scripts", 5_000, {*ALL_ANSWERS, "too long"} if IS_PROVED else {*ALL_ANSWERS}

    def prepare(self):
        self.start = start_of(example("standard.json"))
        self.seeds = [example("standard.script"), *(script for _, script, *_ in script_rows.WORKED)]

    def made(self, rng):
        way = rng.random()
        if way < LONG:
            return script_inputs.long_script(rng, self.start)
        if way < LONG + USED_UP:
            return script_inputs.numbers_used_up(rng, self.start)
        return script_inputs.made(rng, self.start, self.seeds)

    def judged(self, script):
        is_long = len(script) > SCRIPT_LIMIT
        lines = script[:SCRIPT_LIMIT].split(b"\n")[:-1] if is_long else lines_in(script)
        status, output, error = ran_program(script=script)
        wanted = (1, b"mls: input: too long\n") if is_long else (0, b"")
        assert (status, error) == wanted, f"status {status}, {shown(error)}"
        *answers, rest = output.split(b"\n")
        answers = iter(answers)
        words, requests = compared(lines, answers, self.start)
        left = next(answers, rest)
        assert left == b"", f"{shown(left)} follows the answers"
        are_numbered([reply for *_, reply in requests], self.start)
        return bool(words) and not is_long and not FAULTS & {*words}, words + is_long * ["too long"]
