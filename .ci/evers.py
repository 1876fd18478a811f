"""Who could ever get an object, in Python from docs/FORMATS.md ("who --ever"): from the answers to its gets in all states of a journal, one by
one, and not from what its entries change."""
from policy import MODES


def runs(answers):
    """The longest runs of states in which an answer is true, by the first and the last state."""
    found = []
    for n, answer in enumerate(answers):
        if answer and n and answers[n - 1]:
            found[-1] = found[-1][0], n
        elif answer:
            found.append((n, n))
    return found


def entry_text(number, found):
    """An entry, with the time of the first mark that covers it, where marks are told."""
    if found is None:
        return str(number)
    times = [it.time.decode() for it in found if number <= it.number]
    return f"{number} [{times[0] if times else '-'}]"


def run_text(run, count, found):
    first, last = run
    begin = entry_text(first - 1, found) if first else "start"
    return begin + (f" to {entry_text(last, found)}" if last < count else " on")


def listed(states, o, mode=None, first=0, last=None, found=None):
    """What `mls who --ever` prints of an object and the states from `first` to `last`, and its status."""
    count = len(states) - 1
    last = count if last is None else min(last, count)
    permitted = {it for state in states[first : last + 1] for it in state.matrix if it[1] == o and mode in (None, it[2])}
    lines, is_any = "", False
    for s, _, x in sorted(permitted):
        answers = [state.decide(s, (f"get-{MODES[x]}", x, o)) == "yes" for state in states]
        told = [it for it in runs(answers) if it[0] <= last and first <= it[1]]
        lines += f"{states[0].subject(s)} {MODES[x]}: {', '.join(run_text(it, count, found) for it in told) or 'in no state'}\n"
        is_any |= bool(told)
    return lines, 0 if is_any else 4
