"""What is asked of many random worlds, each with a short journal, as the policy in Python answers: who could get what, and which releases and level
that takes; why each entry has its reply, whether by trust, and what would help; and what could ever come about, and where content could flow,
where each script is fed to a service. A start without what was never granted, and what another start breaks, are in asked_worlds.py."""
import could_rows
import flow_rows
import question_texts as texts
import script_could_rows
import usages
from asking import said
from outside import same
from policy import who


def remedies_and_trust_over_many_worlds(world):
    """Each get of an object is granted, takes the releases and the level that are named, or never is; each denial has a remedy; trust is told."""
    rnd, files = world.rnd, [world.start, world.journal]
    number = rnd.randrange(len(world.entries) + 1)
    state = world.before(number)
    o = rnd.choice(sorted(state.label))
    at = ["--journal", world.journal, "--at", str(number), world.start]
    same(said("who", *at, f"#{o}"), who(state, o))
    same(said("journal", "--explain", *files), texts.explained_journal(world.before, world.opening, world.entries))
    states = [world.before(it) for it in range(len(world.entries) + 1)]
    trusted = [it for it in world.entries if states[it.number].uses_trust(it.subject, it.action)]
    same(said("journal", "--used-trust", *files), texts.journal(world.opening, trusted))
    same(said("usage", *files), usages.listed(states, world.entries))


def futures_over_many_worlds(world):
    """Of an object of a state, and of some accesses of the last one, whether they could come about, by a script where they could; and where the
    content of objects could flow, by a script, too."""
    could_rows.could_by_chance(world)
    script_could_rows.scripts_by_chance(world)
    flow_rows.flows_by_chance(world)


OF_MANY = [remedies_and_trust_over_many_worlds, futures_over_many_worlds]
