"""What the start file says, and what the monitor keeps of the way down, whoever asks in whatever order."""
import os

from judging import LIVES
from world import START, World, mls, put, same, start_with


def test_the_start_is_accepted(_):
    same(mls("check", START), (0, "subjects 4\nobjects 6\ncells 6\nsecure yes\n"))


def test_lint_shows_the_root_alone(_):
    """Nobody may do anything with the root; no trusted subject may read anything that is high."""
    same(mls("lint", START), (4, "unused: root\n"))


def answers(lines):
    """Each line is asked, and its answer is as it stands behind the colon."""
    with World() as world:
        lines = [line.strip().rpartition(": ") for line in lines.strip().splitlines()]
        script = put(f"{world.folder}/script", "".join(f"{asked}\n" for asked, _, _ in lines).encode())
        status, said = mls("run", START, f"{world.folder}/script")
        found = [f"{asked}: {answer}" for (asked, _, _), answer in zip(lines, said.splitlines()[1:])]
        same((status, script, found), (0, None, ["".join(line) for line in lines]))


def test_nobody_low_reads_before_the_relabelling(_):
    answers("""
        relabeller get-write passage: yes
        $m = relabeller create passage high message: created 6
        relabeller give read writer $m: yes
        writer get-read $m: no simple
        relabeller relabel $m low: yes
        writer get-read $m: yes
    """)


def test_no_relabelling_while_it_is_written(_):
    answers("""
        relabeller get-write passage: yes
        $m = relabeller create passage high message: created 6
        relabeller give append reader $m: yes
        reader get-append $m: yes
        relabeller relabel $m low: no star
        reader release append $m: yes
        relabeller relabel $m low: yes
        reader get-append $m: no star
    """)


def test_the_relabeller_reads_no_message(_):
    """Not while it is high, by its maximum; and not when it is low, by its integrity."""
    answers("""
        relabeller get-write passage: yes
        $m = relabeller create passage high message: created 6
        relabeller give read relabeller $m: yes
        relabeller get-read $m: no simple
        relabeller relabel $m low: yes
        relabeller get-read $m: no integrity
        relabeller give append relabeller $m: yes
        relabeller get-append $m: yes
    """)


def test_only_the_relabeller_lowers(_):
    answers("""
        relabeller get-write passage: yes
        $m = relabeller create passage high message: created 6
        reader relabel $m low: no authority
        checker relabel $m low: no authority
        writer relabel $m low: no authority
        checker create passage high message: no authority
        reader relabel outbox low: no authority
    """)


def test_rights_on_the_folders_are_fixed(_):
    """The trusted subject may give itself what it likes on the root, and may use none of it."""
    answers("""
        relabeller give write relabeller root: yes
        relabeller get-write root: no integrity
        relabeller give append relabeller root: yes
        relabeller get-append root: no integrity
        relabeller give read writer outbox: no authority
        relabeller give append reader inbox: no authority
        relabeller relabel outbox low: yes
        writer get-read outbox: no discretionary
    """)


def without(subject, name):
    """A change of the start: a subject has no right to an object."""
    def change(start):
        start["matrix"] = [it for it in start["matrix"] if (it["subject"], it["object"]) != (subject, name)]
    return change


def with_subject(subject, **values):
    def change(start):
        next(it for it in start["subjects"] if it["name"] == subject).update(values)
    return change


# A change of the start, and the request that is denied with it.
DENIALS = [
    (without("relabeller", "passage"), "relabeller get-write passage: no discretionary"),
    (without("reader", "outbox"), "reader get-write outbox: no discretionary"),
    (with_subject("reader", maximum="low", current="low"), "reader get-write outbox: no simple"),
    (without("checker", "filter"), "checker get-execute filter: no discretionary"),
    (with_subject("checker", integrity="guard"), "checker get-read #6: no integrity"),
    (with_subject("relabeller", trusted=False), "relabeller relabel #6 low: no authority"),
    (with_subject("writer", integrity="guard"), "writer get-read #6: no integrity"),
    (without("writer", "inbox"), "writer get-append inbox: no discretionary"),
    (with_subject("writer", maximum="high", current="high"), "writer get-append inbox: no star"),
]


def test_denied_is_not_moved(_):
    """For each start in which some request is denied: the guard ends there, and nothing is low; nor after it is started
    again. Nothing is lost."""
    for change, denied in DENIALS:
        with World() as world:
            start_with(world, change)
            world.send("m", b"lunch")
            for _ in range(2):
                same(world.run(), (4, f"guard: session 1: {denied}\n"))
                world.nothing_moved()
                same(world.told(1)["denied"], denied.split())
            request = denied.rpartition(": ")[0]
            same(world.granted().get(1, []), LIVES["delivered"][: LIVES["delivered"].index(request)])
            assert os.listdir(world.high) == ["m"] or os.listdir(f"{world.state}/spool") == ["1"]


def test_a_refusal_that_is_denied(_):
    with World() as world:
        start_with(world, without("checker", "refused"))
        world.send("m", b"a SECRET")
        same(world.run(), (4, "guard: session 1: checker get-append refused: no discretionary\n"))
        world.nothing_moved()


def test_a_start_without_its_names(_):
    with World() as world:
        start_with(world, lambda start: start["subjects"].pop(3) and start["matrix"].pop())
        world.send("m", b"lunch")
        same(world.run(), (4, "guard: session 1: relabeller give read writer #6: bad name\n"))
        world.nothing_moved()
