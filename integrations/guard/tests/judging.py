"""What a guard must have done, by the journal, the log and the folders together."""
import hashlib
import os
import urllib.parse

from world import SECRET, content, mls, put, same

# The requests of a message's life, by its end; #6 is the message.
ENTERS = ["relabeller get-write passage", "reader get-write outbox", "relabeller create passage high message"]
COPIES = ["relabeller give append reader #6", "reader get-append #6"]
CHECKS = ["relabeller rescind append reader #6", "reader release write outbox", "relabeller give read checker #6",
          "checker get-read #6", "checker get-execute filter", "checker release execute filter"]
LEAVES = ["relabeller delete #6", "relabeller release write passage"]
LIVES = {
    "delivered": ENTERS + COPIES + CHECKS + [
        "checker release read #6", "relabeller relabel #6 low", "relabeller give read writer #6", "writer get-read #6",
        "writer get-append inbox", "writer release read #6", "writer release append inbox"] + LEAVES,
    "refused": ENTERS + COPIES + CHECKS + [
        "checker get-append refused", "checker release append refused", "checker release read #6"] + LEAVES,
    "unfit": ENTERS + COPIES + [
        "reader get-append refused", "reader release append refused", "reader release append #6",
        "reader release write outbox"] + LEAVES,
    "blocked": ENTERS + COPIES + CHECKS + [
        "checker release read #6", "relabeller relabel #6 low", "relabeller give read writer #6", "writer get-read #6",
        "writer get-append inbox", "writer release read #6", "writer release append inbox", "checker get-read #6",
        "checker get-append refused", "checker release append refused", "checker release read #6"] + LEAVES,
    "gone": ENTERS + ["reader release write outbox"] + LEAVES,
}


def judge(world, may_pass=lambda message: SECRET not in message):
    """Each message that was sent went down once, or not at all, as the journal says; and nothing is left behind.
    Returns the names of those that went down, each with its name there."""
    world.receive()
    status, said = mls("replay", world.start, f"{world.state}/journal")
    assert status == 0 and "secure yes" in said, said
    is_empty(world)
    told = lives(world)
    same(sorted(told), sorted(world.sent))
    down = {name: it["closed"][1] for name, it in told.items() if it["closed"][0] == "delivered"}
    passed = [name for name, message in world.sent.items() if may_pass(message)]
    same(sorted(down), sorted(set(passed) - world.blocked))
    same({name for name, it in told.items() if "blocked" in it}, world.blocked)
    lows = sorted(told[name]["verdict"][1] for name in passed)
    same(lows, [f"{number:010}" for number in range(1, len(lows) + 1)])
    same(down, {name: told[name]["verdict"][1] for name in down})
    same(world.received, {low: world.sent[name] for name, low in down.items()})
    kept = {it["session"]: world.sent[name] for name, it in told.items() if it["closed"][0] == "refused"}
    same({name: content(f"{world.state}/refused/{name}") for name in os.listdir(f"{world.state}/refused")}, kept)
    for name, it in told.items():
        digests_are_right(it, world.sent[name])
    return down


def lives(world):
    """What the log has of each message that was taken, by name. Its session's entries are a whole life, of the end that
    the log has."""
    found, granted = {}, world.granted()
    for session, told in world.messages().items():
        end = told["closed"][0]
        kind = "unfit" if told.get("copied", "-")[0] == "unfit" else "blocked" if "blocked" in told else end
        same(granted[session], LIVES[kind])
        if end != "gone":
            name = os.fsdecode(urllib.parse.unquote_to_bytes(told["opened"][0]))
            assert name not in found, f"{name} was taken twice"
            found[name] = {**told, "session": str(session)}
    return found


def is_empty(world):
    """Nothing is under way: in no folder, and in the monitor's state."""
    low = sorted(os.listdir(world.low))
    same((os.listdir(f"{world.state}/spool"), low, os.listdir(world.high)), ([], sorted(world.obstacles), []))
    put(f"{world.folder}/empty", b"")
    now = mls("state", world.start, f"{world.state}/journal")
    same(now, mls("state", world.start, f"{world.folder}/empty"))


def digests_are_right(told, message):
    if "verdict" in told:
        digest = hashlib.sha256(message).hexdigest()
        same(told["copied"], ["bytes", str(len(message)), "sha256", digest])
        same(told["verdict"][2:4], ["sha256", digest])
