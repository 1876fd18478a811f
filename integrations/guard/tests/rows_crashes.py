"""Over kills and power losses each message goes down once, or not at all, as the journal says."""
from kills import deaths, kills


def test_kills_at_random_moments(short):
    """Of the guard, of its service, or of both; a third of the messages is refused."""
    return kills(12 if short else 200, seed=56)


def test_a_kill_before_each_call(short):
    """On files, and each request; and again as it goes on."""
    return deaths(["kill"], 24 if short else 1)


def test_a_power_loss_before_each_call(short):
    """What wasn't synced is gone. Each request finds all synced that was done before it."""
    return deaths(["lose"], 12 if short else 1)
