"""Faults, one at a time: what begins each, what ends it."""
import collections
import os
import signal

# What is done to a machine, and how it is undone.
Fault = collections.namedtuple("Fault", "name begins ends needs_cut")


def kill(what):
    return lambda it: it.kill(what)


def restart_etcd(machine):
    machine.begin_etcd()
    machine.cluster.leader_there()


def restart_replica(machine):
    machine.begin_replica()
    machine.serves()


def kill_both(machine):
    machine.kill("replica")
    machine.kill("etcd")


def restart_both(machine):
    restart_etcd(machine)
    restart_replica(machine)


def kill_core(machine):
    core = machine.core()
    os.kill(core, signal.SIGKILL)
    status = machine.replica.wait(60)
    assert status == 4, f"the core was killed, and the replica ended with {status}: {machine.told()[-500:]}"


ETCD = [
    Fault("kill of etcd", kill("etcd"), restart_etcd, False),
    Fault("pause of etcd", lambda it: it.pause("etcd"), lambda it: it.go_on("etcd"), False),
    Fault("cut-off", lambda it: it.network.cut(it.k), lambda it: it.network.heal(it.k), True),
]
REPLICA = [
    Fault("kill of the replica", kill("replica"), restart_replica, False),
    Fault("pause of the replica", lambda it: it.pause("replica"), lambda it: it.go_on("replica"), False),
    Fault("kill of the core", kill_core, restart_replica, False),
]
BOTH = [Fault("kill of both", kill_both, restart_both, False)]
