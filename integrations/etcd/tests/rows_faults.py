"""Faults under load: nobody is answered wrongly, and those who move on are answered soon."""
import os
import random
import subprocess
import time

import faults
from machine import MLS, SOURCE

# Seconds that an answer may take at the other machines, on a machine that is busy; a failover takes 0.5 to 4.
LONG = 90


def under_load(world, fault, machine, seconds=0.7):
    """A fault begins and ends while clients ask; behind each step they are answered."""
    with world.load() as load:
        load.goes_on()
        fault.begins(machine)
        waited = load.goes_on(seconds=LONG)
        time.sleep(seconds)
        fault.ends(machine)
        load.goes_on(seconds=LONG)
    return waited


def rows(world, kinds, machine_of):
    for fault in kinds:
        if world.network.can_cut or not fault.needs_cut:
            under_load(world, fault, machine_of())
    world.are_same()


def test_the_leader_of_etcd_fails(world):
    rows(world, faults.ETCD, world.leader_there)


def test_a_follower_of_etcd_fails(world):
    rows(world, faults.ETCD, lambda: world.followers()[0])


def test_a_replica_fails(world):
    rows(world, faults.REPLICA, lambda: random.choice(world.machines))


def test_a_machine_fails(world):
    rows(world, faults.BOTH, world.leader_there)


def test_all_machines_fail(world):
    """All are killed at once, and go on."""
    with world.load() as load:
        load.goes_on()
        for it in world.machines:
            faults.kill_both(it)
        for it in world.machines:
            it.begin_etcd()
        world.leader_there()
        world.begin_replicas()
        load.goes_on(seconds=LONG)
    world.are_same()


def test_all_answers_are_those_of_the_log(world):
    """Of all that was asked so far: see oracle.py."""
    world.is_right()


def test_log_lines_make_the_journal(world):
    """What log-lines prints, fed to a fresh service."""
    words = [*world.network.on(0), f"{SOURCE}/log-lines", "--etcd", world.network.clients(1)]
    journal = f"{world.folder}/of-lines"
    serve = [MLS, "serve", "--sessions", "--journal", journal, world.start]
    text = subprocess.run(words, capture_output=True, check=True).stdout
    subprocess.run(serve, input=text, capture_output=True, check=True)
    with open(journal, "rb") as file:
        assert file.read() == world.machines[0].entries()
    os.remove(journal)


def test_a_machine_that_is_cut_off_answers_no_question(world):
    """Nor a local one once it is too old."""
    if not world.network.can_cut:
        return "no network namespace can be made here"
    machine = world.leader_there()
    with machine.connected() as sock:
        text = sock.makefile()
        sock.sendall(b"hello cut\n")
        session = text.readline().split()[2]
        sock.sendall(f"{session} 0 ~ ann check read plans\n".encode())
        assert "held" in text.readline()
        world.network.cut(machine.k)
        try:
            time.sleep(2.6)
            sock.sendall(f"{session} 1 ~ ann check read plans\n{session} 2 ? ann check read plans\n".encode())
            assert text.readline() == f"{session} 1 ? stale\n"
        finally:
            world.network.heal(machine.k)
        assert text.readline().startswith(f"{session} 2 ? ")
    return None


def random_faults(world, count, seed):
    """Faults at random, now and then two at once, under load."""
    chance = random.Random(seed)
    kinds = [it for it in faults.ETCD + faults.REPLICA + faults.BOTH if world.network.can_cut or not it.needs_cut]
    with world.load(clients=12, pause=0.02) as load:
        while count > 0:
            pair = chance.sample(world.machines, 2 if chance.random() < 0.25 else 1)
            begun = []
            for machine in pair:
                begun.append((chance.choice(kinds), machine))
                begun[-1][0].begins(machine)
                time.sleep(chance.uniform(0, 0.5))
            time.sleep(chance.uniform(0, 2))
            for fault, machine in reversed(begun):
                fault.ends(machine)
            count -= len(pair)
            load.goes_on(seconds=LONG)
            time.sleep(chance.uniform(0, 0.5))
    return world.is_right()
