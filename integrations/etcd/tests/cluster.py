"""Three machines, each with etcd and a replica, in a new folder."""
import atexit
import json
import os
import shutil
import signal
import subprocess
import sys
import tempfile

from machine import TOP, Machine, comes
from network import MACHINES, network

START = f"{TOP}/examples/standard.json"


# Where nothing waits for a disk that others keep busy; etcd alone takes 200 MB there.
QUICK, ROOM = "/dev/shm", 2 << 30


def quick_folder():
    try:
        room = os.statvfs(QUICK)
        return QUICK if room.f_bavail * room.f_frsize >= ROOM and os.access(QUICK, os.W_OK) else "/tmp"
    except OSError:
        return "/tmp"


class Cluster:
    """The machines, and what reaches all of them."""

    def __init__(self, times=(100, 1_000), on_disk=False, start=START):
        signal.signal(signal.SIGTERM, lambda *_: sys.exit(143))
        self.times, self.start = times, start
        self.folder = tempfile.mkdtemp(prefix="mls-etcd-", dir="/tmp" if on_disk else quick_folder())
        self.network = network()
        self.machines = [Machine(self, k) for k in MACHINES]
        atexit.register(self.remove)

    def begin(self):
        for it in self.machines:
            it.begin_etcd()
        self.leader_there()
        self.begin_replicas()

    def begin_replicas(self):
        for it in self.machines:
            it.begin_replica()
        for it in self.machines:
            it.serves()

    def etcdctl(self, *words, **how):
        ends = ",".join(self.network.clients(k) for k in MACHINES)
        words = [*self.network.on(0), "etcdctl", f"--endpoints={ends}", *words]
        env = {**os.environ, "ETCDCTL_API": "3"}
        return subprocess.run(words, env=env, capture_output=True, text=True, timeout=30, **how)

    def watched(self, *words):
        """A watch that runs, for which the caller sees to its end."""
        words = [*self.network.on(0), "etcdctl", f"--endpoints={self.network.clients(1)}", "watch", *words]
        return subprocess.Popen(words, env={**os.environ, "ETCDCTL_API": "3"}, stdout=subprocess.PIPE, text=True)

    def leader(self):
        """The machine whose etcd leads; None where nobody does."""
        said = self.etcdctl("endpoint", "status", "-w", "json", "--command-timeout=2s", check=False).stdout
        for row in json.loads(said or "[]") or []:
            status = row["Status"]
            if status.get("leader") and status["leader"] == status["header"]["member_id"]:
                return next(it for it in self.machines if row["Endpoint"] == self.network.clients(it.k))
        return None

    def leader_there(self):
        """Waits until there is one."""
        return comes(self.leader, why="etcd has a leader")

    def followers(self):
        leader = self.leader_there()
        return [it for it in self.machines if it is not leader]

    def sockets(self):
        return [it.socket for it in self.machines]

    def rests(self):
        """Waits until all machines have fed the whole log and answered it."""
        def is_so():
            found = [it.stats() for it in self.machines]
            if not all(found):
                return None
            places = {(it["batch"], it["entries"]) for it in found}
            is_busy = any(it["owed"] or it["waiting"] or it["bytes under way"] for it in found)
            return found if len(places) == 1 and not is_busy else None
        return comes(is_so, why="all machines are at one place")[0]

    def remove(self):
        for it in self.machines:
            it.stop()
        self.network.remove()
        shutil.rmtree(self.folder, ignore_errors=True)
