"""One machine of a cluster: its etcd and its replica, in a folder of its own."""
import json
import os
import shutil
import signal
import socket
import subprocess
import time

HERE = os.path.dirname(os.path.realpath(__file__))
SOURCE = os.path.dirname(HERE)
TOP = os.path.dirname(os.path.dirname(SOURCE))


def program():
    """The program mls: the one that MLS_PROGRAM names, else the proved one of this checkout, or its trial."""
    kinds = [f"{TOP}/bin/built", "file", "proved", "trial"]
    return os.environ.get("MLS_PROGRAM") or subprocess.run(
        kinds, stdout=subprocess.PIPE, text=True, check=False).stdout.strip()


MLS = program()
# How long anything may take; a trial takes long to catch up with a log.
SECONDS = 180 if "/proved/" in MLS else 600


def missing():
    """What isn't installed, or None."""
    if not os.access(MLS, os.X_OK):
        return "mls (bin/prove builds it)"
    return next((it for it in ("etcd", "etcdctl") if not shutil.which(it)), None)


def comes(what, seconds=SECONDS, why=""):
    """Waits until something is so, and returns it."""
    ends = time.monotonic() + seconds
    while not (found := what()):
        assert time.monotonic() < ends, f"doesn't come: {why or what.__name__}"
        time.sleep(0.02)
    return found


def child_of(pid):
    """The first child of a process; 0 where there is none."""
    try:
        with open(f"/proc/{pid}/task/{pid}/children", encoding="ascii") as file:
            return int((file.read().split() or ["0"])[0])
    except OSError:
        return 0


class Machine:
    """Machine K."""

    def __init__(self, cluster, k):
        self.cluster, self.k, self.network = cluster, k, cluster.network
        self.name, self.folder = f"m{k}", f"{cluster.folder}/m{k}"
        os.mkdir(self.folder)
        self.journal, self.socket = f"{self.folder}/journal", f"{self.folder}/socket"
        self.start, self.log = f"{self.folder}/start.json", f"{self.folder}/replica.log"
        shutil.copy(cluster.start, self.start)
        self.etcd = self.replica = None
        # (entries after which the replica writes a checkpoint)
        self.every = "300"

    def begin_etcd(self):
        network, k = self.network, self.k
        clients, peers = f"http://{network.clients(k)}", f"http://{network.peers(k)}"
        everybody = ",".join(f"m{j}=http://{network.peers(j)}" for j in (1, 2, 3))
        heartbeat, election = self.cluster.times
        words = ["etcd", "--name", self.name, "--data-dir", f"{self.folder}/etcd", "--listen-client-urls", clients,
                 "--advertise-client-urls", clients, "--listen-peer-urls", peers,
                 "--initial-advertise-peer-urls", peers, "--initial-cluster", everybody,
                 "--initial-cluster-token", self.cluster.folder, "--pre-vote", "--heartbeat-interval", str(heartbeat),
                 "--election-timeout", str(election), "--quota-backend-bytes", str(8 << 30), "--logger", "zap",
                 "--log-outputs", "stderr", "--log-level", "error"]
        with open(f"{self.folder}/etcd.log", "ab") as log:
            self.etcd = subprocess.Popen([*network.on(k), *words], stdin=subprocess.DEVNULL, stdout=log, stderr=log)

    def words(self, **other):
        """The replica's words; some may be other ones."""
        order = [self.k, *(j for j in (1, 2, 3) if j != self.k)]
        words = {"name": self.name, "etcd": ",".join(self.network.clients(j) for j in order), "program": MLS,
                 "start": self.start, "journal": self.journal, "socket": self.socket, "every": self.every, **other}
        return [f"{SOURCE}/mls-replica", *(it for key, word in words.items() for it in (f"--{key}", word))]

    def begin_replica(self, **other):
        with open(self.log, "ab") as log:
            words = [*self.network.on(self.k), *self.words(**other)]
            self.replica = subprocess.Popen(words, stdin=subprocess.DEVNULL, stdout=log, stderr=log)

    def told(self):
        with open(self.log, encoding="utf-8") as file:
            return file.read()

    def forget_told(self):
        open(self.log, "w", encoding="utf-8").close()

    def serves(self):
        """Waits until the replica lets clients in."""
        def is_there():
            assert self.replica.poll() is None, f"{self.name} has ended: {self.told()[-2000:]}"
            return self.stats()
        return comes(is_there, why=f"{self.name} serves: {self.told()[-1000:]}")

    def connected(self):
        found = socket.socket(socket.AF_UNIX)
        found.settimeout(SECONDS)
        try:
            found.connect(self.socket)
        except OSError:
            found.close()
            raise
        return found

    def stats(self):
        """What the replica says of itself; None where it serves nobody."""
        try:
            with self.connected() as sock:
                sock.sendall(b"stats\n")
                return json.loads(sock.makefile().readline())
        except (OSError, ValueError):
            return None

    def core(self):
        """The process of mls serve; 0 where there is none."""
        return child_of(self.replica.pid)

    def kill(self, what):
        run = getattr(self, what)
        run.kill()
        run.wait()

    def pause(self, what):
        getattr(self, what).send_signal(signal.SIGSTOP)

    def go_on(self, what):
        getattr(self, what).send_signal(signal.SIGCONT)

    def end_replica(self):
        """Ends it and waits for its core, and returns the status."""
        core = self.core()
        self.replica.terminate()
        status = self.replica.wait(SECONDS)
        self.core_ends(core)
        return status

    def core_ends(self, core):
        comes(lambda: not core or not os.path.exists(f"/proc/{core}"), why=f"the end of the core of {self.name}")

    def is_refused(self, *parts, **other):
        """The replica ends by itself, with status 3, and tells this."""
        self.forget_told()
        self.begin_replica(**other)
        self.has_refused(*parts)

    def has_refused(self, *parts):
        status = self.replica.wait(SECONDS)
        told = self.told()
        assert status == 3 and all(part in told for part in parts), f"{self.name}: status {status}: {told[-1000:]}"
        return told

    def entries(self):
        with open(self.journal, "rb") as file:
            return file.read()

    def stop(self):
        for run in (self.replica, self.etcd):
            if run and run.poll() is None:
                run.kill()
                run.wait()
