"""One etcd without peers, whose data can be kept and put back, and replicas of several names over it."""
import json
import os
import shutil
import socket
import subprocess
import sys
import tempfile

import machine
from machine import HERE, MLS, SECONDS, SOURCE, comes
from mls_replica_client import Session
from network import free_port


class Single:
    """What runs is ended with the folder."""

    def __init__(self, start):
        self.kept = tempfile.TemporaryDirectory(prefix="mls-single-")
        self.folder, self.runs = self.kept.name, []
        self.start = shutil.copy(start, f"{self.folder}/start.json")
        self.port, self.peers, self.etcd = free_port(), free_port(), None

    def __enter__(self):
        self.begin_etcd()
        return self

    def __exit__(self, *_):
        for run in self.runs:
            if run.poll() is None:
                run.kill()
            run.wait()
        self.kept.cleanup()

    def begun(self, words, log):
        with open(f"{self.folder}/{log}", "ab") as file:
            self.runs.append(subprocess.Popen(words, stdin=subprocess.DEVNULL, stdout=file, stderr=file))
        return self.runs[-1]

    def begin_etcd(self):
        own, peers = f"http://127.0.0.1:{self.port}", f"http://127.0.0.1:{self.peers}"
        words = ["etcd", "--name", "e", "--data-dir", f"{self.folder}/data", "--listen-client-urls", own,
                 "--advertise-client-urls", own, "--listen-peer-urls", peers, "--initial-cluster", f"e={peers}",
                 "--initial-advertise-peer-urls", peers, "--log-level", "error"]  # fmt: skip
        self.etcd = self.begun(words, "etcd.log")
        comes(lambda: self.etcdctl("endpoint", "health").returncode == 0, why="etcd is there")

    def end_etcd(self):
        self.etcd.kill()
        self.etcd.wait()

    def etcdctl(self, *words, **how):
        words = ["etcdctl", f"--endpoints=127.0.0.1:{self.port}", *words]
        return subprocess.run(words, env={**os.environ, "ETCDCTL_API": "3"}, capture_output=True, text=True,
                              timeout=60, **how)

    def log_lines(self):
        words = [f"{SOURCE}/log-lines", "--etcd", f"127.0.0.1:{self.port}"]
        return subprocess.run(words, capture_output=True, text=True, timeout=60, check=False)

    def value(self, key):
        return self.etcdctl("get", "--print-value-only", key, check=True).stdout.strip()

    def keep_data(self):
        """Keeps what etcd has now."""
        self.end_etcd()
        shutil.copytree(f"{self.folder}/data", f"{self.folder}/kept")
        self.begin_etcd()

    def put_data_back(self):
        """Lets etcd have what was kept."""
        self.end_etcd()
        shutil.rmtree(f"{self.folder}/data")
        shutil.copytree(f"{self.folder}/kept", f"{self.folder}/data")
        self.begin_etcd()


class Replica:
    """A replica of a name over it."""

    def __init__(self, single, name, every="1000"):
        self.single, self.name, self.every, self.run = single, name, every, None
        folder = f"{single.folder}/{name}"
        os.mkdir(folder)
        self.journal, self.socket, self.log = f"{folder}/journal", f"{folder}/socket", f"{folder}/log"

    def begin(self, *before):
        """Begins it, or what runs it."""
        open(self.log, "w", encoding="utf-8").close()
        words = [*(before or (f"{SOURCE}/mls-replica",)), "--name", self.name, "--program", MLS,
                 "--etcd", f"127.0.0.1:{self.single.port}", "--start", self.single.start,
                 "--journal", self.journal, "--socket", self.socket, "--every", self.every]  # fmt: skip
        self.run = self.single.begun(words, os.path.relpath(self.log, self.single.folder))
        return self

    def begin_failing(self, *how):
        return self.begin(sys.executable, f"{HERE}/failing.py", *how)

    def serves(self):
        def is_there():
            assert self.run.poll() is None, f"{self.name} has ended: {self.told()[-2000:]}"
            return "serving at entry" in self.told()
        comes(is_there, why=f"{self.name} serves")
        return self

    def connected(self):
        found = socket.socket(socket.AF_UNIX)
        found.settimeout(SECONDS)
        found.connect(self.socket)
        return found

    def stats(self):
        with self.connected() as sock:
            sock.sendall(b"stats\n")
            return json.loads(sock.makefile().readline())

    def asks(self, count, lines=("ann get-read plans", "ann release read plans")):
        """So many requests, one after the other, each of which has an entry."""
        with Session([self.socket]) as session:
            return [session.ask(lines[k % len(lines)]) for k in range(count)]

    def ends(self, *parts):
        """Waits until it has ended by itself, has told this and no traceback, and returns its status."""
        status, told = self.run.wait(SECONDS), self.told()
        assert all(it in told for it in parts) and "Traceback" not in told and "stack" not in told, told[-2000:]
        return status

    def end(self):
        core = machine.child_of(self.run.pid)
        self.run.terminate()
        status = self.run.wait(SECONDS)
        comes(lambda: not core or not os.path.exists(f"/proc/{core}"), why=f"the end of the core of {self.name}")
        return status

    def told(self):
        with open(self.log, encoding="utf-8") as file:
            return file.read()

    def entries(self):
        with open(self.journal, "rb") as file:
            return file.read()
