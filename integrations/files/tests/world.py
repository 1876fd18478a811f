"""What the checks begin with: mlsd over a start with two levels, and a backing folder; sessions are begun as they are
needed."""
import glob
import json
import os
import shutil
import signal
import socket
import subprocess
import tempfile
import time

from session import Session, leave_mounts

SECONDS = 300
HERE = os.path.dirname(os.path.realpath(__file__))
SOURCE = os.path.dirname(HERE)
TOP = os.path.dirname(os.path.dirname(SOURCE))
MLS = os.environ.get("MLS_PROGRAM") or subprocess.run(
    [f"{TOP}/bin/built", "file", "proved", "trial"], stdout=subprocess.PIPE, text=True, check=False).stdout.strip()
MLSD, MLSFS = f"{TOP}/mlsd/out/mlsd", f"{SOURCE}/out/mlsfs"
# Who logs in: users that each system has. games may be secret, man may not, sys is trusted; of each pool's subjects.
POOLS = {"games": 5, "man": 5, "sys": 2}
MAXIMUM = {"games": "secret", "man": "public", "sys": "secret"}


class Skipped(Exception):
    """A check that needs what isn't installed, by its name."""


def why_not():
    """What of all that is needed isn't there, or None."""
    if os.geteuid() != 0:
        return "only root can mount and log in"
    if not os.path.exists("/dev/fuse"):
        return "/dev/fuse is not there"
    if not shutil.which("make") or not shutil.which("cc"):
        return "a C compiler and make are not installed"
    if subprocess.run(["pkg-config", "--exists", "fuse3 >= 3.14 nettle"], stderr=subprocess.DEVNULL).returncode:
        return "libfuse3-dev, nettle-dev or pkg-config is not installed"
    if not has_audit():
        return "the kernel has no audit sessions"
    if not os.access(MLS, os.X_OK):
        return "mls is not built (bin/prove builds it)"
    return None if shutil.which("rustc") else "rustc is not installed"


def has_audit():
    try:
        with open("/proc/self/sessionid", encoding="ascii") as file:
            return bool(file.read())
    except OSError:
        return False


def build():
    words = ["make", "-s", "-C", SOURCE, "out/mlsfs", "out/undecided", "out/rules_test"]
    subprocess.run(words, check=True, stdin=subprocess.DEVNULL)
    if os.path.exists("/usr/include/security/pam_ext.h"):
        subprocess.run([*words[:4], "out/pam_mls.so"], check=True, stdin=subprocess.DEVNULL)
    newest = max(os.stat(it).st_mtime for it in glob.glob(f"{TOP}/mlsd/src/*.rs"))
    if not os.path.exists(MLSD) or os.stat(MLSD).st_mtime < newest:
        subprocess.run([f"{TOP}/bin/build-mlsd", MLSD], check=True, stdin=subprocess.DEVNULL)


def leave_all():
    """Takes a namespace of mounts, and a folder of mlsfs's claims to sessions, that are the checks' alone."""
    leave_mounts()
    os.makedirs("/run/mlsfs", 0o700, exist_ok=True)
    subprocess.run(["mount", "-t", "tmpfs", "-o", "mode=700", "none", "/run/mlsfs"], check=True)


class World:
    """mlsd, a backing folder, and sessions over them, in a folder that is gone with them."""

    def __init__(self):
        self.folder = tempfile.mkdtemp(prefix="mls-files-", dir="/tmp")
        os.chmod(self.folder, 0o755)
        self.socket, self.back, self.mount = (f"{self.folder}/{it}" for it in ("socket", "back", "mnt"))
        self.log = open(f"{self.folder}/log", "a", encoding="utf-8")
        self.sessions, self.mlsd, self.started = [], None, f"{self.folder}/start.json"
        os.mkdir(self.mount)
        self.write_start()
        self.write_users()
        self.make(self.back)
        self.start()

    def renew(self):
        """Ends all sessions, and empties the folder, also of what one that was killed was making."""
        self.end_sessions()
        self.empty()

    def empty(self):
        for part in ("files", "staging"):
            for it in os.scandir(f"{self.back}/{part}"):
                shutil.rmtree(it.path) if it.is_dir(follow_symlinks=False) else os.remove(it.path)

    def write_start(self):
        """A start with two levels, the pools' subjects, and a container for each label."""
        labels = {"current": "public", "integrity": "any"}
        subjects = [{"name": f"{user}-{k + 1}", "maximum": MAXIMUM[user], **labels, "trusted": user == "sys"}
                    for user, count in POOLS.items() for k in range(count)]
        subjects.append({"name": "admin", "maximum": "secret", **labels, "trusted": True})
        people = {"security": {"levels": ["public", "secret"], "categories": []},
                  "integrity": {"levels": ["any"], "categories": []}, "subjects": subjects,
                  "objects": [{"name": "root", "parent": None, "security": "public", "integrity": "any"}],
                  "matrix": [{"subject": "admin", "object": "root", "modes": ["write"]}]}
        with open(f"{self.folder}/people.json", "w", encoding="utf-8") as file:
            json.dump(people, file)
        with open(self.started, "wb") as file:
            words = [f"{TOP}/integrations/postgresql/containers", f"{self.folder}/people.json"]
            subprocess.run(words, stdout=file, check=True)

    def write_users(self):
        with open(f"{self.folder}/users", "w", encoding="utf-8") as file:
            for user, count in POOLS.items():
                print(f"pool {user} =", *(f"{user}-{k + 1}" for k in range(count)), file=file)
            print("root = * rate=0 clients=400 reads=held", file=file)
        os.chmod(f"{self.folder}/users", 0o644)

    def make(self, folder):
        subprocess.run([MLSFS, "--make", folder, "public_any"], check=True)
        os.chmod(f"{folder}/files", 0o777)

    def levels(self, name, *labels):
        """Makes a multilevel folder, at public."""
        folder = f"{self.back}/files/{name}"
        os.mkdir(folder)
        os.chmod(folder, 0o777)
        os.setxattr(folder, "trusted.mls", b"public_any")
        subprocess.run([MLSFS, "--levels", folder, *labels], check=True)

    def start(self):
        words = [MLSD, "--socket", self.socket, "--users", f"{self.folder}/users", "--release-on-close", "--", MLS,
                 "serve", "--sessions", "--names", "--recover", "--journal", f"{self.folder}/journal", self.started]
        self.mlsd = subprocess.Popen(words, stdin=subprocess.DEVNULL, stdout=self.log, stderr=self.log,
                                     env={**os.environ, "MLS_PROGRAM": MLS})
        end = time.monotonic() + SECONDS
        while not self.is_there():
            assert self.mlsd.poll() is None and time.monotonic() < end, open(self.log.name, encoding="utf-8").read()
            time.sleep(0.02)

    def is_there(self):
        with socket.socket(socket.AF_UNIX) as probe:
            try:
                probe.connect(self.socket)
            except OSError:
                return False
            return True

    def session(self, user, level=None, back=None, is_twice=False):
        """A login, which has mounted the backing folder; or has tried to twice."""
        words = [MLSFS, "--foreground", "--socket", self.socket, back or self.back, self.mount]
        self.sessions.append(Session(user, self.mount, words, self.log, level, is_twice))
        return self.sessions[-1]

    def ask(self, *lines):
        """Asks as root at mlsd, and returns the answers."""
        with socket.socket(socket.AF_UNIX) as client:
            client.connect(self.socket)
            client.sendall("".join(f"{line}\n" for line in lines).encode())
            client.shutdown(socket.SHUT_WR)
            return client.makefile().read().splitlines()[1:]

    def pool(self, user):
        return POOLS[user]

    def leased(self, user):
        """The subject that a user's pool leased last, by mlsd's sessions file."""
        with open(f"{self.folder}/journal.sessions", encoding="ascii") as file:
            return [line.split()[6] for line in file if " leased " in line and f" {user} " in line][-1]

    def kill_mlsd(self):
        with open(f"/proc/{self.mlsd.pid}/task/{self.mlsd.pid}/children", encoding="ascii") as file:
            core = int(file.read().split()[0])
        self.mlsd.kill()
        self.mlsd.wait(SECONDS)
        while os.path.exists(f"/proc/{core}"):
            time.sleep(0.01)

    def three(self):
        """A session at secret, one at public, and a trusted one at public, of three users."""
        return self.session("games", "secret"), self.session("man"), self.session("sys")

    def end_sessions(self):
        for session in self.sessions:
            session.end()
        self.sessions = []

    def remove(self):
        self.end_sessions()
        if self.mlsd.poll() is None:
            self.mlsd.send_signal(signal.SIGTERM)
            self.mlsd.wait(SECONDS)
        self.log.close()
        shutil.rmtree(self.folder)


def same(rows):
    """Each row is a session, a call of it with its arguments, and what it must come to."""
    for session, name, *arguments, wanted in rows:
        found = getattr(session, name)(*arguments)
        assert found == wanted, f"{name}{tuple(arguments)}: found {found!r}, wanted {wanted!r}"
