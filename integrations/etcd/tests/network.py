"""The machines' network: a namespace for each, with a bridge between them, where that can be made; else ports of the
loopback, where no machine can be cut off."""
import os
import socket
import subprocess
import tempfile

MACHINES = (1, 2, 3)


def ran(*words):
    subprocess.run(words, check=True, stdin=subprocess.DEVNULL, stdout=subprocess.DEVNULL, stderr=subprocess.DEVNULL)


class Namespaces:
    """Machine K has the address 10.77.0.K behind the end vK of the bridge's namespace."""

    can_cut = True

    def __init__(self):
        self.word = f"mls-{os.getpid()}"
        self.hub = f"{self.word}-hub"
        try:
            self.build()
        except BaseException:
            self.remove()
            raise

    def build(self):
        ran("ip", "netns", "add", self.hub)
        ran("ip", "-n", self.hub, "link", "add", "br0", "type", "bridge")
        ran("ip", "-n", self.hub, "addr", "add", "10.77.0.100/24", "dev", "br0")
        ran("ip", "-n", self.hub, "link", "set", "br0", "up")
        for k in MACHINES:
            own = f"{self.word}-{k}"
            ran("ip", "netns", "add", own)
            ran("ip", "-n", self.hub, "link", "add", f"v{k}", "type", "veth", "peer", "name", "eth0", "netns", own)
            ran("ip", "-n", self.hub, "link", "set", f"v{k}", "master", "br0", "up")
            ran("ip", "-n", own, "addr", "add", f"10.77.0.{k}/24", "dev", "eth0")
            for link in ("lo", "eth0"):
                ran("ip", "-n", own, "link", "set", link, "up")

    def remove(self):
        for name in (f"{self.word}-{k}" for k in MACHINES):
            subprocess.run(["ip", "netns", "del", name], check=False, stderr=subprocess.DEVNULL)
        subprocess.run(["ip", "netns", "del", self.hub], check=False, stderr=subprocess.DEVNULL)

    def on(self, k):
        """The words that run a program on a machine; 0 is none of them, which reaches all."""
        return ["ip", "netns", "exec", f"{self.word}-{k}" if k else self.hub]

    def clients(self, k):
        return f"10.77.0.{k}:2379"

    def peers(self, k):
        return f"10.77.0.{k}:2380"

    def cut(self, k):
        ran("ip", "-n", self.hub, "link", "set", f"v{k}", "down")

    def heal(self, k):
        ran("ip", "-n", self.hub, "link", "set", f"v{k}", "up")


class Loopback:
    """Machine K has two ports of the loopback."""

    can_cut = False

    def __init__(self):
        self.base = 20_000 + os.getpid() * 7 % 10_000

    def remove(self):
        pass

    def on(self, k):
        return []

    def clients(self, k):
        return f"127.0.0.1:{self.base + 2 * k}"

    def peers(self, k):
        return f"127.0.0.1:{self.base + 2 * k + 1}"


def free_port():
    """A port of the loopback that nobody has."""
    with socket.socket() as sock:
        sock.bind(("127.0.0.1", 0))
        return sock.getsockname()[1]


def network():
    if os.geteuid() != 0:
        return Loopback()
    try:
        found = Namespaces()
    except (OSError, subprocess.SubprocessError):
        return Loopback()
    return found
