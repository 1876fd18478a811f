"""Runs a command in a system below a folder, as the first process of namespaces of its own: see systems.py.

    inside.py SYSTEM WORD ..
"""
import fcntl
import os
import socket
import struct
import subprocess
import sys

SIOCGIFFLAGS, SIOCSIFFLAGS, UP = 0x8913, 0x8914, 1
DEVICES = ("null", "zero", "full", "random", "urandom", "tty")
ENVIRONMENT = {"PATH": "/usr/sbin:/usr/bin:/sbin:/bin", "HOME": "/root", "USER": "root", "LC_ALL": "C.UTF-8",
               "DEBIAN_FRONTEND": "noninteractive"}  # fmt: skip


def begin_loopback():
    with socket.socket(socket.AF_INET, socket.SOCK_DGRAM) as sock:
        flags = struct.unpack("16sh", fcntl.ioctl(sock, SIOCGIFFLAGS, struct.pack("16sh", b"lo", 0)))[1]
        fcntl.ioctl(sock, SIOCSIFFLAGS, struct.pack("16sh", b"lo", flags | UP))


def mount(*words):
    subprocess.run(["mount", *words], check=True)


def mount_devices(folder):
    mount("-t", "tmpfs", "devices", folder)
    for name in DEVICES:
        open(f"{folder}/{name}", "wb").close()
        mount("--bind", f"/dev/{name}", f"{folder}/{name}")
    os.symlink("/proc/self/fd", f"{folder}/fd")
    os.mkdir(f"{folder}/shm")
    os.chmod(f"{folder}/shm", 0o1777)


def main(system, *words):
    begin_loopback()
    mount("-t", "proc", "proc", f"{system}/proc")
    mount_devices(f"{system}/dev")

    def enter():
        os.chroot(system)
        os.chdir("/root")

    # (this process has another root, by which systemctl knows; what a command leaves behind ends with this one)
    done = subprocess.run(words, env=ENVIRONMENT, preexec_fn=enter)
    os._exit(done.returncode if done.returncode >= 0 else 128 - done.returncode)


main(*sys.argv[1:])
