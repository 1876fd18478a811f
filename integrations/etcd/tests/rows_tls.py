"""etcd that only who has a certificate may ask, as DEPLOYING-ETCD.md has it."""
import os
import shutil
import subprocess

from machine import MLS, SOURCE, comes
from mls_replica_client import Session
from network import free_port

USES = "subjectAltName=IP:127.0.0.1\nextendedKeyUsage=serverAuth,clientAuth\n"


def openssl(folder, *words):
    subprocess.run(["openssl", *words], cwd=folder, check=True, capture_output=True)


def certified(folder):
    """Makes an authority, and a certificate of it."""
    new = ["-newkey", "rsa:2048", "-nodes"]
    openssl(folder, "req", "-x509", *new, "-keyout", "ca.key", "-out", "ca.pem", "-subj", "/CN=authority")
    openssl(folder, "req", *new, "-keyout", "m1.key", "-out", "m1.request", "-subj", "/CN=m1")
    with open(f"{folder}/uses", "w", encoding="ascii") as file:
        file.write(USES)
    openssl(folder, "x509", "-req", "-in", "m1.request", "-CA", "ca.pem", "-CAkey", "ca.key", "-CAcreateserial",
            "-out", "m1.pem", "-extfile", "uses")


def begun(folder, words):
    with open(f"{folder}/log", "ab") as log:
        return subprocess.Popen(words, cwd=folder, stdin=subprocess.DEVNULL, stdout=log, stderr=log)


def etcd_words(clients, peers):
    files = ["--trusted-ca-file", "ca.pem", "--cert-file", "m1.pem", "--key-file", "m1.key", "--client-cert-auth"]
    return ["etcd", "--name", "m1", "--data-dir", "data", "--listen-client-urls", f"https://127.0.0.1:{clients}",
            "--advertise-client-urls", f"https://127.0.0.1:{clients}", *files,
            "--listen-peer-urls", f"http://127.0.0.1:{peers}", "--initial-cluster", f"m1=http://127.0.0.1:{peers}",
            "--initial-advertise-peer-urls", f"http://127.0.0.1:{peers}"]


def replica_words(port, name, *more):
    return [f"{SOURCE}/mls-replica", "--name", name, "--etcd", f"127.0.0.1:{port}", "--program", MLS, "--start",
            "start.json", "--journal", f"journal-{name}", "--socket", f"socket-{name}", "--ca", "ca.pem", *more]


def test_etcd_that_asks_for_certificates(world):
    if not shutil.which("openssl"):
        return "openssl is not installed"
    folder = f"{world.folder}/tls"
    os.mkdir(folder)
    certified(folder)
    shutil.copy(world.start, f"{folder}/start.json")
    port, runs = free_port(), []
    try:
        runs.append(begun(folder, etcd_words(port, free_port())))
        runs.append(begun(folder, replica_words(port, "m1", "--certificate", "m1.pem", "--key", "m1.key")))
        comes(lambda: os.path.exists(f"{folder}/socket-m1"))
        with Session([f"{folder}/socket-m1"]) as session:
            assert session.ask("ann get-read plans") == "yes 0"
        runs.append(begun(folder, replica_words(port, "m2")))
        comes(lambda: b"certificate" in open(f"{folder}/log", "rb").read())
        assert not os.path.exists(f"{folder}/socket-m2")
    finally:
        for run in runs:
            run.kill()
            run.wait()
    return None
