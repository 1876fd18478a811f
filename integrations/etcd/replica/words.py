"""The words of the command lines."""
import argparse
import ssl

USAGE = """%(prog)s --name NAME --etcd HOST:PORT,.. --program MLS --start START --journal FILE --socket PATH
                   [--every N] [--ca FILE --certificate FILE --key FILE]"""


def ends(text):
    """The addresses of etcd's members."""
    return [(host, int(port)) for host, _, port in (end.rpartition(":") for end in text.split(","))]


def add_etcd(reader):
    reader.add_argument("--etcd", required=True, type=ends, help="etcd's members, that of this machine first")
    reader.add_argument("--ca", help="who signs the members' certificates: etcd is asked by TLS")
    reader.add_argument("--certificate", help="this machine's certificate")
    reader.add_argument("--key", help="the certificate's key")


def tls_of(words):
    """How etcd is asked by TLS; None where it isn't."""
    if not words.ca:
        return None
    found = ssl.create_default_context(cafile=words.ca)
    if words.certificate:
        found.load_cert_chain(words.certificate, words.key)
    return found


def parse(args=None):
    reader = argparse.ArgumentParser(prog="mls-replica", usage=USAGE, allow_abbrev=False)
    reader.add_argument("--name", required=True, help="this machine's name, another for each")
    reader.add_argument("--program", required=True, help="the program mls")
    reader.add_argument("--start", required=True, help="the start file, the same on each machine")
    reader.add_argument("--journal", required=True, help="the journal, which `mls serve` makes")
    reader.add_argument("--socket", required=True, help="where clients of this machine connect, mode 0600")
    reader.add_argument("--every", type=int, default=5_000, help="a checkpoint after so many entries (5,000)")
    add_etcd(reader)
    return reader.parse_args(args)
