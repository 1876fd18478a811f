"""What the checks begin with: a server with the extension, a monitor, roles, and a table with a row at each of five
labels."""
import atexit
import contextlib
import os
import shutil
import signal
import sys
import tempfile

from monitor import Monitor
from server import Server

ROLES = """
CREATE ROLE keeper NOLOGIN; CREATE ROLE ann LOGIN; CREATE ROLE bob LOGIN; CREATE ROLE eve LOGIN; CREATE ROLE sec LOGIN;
CREATE ROLE app LOGIN; CREATE DATABASE demo;
"""
TABLES = """
CREATE EXTENSION mls;
CREATE SCHEMA d AUTHORIZATION keeper; GRANT USAGE, CREATE ON SCHEMA d TO public;
ALTER DATABASE demo SET search_path = d;
SET search_path = d;
SET ROLE keeper;
CREATE TABLE docs (id int PRIMARY KEY, label mls.label NOT NULL, body text NOT NULL);
CALL mls.protect('docs');
GRANT SELECT, INSERT, UPDATE, DELETE ON docs TO ann, bob, eve, sec;
CREATE TABLE scratch (note text);
GRANT ALL ON scratch TO ann, bob, eve, sec;
RESET ROLE;
GRANT EXECUTE ON FUNCTION mls.session() TO ann;
"""
ROWS = """
TRUNCATE docs, scratch;
INSERT INTO docs VALUES (1, 'U_hi', 'lunch at noon'), (2, 'C_hi', 'budget draft'), (3, 'S_hi', 'attack at dawn'),
  (4, 'S-A_hi', 'agents in A'), (5, 'U_lo', 'a rumour');
"""


def begun(settings="", flags=()):
    """A world in a new folder, which is gone with all that runs in it when this program ends, or is told to end."""
    signal.signal(signal.SIGTERM, lambda *_: sys.exit(143))
    folder = tempfile.mkdtemp(prefix="mls-pg-", dir="/tmp")
    os.chmod(folder, 0o755)
    world = World(folder)
    atexit.register(world.remove)
    world.build(settings, flags)
    return world


class World:
    """A server and its monitor, in a folder."""

    def __init__(self, folder):
        self.folder, self.server, self.monitor, self.said = folder, Server(folder), Monitor(folder), None

    def build(self, settings, flags):
        self.monitor.flags = flags
        self.monitor.write_start()
        self.said = self.server.build()
        self.server.plant()
        self.server.create(settings)
        self.monitor.start()
        self.server.start()
        self.server.ask("postgres", ROLES, "postgres")
        said = self.server.ask("postgres", TABLES)
        assert said == "", said

    def begin(self):
        """The rows as at first, and everybody's level as in the start; no session of another check."""
        self.server.end_sessions()
        self.monitor.settle()
        said = self.server.ask("postgres", "SET client_min_messages = error;" + ROWS)
        assert said == "", said
        assert self.monitor.ask("ann level U\nbob level U\nsec level U\n") == ["yes"] * 3

    def ask(self, role, sql):
        return self.server.ask(role, sql)

    @contextlib.contextmanager
    def opened(self, setting):
        """Within it a setting of the extension that opens something is on, in new sessions."""
        self.ask("postgres", f"ALTER DATABASE demo SET mls.{setting} = on;")
        try:
            yield
        finally:
            self.ask("postgres", f"ALTER DATABASE demo RESET mls.{setting};")

    def same(self, rows):
        """Each row is a role, what it types, and what it must be shown."""
        for role, sql, due in rows:
            found = self.ask(role, sql)
            assert found == due, f"{role}: {sql}\n found {found!r}\n wanted {due!r}"

    def remove(self):
        self.server.end_sessions()
        self.server.stop()
        self.monitor.stop()
        shutil.rmtree(self.folder)
