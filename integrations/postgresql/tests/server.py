"""A PostgreSQL server of the checks' own: its programs and files in a folder of their own, so that the extension is
installed there and the system's server is left as it is; its socket in that folder; its data new each time."""
import contextlib
import glob
import os
import pwd
import shutil
import subprocess

HERE = os.path.dirname(os.path.realpath(__file__))
SOURCE = os.path.dirname(HERE)
SECONDS = 600
# For what is done once, on a machine that has much else to do.
SLOW_SECONDS = 600
SETTINGS = """
listen_addresses = ''
unix_socket_directories = '{folder}'
shared_preload_libraries = 'mls'
max_connections = 60
max_prepared_transactions = 4
fsync = off
log_line_prefix = '%v %p %u '
log_statement = all
mls.socket = '{folder}/mlsd.sock'
mls.catalog = 'U_hi'
mls.timeout = 30s
"""


def pg_config():
    """The pg_config of the server to be used: the one that PG_CONFIG names, else the newest that is installed."""
    found = glob.glob("/usr/lib/postgresql/*/bin/pg_config") + glob.glob("/usr/pgsql-*/bin/pg_config")
    newest = sorted(found, key=lambda path: float("".join(c for c in path if c.isdigit() or c == ".").strip(".") or 0))
    return os.environ.get("PG_CONFIG") or (newest[-1] if newest else shutil.which("pg_config"))


def configured(option):
    return subprocess.run([pg_config(), option], capture_output=True, text=True, check=True).stdout.strip()


def missing():
    """What of PostgreSQL isn't installed, or None."""
    if not shutil.which(pg_config() or "") or not os.path.exists(configured("--bindir") + "/postgres"):
        return "the PostgreSQL server"
    if not os.path.exists(configured("--includedir-server") + "/postgres.h"):
        return "the PostgreSQL server's headers"
    return next((program for program in ("psql", "make", "cc") if not shutil.which(program)), None)


def database_user():
    """Who runs the server: it refuses root."""
    return pwd.getpwnam("postgres" if os.getuid() == 0 else pwd.getpwuid(os.getuid()).pw_name)


class Server:
    """A server below a folder that anybody may enter."""

    def __init__(self, folder):
        self.folder, self.data, self.log = folder, f"{folder}/data", f"{folder}/server.log"
        self.bin = folder + "/tree" + configured("--bindir")
        self.user, self.sessions = database_user(), []

    def run(self, *words, check=True):
        """Runs a program as the user of the server; what it says is in a file."""
        who = {"user": self.user.pw_uid, "group": self.user.pw_gid, "extra_groups": []} if os.getuid() == 0 else {}
        with open(f"{self.folder}/programs.log", "ab") as log:
            subprocess.run(words, timeout=SLOW_SECONDS, check=check, stdin=subprocess.DEVNULL, stdout=log, stderr=log,
                           cwd=self.folder, **who)

    def build(self):
        """Builds the extension in a copy of its source, installs it into the folder, and returns what the compiler
        said."""
        copy = f"{self.folder}/source"
        shutil.copytree(SOURCE, copy, ignore=shutil.ignore_patterns("*.o", "*.so", "tests"))
        make = ["make", "-s", "-j2", f"PG_CONFIG={pg_config()}"]
        made = subprocess.run(make, cwd=copy, capture_output=True, text=True, check=False)
        assert made.returncode == 0, made.stdout + made.stderr
        install = [*make, "install", f"DESTDIR={self.folder}/tree"]
        subprocess.run(install, cwd=copy, capture_output=True, check=True)
        return made.stdout + made.stderr

    def plant(self):
        """Puts the server's own files beside the extension: programs as copies, since they find the rest from where
        they are."""
        os.makedirs(self.bin, exist_ok=True)
        for program in ("postgres", "initdb", "pg_ctl"):
            shutil.copy2(f"{configured('--bindir')}/{program}", self.bin)
        for option in ("--pkglibdir", "--sharedir"):
            top = configured(option)
            for path, _, files in os.walk(top):
                os.makedirs(f"{self.folder}/tree{path}", exist_ok=True)
                for name in files:
                    if not os.path.lexists(f"{self.folder}/tree{path}/{name}"):
                        os.symlink(f"{path}/{name}", f"{self.folder}/tree{path}/{name}")

    def create(self, settings=""):
        os.mkdir(self.data)
        if os.getuid() == 0:
            os.chown(self.data, self.user.pw_uid, self.user.pw_gid)
            open(self.log, "w").close()
            os.chown(self.log, self.user.pw_uid, self.user.pw_gid)
            os.chmod(self.folder, 0o1777)  # the server makes its socket there
        how = ["-U", "postgres", "-A", "trust", "-E", "UTF8", "--locale=C", "-N"]
        self.run(f"{self.bin}/initdb", "-D", self.data, *how)
        with open(f"{self.data}/postgresql.conf", "a", encoding="utf-8") as file:
            file.write(SETTINGS.format(folder=self.folder) + settings)

    def start(self):
        self.run(f"{self.bin}/pg_ctl", "-D", self.data, "-l", self.log, "-w", "-t", "300", "start")

    def stop(self):
        if os.path.exists(f"{self.data}/postmaster.pid"):
            self.run(f"{self.bin}/pg_ctl", "-D", self.data, "-m", "immediate", "-w", "stop", check=False)

    def set(self, **settings):
        """Changes settings of the extension, and waits until new sessions have them."""
        settings = {f"mls.{name}": value for name, value in settings.items()}
        with open(f"{self.data}/postgresql.conf", "a", encoding="utf-8") as file:
            file.writelines(f"{name} = '{value}'\n" for name, value in settings.items())
        self.reload(**settings)

    def reload(self, **settings):
        """Has the server read its settings, and waits until new sessions have these."""
        self.run(f"{self.bin}/pg_ctl", "-D", self.data, "reload")
        for name, value in settings.items():
            while self.ask("postgres", f"SHOW {name};") != f"{value}\n":
                pass

    @contextlib.contextmanager
    def having(self, **settings):
        """Within it new sessions have these settings of the extension."""
        before = {name: self.ask("postgres", f"SHOW mls.{name};").rstrip("\n") for name in settings}
        self.set(**settings)
        try:
            yield
        finally:
            self.set(**before)

    def psql(self, role, database):
        return ["psql", "-h", self.folder, "-U", role, "-d", database, "-X", "-q", "-A", "-t", "-v", "VERBOSITY=terse"]

    def ask(self, role, sql, database="demo", **streams):
        """What psql shows to a role, errors with it."""
        done = subprocess.run(self.psql(role, database), input=sql, timeout=SECONDS, text=True, stdout=subprocess.PIPE,
                              stderr=subprocess.STDOUT, **streams)
        return done.stdout

    def session(self, role):
        self.sessions.append(Session(self.psql(role, "demo")))
        return self.sessions[-1]

    def end_sessions(self):
        """Ends those that a check left open."""
        for session in self.sessions:
            session.process.kill()
            session.process.communicate()
        self.sessions = []
        # (a backend that computes, or waits, doesn't see that its client is gone)
        self.ask("postgres", "SELECT pg_terminate_backend(pid) FROM pg_stat_activity "
                             "WHERE backend_type = 'client backend' AND pid <> pg_backend_pid();")


class Session:
    """A psql that stays connected."""

    def __init__(self, words):
        self.process = subprocess.Popen(words, stdin=subprocess.PIPE, stdout=subprocess.PIPE, stderr=subprocess.STDOUT,
                                        text=True)

    def send(self, sql):
        self.process.stdin.write(sql + "\n\\echo -- done\n")
        self.process.stdin.flush()

    def answer(self):
        text = ""
        for line in self.process.stdout:
            if line == "-- done\n":
                break
            text += line
        return text

    def ask(self, sql):
        self.send(sql)
        return self.answer()

    def close(self):
        self.process.communicate(timeout=SECONDS)
