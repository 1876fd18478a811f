"""What bin/prove, bin/test, bin/mutants and .ci/run know of the crates and of this machine; and how bin/prove has the
toolchain build crates side by side.

rt builds one library after the other, for it locks the folders of all that lie below. So each library is built in a
room: a folder with copies of the sources that it needs, and with links to what is built of the libraries below it. What
comes of that is moved to the library's own out/, where rt finds it: rt knows what is built by a sum of the sources,
wherever they lie.
"""
import fcntl
import os
import shutil
import subprocess
import sys

TOP = os.path.dirname(os.path.dirname(os.path.realpath(__file__)))
ROOMS = f"{TOP}/out/rooms"
SOURCES = ("src", "specs", "proofs")
# What a build keeps in out/ of a library.
BUILT = ("rlib", "incremental")
# What a check of a crate may take, in bytes.
MEMORY_OF_A_CHECK = 3_000_000_000
BAR = 20


def rows_of_crates():
    """The rows of crates.txt, by the names of the crates."""
    with open(f"{TOP}/crates.txt", encoding="utf-8") as file:
        rows = [line for line in file if not line.startswith("#") and ":" in line]
    return {row.partition(":")[0].split()[0]: row for row in rows}


def listed():
    """The crates of crates.txt, each with those of them that it uses."""
    rows = rows_of_crates()
    return {name: [it for it in row.partition(":")[2].split() if it in rows] for name, row in rows.items()}


def below(name, crates):
    """All libraries below a crate, each after those that it uses."""
    found = []
    for dep in crates[name]:
        found += [it for it in [*below(dep, crates), dep] if it not in found]
    return found


def is_program(name):
    return os.path.exists(f"{TOP}/crates/{name}/src/main.rt")


def lines_of(name, parts=SOURCES):
    """How many lines these parts of a crate have: a measure of how long a check of it takes."""
    count = 0
    for part in parts:
        for folder, _, names in os.walk(f"{TOP}/crates/{name}/{part}"):
            for it in names:
                with open(f"{folder}/{it}", "rb") as file:
                    count += file.read().count(b"\n")
    return count


def processors():
    """How many processors this run may use, by its mask and by the quota of its control group."""
    count = len(os.sched_getaffinity(0))
    try:
        with open("/sys/fs/cgroup/cpu.max", encoding="ascii") as file:
            quota, period = map(int, file.read().split())
        return max(1, min(count, quota // period))
    except (OSError, ValueError):
        # (there is no such group, or no quota)
        return count


def lanes():
    """How many checks of crates may run side by side: RT_JOBS, or one a processor, and at most one for each 3 GB that
    is free."""
    jobs = os.environ.get("RT_JOBS", "")
    if jobs.isdigit() and int(jobs) > 0:
        return int(jobs)
    with open("/proc/meminfo", encoding="ascii") as file:
        free = next(int(line.split()[1]) * 1024 for line in file if line.startswith("MemAvailable:"))
    return max(1, min(processors(), free // MEMORY_OF_A_CHECK))


def built(*words):
    """Runs bin/built, and returns its status, what it prints and what it says of a fault."""
    done = subprocess.run([f"{TOP}/bin/built", *words], stdin=subprocess.DEVNULL, capture_output=True, text=True)
    return done.returncode, done.stdout.strip(), done.stderr


def minutes(seconds):
    return f"{int(seconds) // 60} min {int(seconds) % 60} s"


def draw(part, text):
    """Draws a bar on the terminal of which a part is done, and a text behind it."""
    bar = "#" * int(BAR * part)
    sys.stderr.write("\r\033[K" + f"[{bar:.<{BAR}}] {text}"[: os.get_terminal_size(2).columns - 1])
    sys.stderr.flush()


def compile_static(name, target):
    """Proves a static library over the libraries as rt ci leaves them in out/ where none stood before, and compiles it.
    (rt lib would prove those again, since rt ci marks none as built.) Returns what the compiler said where that failed,
    else nothing."""
    kit = os.path.dirname(subprocess.run(["rt", "doc"], check=True, stdout=subprocess.PIPE, text=True).stdout.strip())
    crates, rows = listed(), rows_of_crates()
    words = ["--crate-name", name, "src/lib.rt", "--crate-type", "staticlib", "--links", f"{name}=", "--jobs", "1"]
    words += ["--antt-project", f"{kit}/rattle/logic/antt-project.json", "--logic-built", f"{kit}/logic_built"]
    words += ["--toolchain", f"{kit}/toolchain", "-L", f"dependency={kit}/rlibs", "-o", target]
    for it in ["std", *rows[name].partition(":")[2].split()]:
        folder = f"{TOP}/crates/{it}/out/rlib" if it in crates else f"{kit}/rlibs"
        words += ["--extern", f"{it}={folder}/{it}.rlib"]
    for it in below(name, crates):
        words += ["-L", f"dependency={TOP}/crates/{it}/out/rlib"]
    streams = {"stdin": subprocess.DEVNULL, "stdout": subprocess.PIPE, "stderr": subprocess.STDOUT}
    done = subprocess.run([f"{kit}/bin/rattle", "build", *words], cwd=f"{TOP}/crates/{name}", text=True, **streams)
    return done.stdout if done.returncode else ""


def copy_sources(name, room):
    """Copies a crate's sources and its row of crates.txt into a room."""
    with open(f"{room}/crates.txt", "a", encoding="utf-8") as file:
        file.write(rows_of_crates()[name])
    for part in SOURCES:
        if os.path.isdir(f"{TOP}/crates/{name}/{part}"):
            shutil.copytree(f"{TOP}/crates/{name}/{part}", f"{room}/crates/{name}/{part}")


def move_built(name, source, target):
    """Moves what is kept of a library's build from one folder's crates to another's."""
    os.makedirs(f"{target}/crates/{name}/out", exist_ok=True)
    for it in BUILT:
        kept, to = f"{source}/crates/{name}/out/{it}", f"{target}/crates/{name}/out/{it}"
        if os.path.isdir(kept):
            shutil.rmtree(to, ignore_errors=True)
            os.rename(kept, to)


def clear_rooms():
    """Removes the rooms that a killed run left, and first puts back what it had moved there."""
    for name in os.listdir(ROOMS) if os.path.isdir(ROOMS) else ():
        if os.path.isdir(f"{TOP}/crates/{name}"):
            move_built(name, f"{ROOMS}/{name}", TOP)
    shutil.rmtree(ROOMS, ignore_errors=True)
    os.makedirs(ROOMS)


class Toolchain:
    """Runs commands of the toolchain, some side by side, and ends them where this run is told to end. Each holds the
    run's lock as long as it runs, so that no other run begins meanwhile where this one is killed."""

    def __init__(self, lock):
        self.lock, self.running, self.is_ended = lock, set(), False

    def fault(self, words, folder):
        """Runs a command in a folder. Returns what it said where it failed, else nothing."""
        if self.is_ended:
            return "stopped"
        streams = {"stdin": subprocess.DEVNULL, "stdout": subprocess.PIPE, "stderr": subprocess.STDOUT}
        tool = subprocess.Popen(words, cwd=folder, pass_fds=[self.lock.fileno()], errors="replace", **streams)
        self.running.add(tool)
        said = tool.communicate()[0]
        self.running.discard(tool)
        said = said or f"{' '.join(words)}: status {tool.returncode}"
        return said if tool.returncode else ""

    def end(self):
        self.is_ended = True
        for tool in [*self.running]:
            tool.terminate()


def build_library(name, crates, jobs, toolchain):
    """Builds a library whose libraries are built. Returns what the toolchain said where that failed, else nothing."""
    room = f"{ROOMS}/{name}"
    os.makedirs(room)
    for it in [*below(name, crates), name]:
        copy_sources(it, room)
    for it in below(name, crates):
        built = f"crates/{it}/out/rlib"
        shutil.copytree(f"{TOP}/{built}", f"{room}/{built}", copy_function=os.link)
    folder = os.open(f"{TOP}/crates/{name}", os.O_RDONLY)
    try:
        # (as rt does, so that no rt works on this crate meanwhile)
        fcntl.flock(folder, fcntl.LOCK_EX)
        move_built(name, TOP, room)
        fault = toolchain.fault(["rt", "lib", "--jobs", str(jobs)], f"{room}/crates/{name}")
        move_built(name, room, TOP)
    finally:
        os.close(folder)
    shutil.rmtree(room)
    return fault


def build_last(name, jobs, toolchain):
    """Builds a crate in place, and runs a program once, on nothing. Returns as build_library does."""
    verb = "run" if is_program(name) else "lib"
    return toolchain.fault(["rt", verb, "--jobs", str(jobs)], f"{TOP}/crates/{name}")
