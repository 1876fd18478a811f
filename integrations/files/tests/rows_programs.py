"""Programs that nobody here wrote, in a folder of a session: at public, and at secret over what is public."""
import shutil
import subprocess

from world import Skipped, same

GIT = "git -c user.name=a -c user.email=a@b -c init.defaultBranch=main -c safe.directory=*"
# At one level: each line must end well.
ALONE = {
    "git": f"""{GIT} init -q r && cd r && for k in $(seq 200); do echo $k > f$k; done && {GIT} add -A &&
{GIT} commit -qm one && {GIT} mv f1 g1 && {GIT} commit -qam two && {GIT} worktree add -q ../w HEAD~1 &&
test -f ../w/f1 && {GIT} gc -q && {GIT} fsck --strict && test -z "$({GIT} status -s)" &&
{GIT} clone -q . ../c && diff -r f2 ../c/f2""",
    "sqlite3": """sqlite3 a.db 'PRAGMA journal_mode=WAL; CREATE TABLE t (k, v);' && for k in 1 2 3 4 5; do
(for n in $(seq 20); do sqlite3 -cmd '.timeout 20000' a.db "INSERT INTO t VALUES ($k, $n)" || exit 1; done) &
done; wait
test "$(sqlite3 a.db 'SELECT count(*) FROM t')" = 100 && test "$(sqlite3 a.db 'PRAGMA integrity_check')" = ok &&
sqlite3 b.db 'CREATE TABLE t (v); BEGIN; INSERT INTO t VALUES (1); ROLLBACK; SELECT count(*) FROM t'""",
    "gcc": """echo 'int f(void); int main(void) { return f(); }' > a.c && echo 'int f(void) { return 7; }' > b.c &&
gcc -O2 -c b.c && ar rcs libb.a b.o && gcc -O2 a.c -L. -lb -o a; ./a; test $? = 7 && rm a""",
    "tar": """mkdir -p d/e && seq 20000 > d/e/n && ln -s n d/e/l && ln d/e/n d/e/h && tar czf d.tgz d && mkdir x &&
tar xzf d.tgz -C x && diff -r d x/d && test "$(stat -c %h x/d/e/h)" = 2 && cp -a d y && diff -r d y""",
    "rsync": """mkdir -p p/e && seq 20000 > p/e/n && ln -s n p/e/l && rsync -a p/ z && diff -r p z &&
echo more >> p/e/n && rsync -a --delete p/ z && cmp p/e/n z/e/n && test -z "$(rsync -ain p/ z)" """,
    "flock": """exec 9> lock && flock -n 9 && ! flock -n lock true && flock -u 9 && flock -n lock true""",
}
# At secret over public files: what it does there, and whether it ends well.
ABOVE = [(f"cd r && {GIT} log --oneline && {GIT} diff HEAD~1 --stat", True),
         (f"{GIT} clone -q r s/c && cd s/c && echo x > f2 && {GIT} commit -qam three", True),
         (f"cd r && {GIT} commit --allow-empty -qm leak", False), ("tar czf s/r.tgz r", True),
         ("tar czf r.tgz s", False), ("cp -r r s/r2 && diff -r r s/r2", True), ("rsync -a r/ s/r3", True),
         ("rsync -a s/ t", False), ("sqlite3 b.db 'INSERT INTO t VALUES (2)'", False),
         ("sqlite3 'file:b.db?immutable=1' 'SELECT count(*) FROM t'", True),
         ("gcc a.c b.c -o s/a; s/a; test $? = 7", True),
         ("gcc a.c b.c -o a", False)]


def run(session, name, script, is_well):
    status, said = session.run(["bash", "-c", f"export HOME=$PWD; {script}"])
    assert (status == 0) == is_well, f"{name}: status {status}: {said[-300:]}"


def test_programs(world):
    """git, sqlite3 with five writers, gcc, tar, rsync and flock at one level, and above what is public."""
    missing = [name for name in ALONE if not shutil.which(name)]
    ann = world.session("games")
    for name, script in ALONE.items():
        if name not in missing:
            run(ann, name, script, True)
    same([(ann, "mkdir", "s", 0o777, None), (ann, "setxattr", "s", "user.mls", b"secret_any", None),
          (ann, "put", ".mls", b"secret\n", "put")])
    for script, is_well in ABOVE:
        if script.split()[0] not in missing:
            run(ann, script, script, is_well)
    return f"ok, without {', '.join(missing)}" if missing else "ok"


def test_pythons_own(world):
    """The tests of Python's library that are of files, but for those of access times, pipes and sockets."""
    if subprocess.run(["/usr/bin/python3", "-c", "import test.test_posix"], capture_output=True).returncode:
        raise Skipped("Python's own tests (libpython3.11-testsuite) are not installed")
    ann = world.session("games")
    modules = "test_posix test_pathlib test_tempfile test_mmap test_fileio test_fcntl test_tarfile test_zipfile " \
              "test_glob test_dbm_dumb test_stat test_shutil test_largefile test_mailbox"
    status, said = ann.run(["bash", "-c", f"export HOME=$PWD TMPDIR=$PWD; /usr/bin/python3 -m test {modules} 2>&1"])
    failed = [line for line in said.splitlines() if line.startswith(("FAIL:", "ERROR:"))]
    ended = [line for line in said.splitlines() if line.startswith(("Tests result", "Result:"))]
    assert ended, said[-300:]
    return f"ok: {len(failed)} that fail: {failed}"
