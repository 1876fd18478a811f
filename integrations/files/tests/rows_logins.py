"""Logins by PAM: su, with a PAM folder of the checks', begins a session by pam_mls and the script that it runs."""
import os
import shutil
import subprocess

from world import MLSFS, SOURCE, Skipped, same

PAM = f"""auth required pam_rootok.so
auth optional {SOURCE}/out/pam_mls.so
account required pam_permit.so
session required pam_loginuid.so
session required {SOURCE}/out/pam_mls.so """


def lay(world, socket):
    """A PAM folder, and mls-login with the folders of the checks."""
    if not os.path.exists(f"{SOURCE}/out/pam_mls.so") or not shutil.which("su"):
        raise Skipped("libpam0g-dev or su is not installed")
    with open(f"{SOURCE}/mls-login", encoding="ascii") as file:
        script = file.read().replace("/usr/libexec/mlsfs", f"{MLSFS} --socket {socket}")
    script = script.replace("/var/lib/mlsfs/home /home", f"{world.back} {world.mount}")
    script = script.replace("/home/.mls", f"{world.mount}/.mls").replace("/tmp /var/tmp", "/var/tmp")
    program = f"{world.folder}/login"
    with open(program, "w", encoding="ascii") as file:
        file.write(script)
    os.chmod(program, 0o755)
    os.makedirs(f"{world.folder}/pam.d", exist_ok=True)
    with open(f"{world.folder}/pam.d/su", "w", encoding="ascii") as file:
        print(PAM + program, file=file)
    subprocess.run(["mount", "--bind", f"{world.folder}/pam.d", "/etc/pam.d"], check=True)


def log_in(user, level, script):
    words = ["su", user, "-s", "/bin/sh", "-c", script]
    done = subprocess.run(words, input=f"{level}\n", capture_output=True, text=True)
    return done.returncode == 0, done.stdout


def test_a_login_by_pam(world):
    """It asks the level, which the session has; a level that is denied, or no mlsd, is no session."""
    lay(world, world.socket)
    try:
        script = f"cat {world.mount}/.mls; ls /dev/shm; cat /proc/locks"
        found = [log_in(user, level, script) for user, level in (
            ("games", "secret"), ("games", ""), ("man", "secret"), ("man", "public"), ("games", "none such"))]
        wanted = [(True, "games secret\n"), (True, "games public\n"), (False, ""), (True, "man public\n"), (False, "")]
        assert found == wanted, found
        same([(world.session("man"), "put", "f", b"public", "put")])
        assert log_in("games", "secret", f"cd {world.mount} && cat f && ! echo x 2>/dev/null >f") == (True, "public")
    finally:
        subprocess.run(["umount", "/etc/pam.d"], check=True)


def test_a_login_without_mlsd(world):
    lay(world, f"{world.folder}/nowhere")
    try:
        assert log_in("games", "", "echo in") == (False, "")
    finally:
        subprocess.run(["umount", "/etc/pam.d"], check=True)
