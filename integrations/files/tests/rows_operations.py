"""The table of operations, without FUSE and without files."""
import subprocess

from world import SOURCE


def test_each_row_of_the_table(_):
    """What askers at two levels and a trusted one are shown; and over a monitor that fails, no yes."""
    done = subprocess.run([f"{SOURCE}/out/rules_test"], capture_output=True, text=True)
    assert done.returncode == 0, done.stdout
