"""Shells on a terminal of their own, which are typed to as a user does, for completions."""
import os
import pty
import re
import select
import subprocess
import time

# What a terminal is told beside text.
CONTROLS = re.compile(r"\x1b(?:\[[0-9;?]*[ -/]*[@-~]|[=>]|\][^\x07]*\x07|\([AB0])|\x07")
BEGINNING, END = "\x01", "\x05"


class Shell:
    """An interactive shell in a folder. What is typed is edited by the shell's own line editor."""

    def __init__(self, words, folder, environment, all_matches):
        self.all_matches = all_matches
        ours, theirs = pty.openpty()
        streams = {"stdin": theirs, "stdout": theirs, "stderr": theirs}
        given = {"TERM": "xterm", "LC_ALL": "C.UTF-8", "HOME": folder, "PATH": os.environ["PATH"], **environment}
        self.running = subprocess.Popen(words, cwd=folder, env=given, start_new_session=True, **streams)
        os.close(theirs)
        self.terminal, self.said = ours, ""

    def read_until(self, pattern, seconds=60):
        """Reads until a pattern has come, and returns its match."""
        ends = time.monotonic() + seconds
        while not (found := re.search(pattern, self.said)):
            left = max(0, ends - time.monotonic())
            assert select.select([self.terminal], [], [], left)[0], f"nothing like {pattern} in {self.said!r}"
            self.said = CONTROLS.sub("", self.said + os.read(self.terminal, 65536).decode(errors="replace"))
        self.said = self.said[found.end():]
        return found

    def type(self, text):
        os.write(self.terminal, text.encode())

    def run(self, *lines):
        """Runs lines, and waits until they have ended."""
        for line in lines:
            self.type(f"{line}\n")
        self.type("echo e''nded\n")
        self.read_until(r"[\r\n]ended\r?\n")

    def completed(self, text, key="\t"):
        """What stands on the line once a text was typed and a key struck."""
        self.type(text + key + BEGINNING + "echo 'a''t<" + END + ">'\n")
        return self.read_until(r"[\r\n]at<(.*)>\r?\n")[1]

    def matches(self, text):
        """The words that are completed behind a text, all at once."""
        before, _, word = text.rpartition(" ")
        line = self.completed(text, self.all_matches)
        assert line.startswith(f"{before} "), f"{line!r} behind {text!r}"
        found = line[len(before):].split()
        return [] if found == [word] else found

    def end(self):
        self.running.kill()
        self.running.wait()
        os.close(self.terminal)


def bash(folder, prefix):
    """A bash that loads completions below a prefix, as bash-completion does for all commands."""
    shell = Shell(["bash", "--norc", "--noprofile", "-i"], folder, {"XDG_DATA_DIRS": f"{prefix}/share"}, "\x1b*")
    shell.run("PS1='> '", ". /usr/share/bash-completion/bash_completion")
    return shell


def zsh(folder, prefix):
    """A zsh that looks for completions below a prefix."""
    shell = Shell(["zsh", "-f", "-i"], folder, {}, "\x18a")
    shell.run("PS1='> '", "unsetopt prompt_cr prompt_sp zle_bracketed_paste 2>/dev/null; unset zle_bracketed_paste",
              f"fpath=({prefix}/share/zsh/site-functions $fpath); autoload -U compinit; compinit -u -D",
              "zle -C all-matches complete-word _generic; bindkey '^Xa' all-matches",
              "zstyle ':completion:all-matches::::' completer _all_matches _complete",
              "zstyle ':completion:all-matches:*' insert true")
    return shell
