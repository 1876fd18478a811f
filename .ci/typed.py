"""The commands of a document, as somebody types them: the lines that are indented by four. Behind `$ ` stands a
command, and below it what is printed; a block without such a line has commands alone, which must end well."""
import re
import subprocess

# Lines for bash before all commands: what is typed must end well, and what is begun gets its time.
BEGIN = """set -e -o pipefail
serves() { for _ in $(seq 6000); do [ -S "$1" ] && return; sleep 0.1; done; echo "$1 doesn't come" >&2; return 1; }
"""
MARK = "-- command %d --"


def blocks(text, headings):
    """The indented blocks below these headings of a page, each as its lines; `text` is the page's."""
    found, heading, block = [], "", []
    for line in [*text.splitlines(), "#"]:
        if line.startswith("#"):
            heading = line.lstrip("# ")
        if line.startswith("    ") or block and not line:
            block += [line[4:]] if heading in headings else []
        elif block:
            found.append("\n".join(block).rstrip("\n").split("\n"))
            block = []
    return found


def is_whole(command):
    """Whether bash has all of a command: no quote, line or text of its input lacks its end."""
    done = subprocess.run(["bash", "-n"], input=command, capture_output=True, text=True)
    return done.returncode == 0 and not done.stderr and not command.rstrip("\n").endswith("\\")


def commands(block):
    """A block's commands, each with what is printed below it: None where that isn't told."""
    if not any(line.startswith("$ ") for line in block):
        return [("\n".join(block), None)]
    found, lines = [], list(block)
    while lines:
        command, printed = lines.pop(0)[2:], []
        while not is_whole(command + "\n"):
            command += "\n" + lines.pop(0)
        while lines and not lines[0].startswith("$ "):
            printed.append(lines.pop(0))
        found.append((command, "\n".join(printed) if printed else None))
    return found


def script(all_commands):
    """What bash is to run, with a line before each command, and after one that serves a wait for its socket."""
    found = BEGIN
    for number, (command, _) in enumerate(all_commands):
        found += f"echo '{MARK % number}'\n{command}\n"
        if command.endswith("&"):
            found += "".join(f"serves {it}\n" for it in re.findall(r"--socket (\S+)", command))
    return found + f"echo '{MARK % len(all_commands)}'\n"


def bare(text):
    """Without spaces at the ends of lines, which a document hasn't, and without empty lines around it."""
    return "\n".join(line.rstrip() for line in text.splitlines()).strip("\n")


def judge(all_commands, said):
    """Whether all was typed, and printed what the document has."""
    for number, (command, printed) in enumerate(all_commands):
        mark, after = MARK % number + "\n", MARK % (number + 1)
        part = said.partition(mark)[2]
        assert after in part, f"{command}: it doesn't end well: {part[-2000:]}"
        found = bare(part.partition(after)[0])
        assert printed is None or found == bare(printed), f"{command}: it prints {found!r}, and not {bare(printed)!r}"
