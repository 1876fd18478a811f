"""The first policy that mls init writes, and the start files that mls complete prints: rows by hand."""
import copy
import json
import os
import shutil
import subprocess

from asking import GONE, asks, shown_below
from outside import EXAMPLES, example, in_its_folder, put, ran_program, same

_, refused, not_understood = asks()
NAMES = ["start.json", "start.jsonnet", "day.script", "README.md"]
DAY = b"session 0\nyes\nno star\nno star\nyes\nyes\nyes\ncreated 6\nyes\nyes\nentries 9\nsecure yes\n"


def content(name):
    with open(name, "rb") as file:
        return file.read()


def first_policy():
    """Four files, which check, run and lint take; what is there isn't touched."""
    told = "".join(f"archive/{it}\n" for it in NAMES) + "next: mls check archive/start.json\n"
    same(ran_program(["init", "archive"]), (0, told.encode(), b""))
    same(sorted(os.listdir("archive")), sorted(NAMES))
    start = json.loads(content("archive/start.json"))
    same((len(start["subjects"]), len(start["objects"])), (3, 6))
    same(ran_program(["check", "archive/start.json"])[0], 0)
    same(ran_program(["lint", "archive/start.json"]), (0, b"", b""))
    same(ran_program(["run", "archive/start.json", "archive/day.script"]), (0, DAY, b""))
    page = content("archive/README.md").decode()
    members = {key for rows in (start["subjects"], start["objects"]) for row in rows for key in row}
    for member in members | set(start) | {"accesses", "profile", "levels", "categories"}:
        assert f"`{member}`" in page, f"README.md doesn't explain {member}"
    before = {it: content(f"archive/{it}") for it in NAMES}
    refused(["init", "archive"], "archive/start.json: there already, and nothing is written")
    for name in NAMES:
        shutil.rmtree("other", ignore_errors=True)
        os.mkdir("other")
        put(f"other/{name}", b"mine\n")
        refused(["init", "other"], f"other/{name}: there already, and nothing is written")
        same((os.listdir("other"), content(f"other/{name}")), ([name], b"mine\n"))
    os.mkdir("linked")
    os.symlink("nowhere", "linked/README.md")
    refused(["init", "linked"], "linked/README.md: there already, and nothing is written")
    same(before, {it: content(f"archive/{it}") for it in NAMES})
    refused(["init", "none/here"], f"none/here: {GONE}")
    put("file", b"")
    refused(["init", "file"], "file: not a folder")
    not_understood(["init", "a", "b"])


def first_policy_here():
    same(ran_program(["init"])[:2], (0, ("".join(f"./{it}\n" for it in NAMES) + "next: mls check ./start.json\n").encode()))


def first_policy_in_jsonnet():
    """The Jsonnet text makes the start file, where jsonnet is installed."""
    same(ran_program(["init", "."])[0], 0)
    if shutil.which("jsonnet"):
        done = subprocess.run(["jsonnet", "start.jsonnet"], capture_output=True, check=True)
        same(json.loads(done.stdout), json.loads(content("start.json")))


def filled(short):
    """What a short start file means, as a start file: worked out as FORMATS.md says."""
    whole = copy.deepcopy(short)
    whole.setdefault("integrity", {"levels": ["any"]})
    for scheme in (whole["security"], whole["integrity"]):
        scheme.setdefault("categories", [])
    least = whole["integrity"]["levels"][0]
    for subject in whole["subjects"]:
        for key, value in (("current", subject["maximum"]), ("integrity", least), ("trusted", False)):
            subject.setdefault(key, value)
    for number, it in enumerate(whole["objects"]):
        it.setdefault("integrity", least)
        it.setdefault("parent", whole["objects"][0]["name"] if number else None)
    for key in ("matrix", "accesses"):
        whole.setdefault(key, [])
    whole.setdefault("profile", 1)
    return whole


def ordered(start):
    """A start file with each cell once, its modes in their order, by subject and object; what complete prints is so."""
    names = {"subject": [it["name"] for it in start["subjects"]], "object": [it["name"] for it in start["objects"]]}
    for key in ("matrix", "accesses"):
        cells = {}
        for cell in start[key]:
            place = names["subject"].index(cell["subject"]), names["object"].index(cell["object"])
            cells.setdefault(place, set()).update(cell["modes"])
        modes = ("execute", "read", "append", "write")
        start[key] = [{"subject": names["subject"][s], "object": names["object"][o], "modes": [it for it in modes if it in cells[s, o]]}
                      for s, o in sorted(cells) if cells[s, o]]
    return start


SHORT = {"security": {"levels": ["open", "secret"]}, "subjects": [{"name": "eva", "maximum": "secret"}], "objects": [{"name": "root", "security": "open"}]}
# What makes other short files of it: each adds or changes members.
MORE = [
    {}, {"matrix": []}, {"matrix": [{"subject": "eva", "object": "root", "modes": ["write", "read", "read"]}]},
    {"integrity": {"levels": ["lo", "hi"], "categories": ["x"]}}, {"integrity": {"levels": ["lo"]}}, {"profile": 2},
    {"subjects": [{"name": "eva", "maximum": "secret", "current": "open"}, {"name": "tom", "maximum": "open", "trusted": True}]},
    {"objects": [{"name": "root", "security": "open", "parent": None}, {"name": "will", "security": "secret"},
                 {"name": "copy", "security": "secret", "parent": "will"}]},
    {"accesses": [{"subject": "eva", "object": "root", "modes": ["read"]}], "matrix": [{"subject": "eva", "object": "root", "modes": ["read"]}]},
    {"integrity": {"levels": ["lo", "hi"]}, "subjects": [{"name": "eva", "maximum": "secret", "integrity": "hi"}],
     "objects": [{"name": "root", "security": "open", "integrity": "hi"}]},
]


def start_files_that_are_completed():
    """What is printed is what the short file means, and check takes it."""
    for more in MORE:
        short = {**SHORT, **more}
        put("short.json", json.dumps(short).encode())
        status, output, error = ran_program(["complete", "short.json"])
        same((short, status, error), (short, 0, b""))
        same((short, json.loads(output)), (short, ordered(filled(short))))
        put("whole.json", output)
        same((short, ran_program(["check", "whole.json"])[0]), (short, 0))
        same(ran_program(["complete", "whole.json"]), (0, output, b""))


def start_files_that_are_whole():
    """A whole start file means what it means."""
    for name in ("standard", "office", "held", "database"):
        status, output, _ = ran_program(["complete", f"{EXAMPLES}/{name}.json"])
        same((name, status), (name, 0))
        whole = json.loads(example(f"{name}.json"))
        same((name, json.loads(output)), (name, ordered(filled(whole))))


# Changes of the short file, and why the file is refused then.
WRONG = [
    ({"frob": 1}, "start 2 Members"), ({"subjects": [{"name": "eva"}]}, "start 2 Members"), ({"objects": []}, "start 2 Members"),
    ({"objects": [{"name": "root", "security": "open", "parent": "root"}]}, "start 2 Members"), ({"matrix": {}}, "start 2 Members"),
    ({"subjects": [{"name": "eva", "maximum": "secret", "trusted": None}]}, "start 2 Members"), ({"profile": 3}, "start 2 Members"),
    ({"subjects": [{"name": "eva", "maximum": "secret", "age": 7}]}, "start 2 Members"), ({"integrity": None}, "start 2 Members"),
    ({"security": {"levels": []}}, "start 3 Scheme 1 NoLevels"), ({"subjects": [{"name": "e v", "maximum": "secret"}]}, "start 4 Name"),
    ({"subjects": [{"name": "eva", "maximum": "top"}]}, "start 5 Label"), ({"subjects": []}, "start 7 Start 1 NoSubjects"),
    ({"objects": [{"name": "root", "security": "open"}, {"name": "a", "security": "open", "parent": "b"}]}, "start 6 Unknown"),
    ({"accesses": [{"subject": "eva", "object": "root", "modes": ["read"]}]}, "start 7 Start 10 NotSecure"),
]


def short_files_that_are_refused():
    """The fault, and below it each place that lint prints of the whole file that is meant."""
    for more, told in WRONG:
        short, places = {**SHORT, **more}, b""
        put("short.json", json.dumps(short).encode())
        if not told.endswith("Members"):
            put("whole.json", json.dumps(filled(short)).encode())
            status, places, error = ran_program(["lint", "whole.json"])
            same((more, status, error), (more, 1, f"mls: whole.json: {told}\n".encode()))
            assert places, more
        more_told = b"mls: mls lint short.json tells where\n" if told.endswith("Members") else places
        same((more, *ran_program(["complete", "short.json"])), (more, 1, b"", f"mls: short.json: {told}\n".encode() + more_told))
    for text, told in ((b"", "start 1 Json: empty"), (b"{", "start 1 Json\nmls: mls lint short.json tells where"), (b"0 0 0 get-read 1 yes\n", "start 1 Json: looks like a journal")):
        put("short.json", text)
        refused(["complete", "short.json"], f"short.json: {told}")
    refused(["complete", "none.json"], f"none.json: {GONE}")
    not_understood(["complete"], ["complete", "a", "b"])


def short_files_that_lint_points_out():
    """lint says which command fills in what is left out, where it does."""
    put("short.json", json.dumps(SHORT).encode())
    status, output, error = ran_program(["lint", "short.json"])
    same((status, error), (1, b"mls: short.json: start 2 Members\nmls: mls complete short.json fills in what is left out\n"))
    places = ["/security/categories", "/integrity", "/subjects/0/current", "/subjects/0/integrity", "/subjects/0/trusted", "/objects/0/parent",
              "/objects/0/integrity", "/matrix"]
    same(output.decode().splitlines(), [f"{it}: missing" for it in places])
    put("short.json", json.dumps({**SHORT, "frob": 1}).encode())
    same(ran_program(["lint", "short.json"])[2], b"mls: short.json: start 2 Members\n")


def example_of_a_short_file():
    [(_, shown), (_, printed)] = [*shown_below("cat short.json")][:1] + [*shown_below("mls complete short.json")][:1]
    put("short.json", shown.encode())
    same(ran_program(["complete", "short.json"]), (0, printed.encode(), b""))
    [_, linted] = next(it for it in shown_below("mls lint short.json"))
    fault, *places, hint = linted.splitlines()
    same(ran_program(["lint", "short.json"]), (1, "".join(f"{it}\n" for it in places).encode(), f"{fault}\n{hint}\n".encode()))


CHECKS = [*map(in_its_folder, [first_policy, first_policy_here, first_policy_in_jsonnet, start_files_that_are_completed, start_files_that_are_whole,
                               short_files_that_are_refused, short_files_that_lint_points_out, example_of_a_short_file])]
