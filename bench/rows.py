#!/usr/bin/env python3
"""Runs the program's commands over new homes, and compares what each prints, and the files that are there, with what is wanted.

usage: bench/rows.py PROGRAM

PROGRAM is the built program. Each story has a home of its own, in which its commands run one after another, each in a process of its
own. What they have to print was worked out by hand from `docs/`. After each command that drives a stack the home is read by
`home.py`, without the program, and has to be what its journal says. Where something differs it is told, and the status is 1.
"""
import json
import os
import subprocess
import sys
import tempfile
from pathlib import Path

import home as homes

FILE, RECORD = homes.FILE, homes.RECORD

DEMO = Path(os.path.dirname(os.path.abspath(__file__)), "..", "demo", "templates")


def file(path, content, **more):
    """A file of a template."""
    return {"Type": FILE, "Properties": {"Path": path, "Content": content}, **more}


def record(key, value, **more):
    """A record of a template."""
    return {"Type": RECORD, "Properties": {"Key": key, "Value": value, **more}}


def held(path, kind, physical, status):
    """The line of a resource."""
    return f"resource {path} {kind} {physical} {status}"


def events(*lines):
    """Lines of events; each begins with its place."""
    return [f"event {line}" for line in lines] + ["exit 0 Done"]


DONE = ["exit 0 Done"]

TEMPLATES = {
    "none": {},
    "least": {"A": {"Type": "T"}},
    "circle": {"A": file("a", "x", DependsOn="B"), "B": file("b", {"Fn::Sub": "${A}"})},
    "pointed": {"Web": file("web.txt", "x"), "Ptr": record("p", {"Ref": "Web"})},
    "moved": {"Web": file("new.txt", "x"), "Ptr": record("p", {"Ref": "Web"})},
    "two": {"A": file("a", "1"), "B": file("b", "2")},
    "onto": {"A": file("b", "1"), "B": file("b", "2")},
    "sealed": {"K": record("k", "v", Class="sealed")},
    "plain": {"K": record("k", "v", Class="plain")},
    "opened": {"K": record("k", "v")},
    "closed": {"K": record("k", "w", Class="sealed"), "Z": file("no/name", "x", DependsOn="K")},
    "outer": {"A": file(".new", "x")},
}

WEB = ["stack app CREATE_COMPLETE 1", held("Web", FILE, "files1:1", "CREATE_COMPLETE"), *DONE]

RENAMED = ["stack app UPDATE_COMPLETE 1", held("Web", FILE, "files1:2", "UPDATE_COMPLETE"), *DONE]

WEB_EVENTS = ("2 - CREATE_IN_PROGRESS", "3 Web CREATE_IN_PROGRESS", "4 Web CREATE_COMPLETE", "5 - CREATE_COMPLETE")

RENAMED_EVENTS = ("7 - UPDATE_IN_PROGRESS", "8 Web CREATE_IN_PROGRESS", "9 Web CREATE_COMPLETE",
                  "10 - UPDATE_COMPLETE_CLEANUP_IN_PROGRESS", "11 Web DELETE_IN_PROGRESS", "12 Web DELETE_COMPLETE",
                  "13 - UPDATE_COMPLETE")

SITE = [held("Conf", FILE, "files1:1", "CREATE_COMPLETE"), held("Home", FILE, "files1:2", "CREATE_COMPLETE"),
        held("Main", RECORD, "records1:3", "CREATE_COMPLETE"), held("Size", RECORD, "records1:4", "CREATE_COMPLETE")]

PARAMETERS = ['parameter Hosts ["alpha","beta"]', 'parameter Stage "test"']

BACK = [line.replace("CREATE", "UPDATE") if line.split(" ")[1] in ("Conf", "Size") else line for line in SITE]

SITE_EVENTS = ("2 - CREATE_IN_PROGRESS", "3 Conf CREATE_IN_PROGRESS", "4 Conf CREATE_COMPLETE", "5 Home CREATE_IN_PROGRESS",
               "6 Home CREATE_COMPLETE", "7 Main CREATE_IN_PROGRESS", "8 Main CREATE_COMPLETE", "9 Size CREATE_IN_PROGRESS",
               "10 Size CREATE_COMPLETE", "11 - CREATE_COMPLETE")

CLASH_EVENTS = ("13 - UPDATE_IN_PROGRESS", "14 Conf UPDATE_IN_PROGRESS", "15 Conf UPDATE_COMPLETE", "16 Size UPDATE_IN_PROGRESS",
                "17 Size UPDATE_COMPLETE", "18 Twin CREATE_IN_PROGRESS", "19 Twin CREATE_FAILED AlreadyExists",
                "20 - UPDATE_ROLLBACK_IN_PROGRESS", "21 Conf UPDATE_IN_PROGRESS", "22 Conf UPDATE_COMPLETE",
                "23 Size UPDATE_IN_PROGRESS", "24 Size UPDATE_COMPLETE", "25 - UPDATE_ROLLBACK_COMPLETE_CLEANUP_IN_PROGRESS",
                "26 - UPDATE_ROLLBACK_COMPLETE")

PAIR = [held("A", FILE, "files1:1", "CREATE_COMPLETE"), held("B", FILE, "files1:2", "CREATE_COMPLETE")]

# Each story: a name, the files that are there in the end, and commands with the lines that they print.
STORIES = (
    ("a file, and what is told of it", {"web.txt": "hello"}, (
        ("deploy app one", WEB),
        ("describe app", WEB),
        ("list", [WEB[0], *DONE]),
        ("events app", events(*WEB_EVENTS)),
        ("deploy app one", ["No updates are to be performed.", "exit 3 StackRefused NoChanges"]),
        ("resume app", ["exit 3 StackRefused WrongStatus CREATE_COMPLETE"]),
        ("describe other", ["exit 3 StackRefused NoStack"]),
        ("events other", ["exit 3 StackRefused NoStack"]))),
    ("an update that replaces", {"index.txt": "hello"}, (
        ("deploy app one", WEB),
        ("deploy app renamed", RENAMED),
        ("describe app", RENAMED),
        ("events app", events(*WEB_EVENTS, *RENAMED_EVENTS)))),
    ("an update that is rolled back", {"site.conf": "stage=test\ndepth=2", "home.txt": "beta"}, (
        ("deploy site site", ["stack site CREATE_COMPLETE 1", *PARAMETERS, *SITE, 'output Total "18/4"', *DONE]),
        ("deploy site clash", ["stack site UPDATE_ROLLBACK_COMPLETE 1", *PARAMETERS, *BACK, 'output Total "18/4"',
                               'exit 4 RolledBack Handler "Twin" AlreadyExists']),
        ("describe site", ["stack site UPDATE_ROLLBACK_COMPLETE 1", *PARAMETERS, *BACK, 'output Total "18/4"', *DONE]),
        ("events site", events(*SITE_EVENTS, *CLASH_EVENTS)))),
    ("a creation that is rolled back", {}, (
        ("deploy t outside", ["stack t ROLLBACK_COMPLETE 1",
                              'exit 4 RolledBack Plan Eval Bad IndexOutside "" "/Resources/B/Properties/Value"']),
        ("deploy t outside", ["exit 3 StackRefused WrongStatus ROLLBACK_COMPLETE"]),
        ("events t", events("2 - CREATE_IN_PROGRESS", "3 A CREATE_IN_PROGRESS", "4 A CREATE_COMPLETE", "5 - ROLLBACK_IN_PROGRESS",
                            "6 A DELETE_IN_PROGRESS", "7 A DELETE_COMPLETE", "8 - ROLLBACK_COMPLETE")))),
    ("parameters", {"page.conf": "stage=prod\ndepth=8\nbeta", "audit.txt": "aGVsbG8="}, (
        ("deploy page page Stage=prod", ["stack page CREATE_COMPLETE 1", *PARAMETERS[:1], 'parameter Secret "****"',
                                         'parameter Stage "prod"', held("Audit", FILE, "files1:1", "CREATE_COMPLETE"),
                                         held("Page", FILE, "files1:2", "CREATE_COMPLETE"), *DONE]),)),
    ("a reference follows a replacement", {"new.txt": "x"}, (
        ("deploy app pointed", ["stack app CREATE_COMPLETE 1", held("Ptr", RECORD, "records1:2", "CREATE_COMPLETE"),
                                held("Web", FILE, "files1:1", "CREATE_COMPLETE"), *DONE]),
        ("deploy app moved", ["stack app UPDATE_COMPLETE 1", held("Ptr", RECORD, "records1:2", "UPDATE_COMPLETE"),
                              held("Web", FILE, "files1:3", "UPDATE_COMPLETE"), *DONE]))),
    ("a path that is taken", {"a": "1", "b": "2"}, (
        ("deploy two two", ["stack two CREATE_COMPLETE 1", *PAIR, *DONE]),
        ("deploy two onto", ["stack two UPDATE_ROLLBACK_COMPLETE 1", *PAIR, 'exit 4 RolledBack Handler "A" AlreadyExists']))),
    ("a class that can't be changed", {}, (
        ("deploy s sealed", ["stack s CREATE_COMPLETE 1", held("K", RECORD, "records1:1", "CREATE_COMPLETE"), *DONE]),
        ("deploy s plain", ["stack s UPDATE_COMPLETE 1", held("K", RECORD, "records1:3", "UPDATE_COMPLETE"), *DONE]))),
    ("a rollback that fails, and goes on without what failed", {}, (
        ("deploy s opened", ["stack s CREATE_COMPLETE 1", held("K", RECORD, "records1:1", "CREATE_COMPLETE"), *DONE]),
        ("deploy s closed", ["stack s UPDATE_ROLLBACK_FAILED 1", held("K", RECORD, "records1:1", "UPDATE_FAILED"), "failed K", "failed Z",
                             'exit 5 Failed ["K","Z"]']),
        ("continue-rollback s B", ['exit 3 StackRefused NotFailed "B"']),
        ("continue-rollback s K", ["stack s UPDATE_ROLLBACK_COMPLETE 1",
                                   held("K", RECORD, "records1:1", "UPDATE_COMPLETE unsure"), *DONE]))),
    ("what is refused before anything is done", {}, (
        ("validate none", ['exit 2 TemplateRefused Read "none" WrongShape "/Resources"']),
        ("validate least", DONE),
        ("list", DONE),
        ("deploy s circle", ['exit 2 TemplateRefused Plan Graph "" Circular ["A","B"]']),
        ("deploy s least", ['exit 2 TemplateRefused UnknownType "A" "T"']),
        ("deploy s nothing", ['exit 2 TemplateRefused Plan TemplateMissing "nothing"']),
        ("resume s", ["exit 3 StackRefused NoStack"]),
        ("list all", ["exit 1 BadWords"]))),
    ("a name that no file may have", {}, (
        ("deploy s outer", ["stack s ROLLBACK_COMPLETE 1", 'exit 4 RolledBack Handler "A" InvalidRequest']),)),
)

HELLO = ("hello world as journal", (("list", ["exit 10 NotAJournal 1"]), ("describe app", ["exit 10 NotAJournal 1"]),
                                    ("deploy app one", ["exit 10 NotAJournal 1"]), ("validate one", DONE)))


def told(call, answer):
    """The lines of a call on standard error: as it is made, and as it is answered."""
    return [call, f"{call} -> {answer}"]


SEALED = ["stack s CREATE_COMPLETE 3", held("K", RECORD, "records1:4", "CREATE_COMPLETE"), *DONE]

PLAIN = ["stack s UPDATE_COMPLETE 3", held("K", RECORD, "records1:6", "UPDATE_COMPLETE"), *DONE]

# With `--progress`: what is printed, and what is told of the calls.
PROGRESS = (
    ("deploy app one", WEB, told(f"files1 1 create {FILE}", "success files1:1")),
    ("deploy app renamed", RENAMED, [*told(f"files1 2 create {FILE}", "success files1:2"),
                                     *told("files1 3 delete files1:1", "success files1:1")]),
    ("describe app", RENAMED, []),
    ("deploy s sealed", SEALED, told(f"records1 4 create {RECORD}", "success records1:4")),
    ("deploy s plain", PLAIN, [*told("records1 5 update records1:4", "failed NotUpdatable"),
                               *told(f"records1 6 create {RECORD}", "success records1:6"),
                               *told("records1 7 delete records1:4", "success records1:4")]),
    ("list all", ["exit 1 BadWords"], []),
)

RECORDS = [held(f"R000{number}", RECORD, f"records1:{number}", "CREATE_COMPLETE") for number in (1, 2, 3)]

# Two loads have records of the same keys.
LOADS = (("load 3", ["load 3", "stack load-3 CREATE_COMPLETE", "resources 3", 'last "7"', *DONE]),
         ("load 3", ["No updates are to be performed.", "exit 3 StackRefused NoChanges"]),
         ("describe load-3", ["stack load-3 CREATE_COMPLETE 1", *RECORDS, 'output Last "7"', *DONE]),
         ("load 1", ["load 1", "stack load-1 ROLLBACK_COMPLETE", "resources 0", 'exit 4 RolledBack Handler "R0001" AlreadyExists']),
         ("load 0", ["exit 1 BadWords"]),
         ("load 501", ["exit 1 BadWords"]))

LOAD = ("load 500", ["load 500", "stack load-500 CREATE_COMPLETE", "resources 500", 'last "9"', *DONE])


class Rows:
    """A program, and how many of the commands that it ran printed something else."""

    def __init__(self, program):
        self.program = program
        self.rows = self.differ = 0

    def complain(self, text):
        """Tells a difference."""
        self.differ += 1
        print(f"DIFFERS {text}")

    def home(self, folder):
        """A new home, with the templates of the demo and those here."""
        home = tempfile.mkdtemp(prefix="home-", dir=folder)
        Path(home, "templates").mkdir()
        for path in DEMO.iterdir():
            Path(home, "templates", path.name).write_bytes(path.read_bytes())
        for name, resources in TEMPLATES.items():
            Path(home, "templates", name).write_text(json.dumps({"Resources": resources}))
        return home

    def run(self, home, words, *first):
        """What a command prints, its status, and what it says on standard error."""
        ended = subprocess.run([self.program, *first, home, "1", *words.split(" ")], stdin=subprocess.DEVNULL, stdout=subprocess.PIPE,
                               stderr=subprocess.PIPE, check=False)
        return ended.stdout.decode().splitlines(), ended.returncode, ended.stderr.decode().splitlines()

    def row(self, home, words, wanted, calls=(), first=()):
        """Compares what a command prints, with the status of its exit, and what it says on standard error, mostly nothing."""
        self.rows += 1
        lines, status, errors = self.run(home, words, *first)
        if lines != wanted or status != int(wanted[-1].split(" ")[1]) or errors != list(calls):
            self.complain(f"{words} in {home}: status {status}, {errors}\n  wanted {wanted}\n  given  {lines}")

    def story(self, folder, name, files, commands):
        """Runs commands over a new home."""
        home = self.home(folder)
        for words, wanted in commands:
            self.row(home, words, wanted)
            account = homes.read(home)
            for text in account.complaints + homes.differences(home, account):
                self.complain(f"{name}, after {words}: {text}")
        there = {path.name: path.read_text() for path in Path(home, "files").glob("[!.]*")}
        if there != files:
            self.complain(f"{name}: the files are {there} for {files}")

    def hello(self, folder):
        """Runs commands over a journal that is none, which stays as it is."""
        home = self.home(folder)
        text = b"hello world"
        Path(home, "journal").write_bytes(text)
        for words, wanted in HELLO[1]:
            self.row(home, words, wanted)
        if Path(home, "journal").read_bytes() != text or Path(home, "files").exists() or Path(home, "records").exists():
            self.complain(f"{HELLO[0]}: the home changed")

    def progress(self, folder):
        """Runs commands whose calls are told, where the program does so."""
        home = self.home(folder)
        if self.run(home, "list", "--progress")[0] == ["exit 1 BadWords"]:
            print("this program tells no progress: its rows are left out")
            return
        for words, wanted, calls in PROGRESS:
            self.row(home, words, wanted, calls, ["--progress"])

    def loads(self, folder):
        """Runs the load mode, where the program has it."""
        home = self.home(folder)
        if self.run(home, "load 1")[0] == ["exit 1 BadWords"]:
            print("this program has no load mode: its rows are left out")
            return
        home = self.home(folder)
        for words, wanted in LOADS:
            self.row(home, words, wanted)
        self.row(self.home(folder), *LOAD)


def main():
    if len(sys.argv) != 2:
        sys.exit(__doc__)
    rows = Rows(os.path.abspath(sys.argv[1]))
    with tempfile.TemporaryDirectory(prefix="rows-") as folder:
        for name, files, commands in STORIES:
            rows.story(folder, name, files, commands)
        rows.hello(folder)
        rows.progress(folder)
        rows.loads(folder)
    print(f"{rows.rows} rows, {rows.differ} differ")
    sys.exit(1 if rows.differ else 0)


if __name__ == "__main__":
    main()
