#!/usr/bin/env python3
"""Kills the program at random moments, and compares what is there with what its journal promises.

usage: bench/crash.py PROGRAM KILLS SEED [WORKERS]
       bench/crash.py --steps PROGRAM

PROGRAM is the built program. In home folders of its own this runs creations, updates, and both with templates that fail and are
rolled back, over several stacks, and continued rollbacks; most commands are killed by SIGKILL at a moment chosen at random between
their start and a little past the time that such a command takes. What is in progress then is resumed, and the resuming is killed
in the same way, until it is over. It goes on until so many commands were killed, or until it is interrupted, and prints a table
of them.

After each kill, and after each end, it reads the home by `home.py`, without the program, and compares:

- the files and records that are there with what the journal says was made, changed and deleted: none twice, none lost, none
  unlisted, each with the properties of its last call; where a call is open, with it done or not done;
- the answers of the journal with those in the tables of tokens beside files and records;
- what a command printed that was not killed, and `list`, and `describe` and `events` of two stacks, or one of these while something is
  in progress, in new processes, with the lines that the journal gives by `docs/COMMANDS.md`;
- at the end of an operation that made what its template says, what the stack holds with what the template says; at the end of one
  that was rolled back, with what it held before, under the same ids.

With `--steps` a creation and an update that replaces, each also with a template that fails, are killed before each of their calls of the
system in turn that opens, writes, syncs, renames, links, makes a folder or removes (by strace), and so is the resuming behind three of
these moments. It is compared in the same way.

A kill loses nothing that the system has taken, so this shows what the order of calls promises, and not what a loss of power may do.

The moments depend on the clock, and what is begun next on what they left, so a seed doesn't repeat a run. Where something differs
it is told, the home folder is kept, and the status is 1.
"""
import json
import os
import random
import select
import shutil
import signal
import subprocess
import sys
import tempfile
import time
from pathlib import Path

import home as homes

FILE, RECORD = homes.FILE, homes.RECORD

COMMANDS = 14

# Of ten commands so many are meant to be killed.
KILLED = 8

PLACES = ("before it began", "forward", "clean-up", "back", "clean-up behind it", "after its end")

MOST_COMPLAINTS = 10


# ---- Templates ----

def resource(kind, needs=(), **props):
    """A resource of a template."""
    one = {"Type": kind, "Properties": props}
    return {**one, "DependsOn": list(needs)} if needs else one


def word(chance, earlier):
    """A value: a text, perhaps with the id or the length of an earlier resource."""
    text = f"w{chance.randrange(10 ** 6)}" * chance.choice((1, 1, 3, 400))
    if not earlier or chance.random() < 0.4:
        return text
    name = chance.choice(earlier)
    return chance.choice(({"Ref": name}, {"Fn::Sub": f"{text} ${{{name}.Length}}"}))


def fresh(chance, stack, name, version, earlier):
    """A new resource of a stack: its path or key has the name of both and the number of the version."""
    if chance.random() < 0.55:
        return resource(FILE, Path=f"{stack}-{name}-{version}", Content=word(chance, earlier))
    props = {"Key": f"{stack}.{name}.{version}", "Value": word(chance, earlier)}
    if chance.random() < 0.4:
        props["Class"] = chance.choice(("plain", "sealed"))
    return resource(RECORD, **props)


def changed(chance, stack, name, version, earlier, old):
    """A resource as the next version of its stack has it: as it was, changed in place, or such that it is made anew."""
    props = dict(old["Properties"])
    if chance.random() < 0.3 and set(needed(old)) <= set(earlier):
        return old
    if "Path" in props:
        props["Content"] = word(chance, earlier)
        if chance.random() < 0.3:
            props["Path"] = f"{stack}-{name}-{version}"
    else:
        props["Value"] = word(chance, earlier)
        if chance.random() < 0.2:
            props["Key"] = f"{stack}.{name}.{version}"
        elif chance.random() < 0.4:
            props["Class"] = chance.choice(("plain", "sealed"))
    return resource(old["Type"], **props)


def needed(one):
    """The resources that one refers to."""
    names = [value["Ref"] for value in one["Properties"].values() if isinstance(value, dict) and "Ref" in value]
    for value in one["Properties"].values():
        if isinstance(value, dict) and "Fn::Sub" in value:
            names.append(value["Fn::Sub"].split("${")[1].split(".")[0])
    return names


def template(chance, stack, version, old, fails):
    """A template's resources: new ones, or the next version of old ones; it may be one that fails."""
    made = {}
    for name, one in (old or {}).items():
        if chance.random() < 0.85:
            made[name] = changed(chance, stack, name, version, list(made), one)
    for number in range(chance.randrange(2, 6) if not old else chance.randrange(0, 3)):
        name = f"N{version}{'ABCDEF'[number]}"
        made[name] = fresh(chance, stack, name, version, list(made))
    made[f"V{version}"] = fresh(chance, stack, f"V{version}", version, list(made))
    if fails:
        made["Zbad"] = bad(chance, made)
    return made


def bad(chance, made):
    """A resource that can't be made: a name that no file may have, or the path of a file that is there."""
    files = [name for name, one in made.items() if one["Type"] == FILE]
    after = chance.sample(sorted(made), chance.randrange(0, len(made) + 1))
    if files and chance.random() < 0.5:
        twin = chance.choice(files)
        return resource(FILE, sorted({*after, twin}), Path=made[twin]["Properties"]["Path"], Content="twin")
    return resource(FILE, after, Path="no/name", Content="x")


def value_of(value, made):
    """What an expression of these templates gives, over the resources that are made."""
    if isinstance(value, str):
        return value
    if "Ref" in value:
        return made[value["Ref"]].physical
    text, name = value["Fn::Sub"].split("${")
    props = made[name.split(".")[0]].props
    return text + str(len(props.get("Content", props.get("Value")).encode()))


# ---- Runs ----

def ends_within(child, seconds):
    """Whether a process ends in that time; it is waited for no longer."""
    watched = os.pidfd_open(child.pid)
    try:
        return bool(select.select([watched], [], [], seconds)[0])
    finally:
        os.close(watched)


class Trial:
    """A program, and what came of killing it."""

    def __init__(self, program, seed, workers):
        self.program, self.workers = program, workers
        self.chance = random.Random(seed)
        self.moments = random.Random(seed)
        self.typical = {}
        self.kills = {}
        self.runs = {}
        self.checks = 0
        self.complaints = 0
        self.home = None
        self.serial = 0
        self.stacks = {}
        self.knows = None

    def call(self, *words, delay=None, under=()):
        """Runs a command; with a delay it is killed behind it. Whether it was killed, its status and its lines."""
        line = [*under, self.program, self.home, self.workers, *words]
        with subprocess.Popen(line, stdin=subprocess.DEVNULL, stdout=subprocess.PIPE, stderr=subprocess.PIPE) as child:
            if delay is not None and not ends_within(child, delay):
                child.send_signal(signal.SIGKILL)
            printed, errors = child.communicate()
        self.errors = errors.decode(errors="replace")
        return child.returncode == -signal.SIGKILL, child.returncode, printed.decode().splitlines()

    def complain(self, text):
        """Tells a difference."""
        self.complaints += 1
        print(f"DIFFERS {self.home} {self.what}: {text}", flush=True)
        if self.complaints >= MOST_COMPLAINTS:
            sys.exit("too many differences")

    def account(self):
        """What the journal says now."""
        try:
            return homes.read(self.home)
        except homes.NotAJournal as error:
            self.complain(f"no journal, at {error.args[0]}")
            sys.exit(f"{self.home} is kept")

    def check(self):
        """Compares the home with its journal, and the reports with it. The journal's account."""
        self.checks += 1
        account = self.account()
        for text in account.complaints + homes.differences(self.home, account):
            self.complain(text)
        self.check_reports(account)
        return account

    def check_reports(self, account):
        """Compares what the reports say with the lines that the journal gives: of the last stack that was begun, one of the reports
        while it is in progress, and all of them, and what is said of another stack, once nothing is."""
        began = sorted(account.stacks.values(), key=lambda stack: stack.operation)
        if began and began[-1].is_in_progress():
            self.moments.choice((self.check_description, self.check_list, self.check_events))(account, began[-1])
            return
        for stack in began[-1:] + self.moments.sample(began[:-1], min(1, len(began[:-1]))):
            self.check_description(account, stack)
            self.check_events(account, stack)
        self.check_list(account, None)

    def check_description(self, account, stack):
        """Compares what is described; of a stack in progress its first line alone."""
        lines = self.told(stack.name)
        if stack.is_in_progress():
            self.same(f"describe {stack.name}", lines[:1], [f"stack {stack.name} {stack.status} {stack.number}"])
        else:
            self.same(f"describe {stack.name}", lines, [*account.describe_lines(stack.name), "exit 0 Done"])

    def check_list(self, account, _):
        """Compares the list of stacks."""
        if "list" in self.knows:
            self.same("list", self.call("list")[2], [*account.list_lines(), "exit 0 Done"])

    def check_events(self, account, stack):
        """Compares the events of a stack."""
        if "events" in self.knows:
            self.same(f"events {stack.name}", self.call("events", stack.name)[2], [*stack.events, "exit 0 Done"])

    def told(self, name):
        """The lines that `describe` tells of a stack, but for parameters and outputs."""
        lines = self.call("describe", name)[2]
        return [line for line in lines if not line.startswith(("parameter ", "output "))]

    def same(self, what, got, wanted):
        """Complains where lines are others than those wanted."""
        if got != wanted:
            self.complain(f"{what} says {got} for {wanted}")

    def attempt(self, kind, stack, words, place_before):
        """Runs a command, perhaps killed; the account after it."""
        self.what = " ".join(words)
        typical = self.typical.get(kind)
        wants_kill = typical is not None and self.moments.randrange(10) < KILLED
        delay = self.moments.uniform(0, 1.15) * typical if wants_kill else None
        begin = time.perf_counter()
        killed, status, lines = self.call(*words, delay=delay)
        taken = time.perf_counter() - begin
        self.runs[kind] = self.runs.get(kind, 0) + 1
        if killed:
            account = self.check()
            where = self.where(account, stack, place_before)
            self.kills.setdefault(kind, dict.fromkeys(PLACES, 0))[where] += 1
            return account, None
        self.typical[kind] = taken if typical is None else 0.7 * typical + 0.3 * taken
        if not lines or not lines[-1].startswith(f"exit {status} ") or self.errors:
            self.complain(f"status {status}, {lines[-1:]}, {self.errors}")
        account = self.check()
        if status in (0, 4, 5):
            told = [line for line in lines[:-1] if not line.startswith(("parameter ", "output "))]
            self.same(self.what, told, account.describe_lines(stack))
        return account, lines

    def where(self, account, name, operation_before):
        """In what part of its operation a command was killed, by the journal."""
        stack = account.stacks.get(name)
        if stack is None or stack.operation == operation_before:
            return PLACES[0]
        if not stack.is_in_progress():
            return PLACES[5]
        return {"forward": PLACES[1], "clean": PLACES[2], "back": PLACES[3], "backclean": PLACES[4]}[stack.phase]

    def finish(self, name, account):
        """Resumes the operation of a stack until it is over; the account then."""
        while name in account.stacks and account.stacks[name].is_in_progress():
            account, _ = self.attempt("resume", name, ["resume", name], 0)
        return account

    def deploy(self, name, fails):
        """Creates or updates a stack, by a template of which it is known how it ends, and compares the end."""
        held = self.stacks.get(name)
        self.serial += 1
        old = held["resources"] if held else None
        made = template(self.chance, name, self.serial, old, fails)
        Path(self.home, "templates", f"t{self.serial}").write_text(json.dumps({"Resources": made}))
        kind = ("create" if not held else "update") + (" that fails" if fails else "")
        before = self.account().stacks.get(name)
        number = before.operation if before else 0
        account, _ = self.attempt(kind, name, ["deploy", name, f"t{self.serial}"], number)
        account = self.finish(name, account)
        stack = account.stacks.get(name)
        if stack is None or stack.operation == number:
            return
        went_back = stack.status == "UPDATE_ROLLBACK_FAILED"
        if went_back:
            stack = self.go_back(name, stack)
        self.compare_end(name, stack, made, fails, held)
        if went_back:
            # What it holds is unsure now, so the end of a next update isn't known beforehand.
            self.stacks.pop(name)

    def go_back(self, name, stack):
        """Goes on with a rollback that failed: without what failed. Its stack then."""
        number, words = stack.operation, ["continue-rollback", name, *stack.failed]
        while True:
            account, _ = self.attempt("continue", name, words, number)
            account = self.finish(name, account)
            stack = account.stacks[name]
            if stack.operation != number:
                return stack

    def compare_end(self, name, stack, made, fails, held):
        """Compares what a stack holds at an operation's end with its template, or with what it held before."""
        now = {one.path: one for one in stack.held.values()}
        complete = ("ROLLBACK_COMPLETE" if not held else "UPDATE_ROLLBACK_COMPLETE") if fails else \
            ("CREATE_COMPLETE" if not held else "UPDATE_COMPLETE")
        if stack.status != complete:
            self.complain(f"{name} ended in {stack.status} for {complete}")
        if fails:
            ids = {path: physical for path, (physical, _) in (held["held"] if held else {}).items()}
            if {path: one.physical for path, one in now.items()} != ids:
                self.complain(f"{name} holds {sorted(now)} for {sorted(ids)}, or under other ids")
            for path, one in now.items():
                if not one.unsure and path in ids and one.props != held["held"][path][1]:
                    self.complain(f"{path} has other properties than before")
        else:
            if set(now) != set(made) or len(stack.held) != len(made):
                self.complain(f"{name} holds {sorted(now)} for {sorted(made)}")
                return
            for path, one in now.items():
                wanted = {key: value_of(value, now) for key, value in made[path]["Properties"].items()}
                if one.props != wanted:
                    self.complain(f"{path} has {one.props} for {wanted}")
        if fails and not held:
            self.stacks.pop(name, None)
        else:
            self.stacks[name] = {"resources": held["resources"] if fails else made,
                                 "held": {path: (one.physical, one.props) for path, one in now.items()}}

    def probe(self):
        """Which of the reports the program has."""
        self.knows = {word for word, words in (("list", ["list"]), ("events", ["events", "none"]))
                      if self.call(*words)[2][-1:] != ["exit 1 BadWords"]}

    def begin_home(self, folder):
        """A new home folder."""
        self.home = tempfile.mkdtemp(prefix="home-", dir=folder)
        Path(self.home, "templates").mkdir()
        self.stacks, self.serial, self.what = {}, 0, "probe"
        if self.knows is None:
            self.probe()
            shutil.rmtree(self.home)
            Path(self.home, "templates").mkdir(parents=True)

    def episode(self, folder):
        """Commands over one home, which is removed where nothing differed."""
        complaints = self.complaints
        self.begin_home(folder)
        for number in range(COMMANDS):
            updatable = sorted(self.stacks)
            if updatable and self.chance.random() < 0.75:
                name = self.chance.choice(updatable)
            else:
                name = f"s{number}"
            self.deploy(name, self.chance.random() < 0.45)
        if self.complaints == complaints:
            shutil.rmtree(self.home)

    def total(self):
        """How many commands were killed."""
        return sum(sum(places.values()) for places in self.kills.values())


def print_table(trial):
    """Prints how many commands of each kind were killed, and where."""
    print(f"| command | runs | killed | {' | '.join(PLACES)} |")
    print("|---|" + "---:|" * (len(PLACES) + 2))
    for kind, places in sorted(trial.kills.items()):
        cells = " | ".join(str(places[place]) for place in PLACES)
        print(f"| {kind} | {trial.runs[kind]} | {sum(places.values())} | {cells} |")
    sums = " | ".join(str(sum(places[place] for places in trial.kills.values())) for place in PLACES)
    print(f"| all | {sum(trial.runs.values())} | {trial.total()} | {sums} |")
    reports = ", ".join(["describe", *sorted(trial.knows)])
    print(f"{trial.checks} comparisons, {trial.complaints} differences; reports compared: {reports}")


# ---- A kill before each call of the system ----

CALLS = ("openat", "pwrite64", "write", "ftruncate", "fsync", "fdatasync", "rename", "link", "unlink", "mkdir")

FIRST = {"A": resource(FILE, Path="a", Content="x"), "B": resource(RECORD, Key="b", Value={"Ref": "A"}),
         "C": resource(RECORD, Key="c", Value="u", Class="sealed")}

NEXT = {"A": resource(FILE, Path="a2", Content="y"), "B": resource(RECORD, Key="b", Value={"Ref": "A"}),
        "C": resource(RECORD, Key="c", Value="u", Class="plain"), "D": resource(FILE, Path="d", Content="z")}

BAD = {**NEXT, "E": resource(FILE, ("A", "B", "C", "D"), Path="d", Content="twin")}

STEPS = (("create", None, FIRST, False), ("create that fails", None, BAD, True), ("update", FIRST, NEXT, False),
         ("update that fails", FIRST, BAD, True))


def step_through(trial, folder):
    """Kills each of the commands, and the resuming behind it, before each of its calls of the system in turn."""
    print("| command | calls before which it was killed | resuming killed before | differences |")
    print("|---|---:|---:|---:|")
    for step in STEPS:
        complaints = trial.complaints
        killed = {name: kills_of(name, lambda call: step_once(trial, folder, step, call)) for name in CALLS}
        resumed, writes = 0, killed["pwrite64"]
        for at in sorted({writes // 3, writes // 2, 2 * writes // 3} - {0}):
            first = "pwrite64", at
            resumed += sum(kills_of(name, lambda call: step_once(trial, folder, step, first, call)) for name in CALLS)
        print(f"| {step[0]} | {sum(killed.values())} | {resumed} | {trial.complaints - complaints} |", flush=True)


def kills_of(name, step):
    """How many calls of this name there are, before each of which a step is killed in turn."""
    at = 1
    while step((name, at)):
        at += 1
    return at - 1


def killing(call):
    """The words that kill a command before a call of the system: the one of this name and number."""
    name, at = call
    return ["strace", "-f", "-qq", "-o", "/dev/null", "-e", f"trace={name}", "-e", f"inject={name}:signal=SIGKILL:when={at}"]


def step_once(trial, folder, step, call, again=None):
    """Kills a command before one call, and perhaps its resuming before another; whether the last of them was killed."""
    _, first, text, fails = step
    complaints = trial.complaints
    trial.begin_home(folder)
    for name, resources in (("first", first), ("next", text)):
        Path(trial.home, "templates", name).write_text(json.dumps({"Resources": resources}))
    trial.what, held = f"{step[0]} before {call}, {again}", None
    if first:
        trial.call("deploy", "s", "first")
        trial.compare_end("s", trial.check().stacks["s"], first, False, None)
        held = trial.stacks["s"]
    number = 1 if first else 0
    last = trial.call("deploy", "s", "next", under=killing(call))[0]
    account = trial.check()
    if again is not None:
        last = trial.call("resume", "s", under=killing(again))[0]
        account = trial.check()
    stack = account.stacks.get("s")
    if stack is None or stack.operation == number:
        trial.call("deploy", "s", "next")
    elif stack.is_in_progress():
        trial.call("resume", "s")
    trial.compare_end("s", trial.check().stacks["s"], text, fails, held)
    if trial.complaints == complaints:
        shutil.rmtree(trial.home)
    return last


def main():
    words = sys.argv[1:]
    steps = words[:1] == ["--steps"]
    if len(words) != 2 if steps else len(words) not in (3, 4):
        sys.exit(__doc__)
    program = os.path.abspath(words[1] if steps else words[0])
    folder = tempfile.mkdtemp(prefix="crash-")
    signal.signal(signal.SIGINT, signal.default_int_handler)
    if steps:
        trial = Trial(program, 0, "1")
        step_through(trial, folder)
    else:
        trial = Trial(program, int(words[2]), words[3] if len(words) == 4 else "1")
        try:
            while trial.total() < int(words[1]):
                trial.episode(folder)
        except KeyboardInterrupt:
            pass
        print_table(trial)
    if trial.complaints:
        sys.exit(f"homes that differ are kept in {folder}")
    shutil.rmtree(folder)


if __name__ == "__main__":
    main()
