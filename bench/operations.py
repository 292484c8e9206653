#!/usr/bin/env python3
"""Measures what operations cost: a chain, a fan and a binary tree of 100, 250 and 500 resources, created, and created and
rolled back, whole process, reading and report included; and all updated, and all updated and rolled back; and change sets that
add all, and that modify all.

usage: bench/operations.py PROGRAM [SCENARIOS]

PROGRAM is the built program. The table has for each template its bytes, the instructions that the process executes, its
shortest time of three runs and its peak memory; then for each shape how many times as many instructions the greatest takes
as half of it.

SCENARIOS is the built program of `cf_scenarios`, which plays several commands over one journal in memory; updates and change
sets are measured by it, and left out without it. What an update costs is what a scenario of a creation and an update executes more
than one of that creation alone; so of a rollback. Beside it stands how many times that is of what the same creation, with its
rollback, costs there (against a scenario that only reads the templates). So of a change set: one that adds all is measured over an
empty journal, one that modifies all, and its execution, over the stack that the creation left; its report is printed. Beside the one
that modifies all stands what it takes more than one that is refused as soon as the journal has been opened.

Instructions are counted by valgrind: the total that `valgrind --tool=callgrind` says it collected, which is every
instruction that the process executes in user mode, from its first to its last. Other work on the machine doesn't change
them. Where there is no valgrind the column is `-`. Times and memory are those of runs without valgrind.
Peak memory below that of this script's own process, some 11 MB, is not seen.

Every resource is a record whose value refers to the one that it needs. A creation is rolled back for an output whose index
lies outside its list once all is made. The home is removed afterwards, and each run begins with a new journal and new lanes;
of scenarios disk and lanes are in memory. An update gives every resource another value; it is rolled back because the lane
refuses the last call of it. Deletions are not measured, since no command of the program does them yet.
"""
import json
import os
import re
import shutil
import subprocess
import sys
import tempfile
import time
from pathlib import Path

COUNTS = (100, 250, 500)

RUNS = 3

# What the resource of a number, above 1, needs.
SHAPES = {
    "chain": lambda number: number - 1,
    "fan": lambda number: 1,
    "tree": lambda number: number // 2,
}

# How a command ends, by whether it is rolled back.
ENDS = {
    False: "exit 0 Done",
    True: 'exit 4 RolledBack Plan Eval Bad IndexOutside "" "/Outputs/O/Value"',
}


def record(number, need, word):
    """A record whose value is a word and, but of the first, the record that it needs; without a word that record alone."""
    if number == 1:
        value = word or "first"
    elif word:
        value = {"Fn::Sub": f"{word}${{R{need(number):04}}}"}
    else:
        value = {"Ref": f"R{need(number):04}"}
    return {"Type": "Local::Records::Record", "Properties": {"Key": f"k{number}", "Value": value}}


def template(count, need, back, word=""):
    """A template of so many resources, as bytes of compact JSON."""
    text = {"Resources": {f"R{number:04}": record(number, need, word) for number in range(1, count + 1)}}
    if back:
        text["Outputs"] = {"O": {"Value": {"Fn::Select": [1, [{"Ref": "R0001"}]]}}}
    return json.dumps(text, separators=(",", ":")).encode()


def clear(home):
    """Leaves nothing in a home but its templates."""
    for name in ("files", "records"):
        shutil.rmtree(os.path.join(home, name), ignore_errors=True)
    Path(home, "journal").unlink(missing_ok=True)


def run(words, count, back, home):
    """A run over a new journal, which must make all resources, or hold none; its seconds and what it printed as errors."""
    clear(home)
    begin = time.perf_counter()
    ended = subprocess.run(words, stdout=subprocess.PIPE, stderr=subprocess.PIPE, check=False)
    end = time.perf_counter()
    lines = ended.stdout.decode().splitlines()
    held = sum(line.startswith("resource ") for line in lines)
    if lines[-1:] != [ENDS[back]] or held != (0 if back else count):
        sys.exit(f"{' '.join(words)} holds {held} of {count} and ended in {lines[-1:]}")
    return end - begin, ended.stderr.decode()


def peak(words, home):
    """The peak memory of a run in MB."""
    clear(home)
    child = os.fork()
    if child == 0:
        null = os.open(os.devnull, os.O_WRONLY)
        os.dup2(null, 1)
        os.dup2(null, 2)
        os.execv(words[0], words)
    _, _, used = os.wait4(child, 0)
    return used.ru_maxrss / 1000


def instructions(words, count, back, home):
    """The instructions that a run executes, None where nothing counts them."""
    if shutil.which("valgrind") is None:
        return None
    counted = ["valgrind", "--tool=callgrind", f"--callgrind-out-file={home}/counted", *words]
    _, told = run(counted, count, back, home)
    found = re.search(r"Collected : (\d+)", told)
    return int(found.group(1)) if found else None


def measure(program, home, counts, back):
    """Prints the lines of the three shapes."""
    name = "rolled back" if back else "created"
    for shape, need in SHAPES.items():
        taken = {}
        for count in counts:
            text = template(count, need, back)
            Path(home, "templates", f"{shape}{count}").write_bytes(text)
            words = [program, home, "1", "deploy", "s", f"{shape}{count}"]
            least = min(run(words, count, back, home)[0] for _ in range(RUNS))
            taken[count] = instructions(words, count, back, home)
            shown = "-" if taken[count] is None else f"{taken[count] / 1e6:.1f}"
            print(f"{name:12}{shape:6}{count:>10}{len(text):>10}{shown:>14}{least:>10.3f}{peak(words, home):>10.1f}", flush=True)
        most = counts[-1] if counts else 0
        if taken.get(most) and taken.get(most // 2):
            ratio = taken[most] / taken[most // 2]
            print(f"{name:12}{shape:6}{most} to {most // 2}: {ratio:.2f} times as many instructions", flush=True)


def played(program, home, lines):
    """The instructions that a scenario executes; each of its rows has to be right."""
    text = Path(home, "scenario")
    text.write_text("\n".join(lines) + "\n")
    counted = ["valgrind", "--tool=callgrind", f"--callgrind-out-file={home}/counted", program]
    with text.open() as rows:
        ended = subprocess.run(counted, stdin=rows, stdout=subprocess.PIPE, stderr=subprocess.PIPE, check=False)
    if not ended.stdout.decode().endswith(" rows, 0 answered otherwise\n"):
        sys.exit(ended.stdout.decode())
    return int(re.search(r"Collected : (\d+)", ended.stderr.decode()).group(1))


# Templates of the scenarios: a name, the word of each value, and whether an output is at fault once all is made.
TEMPLATES = (("first", "a", False), ("second", "b", False), ("bad", "a", True))

REFUSAL = "ServiceLimitExceeded"

# A change set that is refused once the journal is opened: the library has no such template.
ABSENT = ("create-change-set s absent", 'exit 2 TemplateRefused Plan TemplateMissing "absent"')


def deploy(name):
    """The words that deploy a template on the stack."""
    return f"deploy s {name}"


def scenario(count, need, commands, refused=None):
    """A scenario of commands, of each its words and how it ends; the lane refuses the call of this number."""
    lines = [f"template {name} {template(count, need, back, word).decode()}" for name, word, back in TEMPLATES]
    lines += ["== operations", "room 60000000", f"lane r1 records {refused} refuse {REFUSAL}" if refused else "lane r1 records"]
    for words, end in commands:
        lines += [f"> {words}", f"= {end}"]
    return lines


def measure_updates(program, home, count):
    """Prints what an update of so many resources and its rollback cost beside a creation and its rollback."""
    for shape, need in SHAPES.items():
        first, second, bad = (deploy("first"), ENDS[False]), (deploy("second"), ENDS[False]), (deploy("bad"), ENDS[True])
        refused = (deploy("second"), f'exit 4 RolledBack Handler "R{count:04}" {REFUSAL}')
        none = played(program, home, scenario(count, need, []))
        created = played(program, home, scenario(count, need, [first]))
        undone = played(program, home, scenario(count, need, [bad])) - none
        updated = played(program, home, scenario(count, need, [first, second])) - created
        restored = played(program, home, scenario(count, need, [first, refused], 2 * count)) - created
        for name, taken, beside in (("updated", updated, created - none), ("restored", restored, undone)):
            print(f"{name:12}{shape:6}{count:>10}{taken / 1e6:>14.1f} million, {taken / beside:.2f} times {beside / 1e6:.1f}", flush=True)


def measure_sets(program, home, count):
    """Prints what a change set over so many resources costs, and what its execution costs beside the same update."""
    for shape, need in SHAPES.items():
        first, second = (deploy("first"), ENDS[False]), (deploy("second"), ENDS[False])
        adds, modifies = ("create-change-set s first", ENDS[False]), ("create-change-set s second", ENDS[False])
        executes = ("execute-change-set s 1", ENDS[False])
        none = played(program, home, scenario(count, need, []))
        created = played(program, home, scenario(count, need, [first]))
        added = played(program, home, scenario(count, need, [adds])) - none
        opened = played(program, home, scenario(count, need, [first, ABSENT])) - created
        kept = played(program, home, scenario(count, need, [first, modifies]))
        updated = played(program, home, scenario(count, need, [first, second])) - created
        executed = played(program, home, scenario(count, need, [first, modifies, executes])) - kept
        modified = kept - created
        for name, taken in (("set adds", added), ("set modifies", modified), ("but opening", modified - opened)):
            print(f"{name:12} {shape:6}{count:>9}{taken / 1e6:>14.1f} million", flush=True)
        print(f"{'executed':12}{shape:6}{count:>10}{executed / 1e6:>14.1f} million, {executed / updated:.2f} times {updated / 1e6:.1f}", flush=True)


def main():
    if len(sys.argv) not in (2, 3):
        sys.exit(__doc__)
    program = os.path.abspath(sys.argv[1])
    with tempfile.TemporaryDirectory() as home:
        Path(home, "templates").mkdir()
        print(f"load at the start: {os.getloadavg()[0]:.1f}, processors: {os.cpu_count()}")
        print(f"{'':12}{'shape':6}{'resources':>10}{'bytes':>10}{'million instr':>14}{'least s':>10}{'peak MB':>10}", flush=True)
        for back in (False, True):
            measure(program, home, COUNTS, back)
        if len(sys.argv) == 3 and shutil.which("valgrind"):
            for count in COUNTS[1:]:
                measure_updates(os.path.abspath(sys.argv[2]), home, count)
                measure_sets(os.path.abspath(sys.argv[2]), home, count)


if __name__ == "__main__":
    main()
