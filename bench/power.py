#!/usr/bin/env python3
"""Leaves of a command's files what a loss of power might leave, at each moment, and looks that the program goes on from there.

usage: bench/power.py PROGRAM [SEED]

PROGRAM is the built program. Of four commands (those of `crash.py --steps`) every call of the system is recorded by strace that makes,
writes, syncs, names or removes a file. From these calls it is worked out for the moment behind each what the disk may hold, by what
POSIX promises of a sync: a file that was synced holds what it held then, and a folder that was synced the names that it had; of what
came later any part may be there. Made of each moment are three homes: one in which nothing is left that was not synced, and two in
which of each write, name and removal since then it is chosen at random whether it is left, and of a write perhaps a part, or of one to
the journal other bytes.

Each home is compared with its journal by `home.py` as after a kill; then the operation is resumed, or the command given again, and the
end is compared with what the template says. Behind the last call nothing may be in progress. Where something differs it is told, the
home is kept, and the status is 1. Homes are made in TMPDIR.
"""
import copy
import json
import os
import random
import re
import shutil
import subprocess
import sys
import tempfile
from pathlib import Path

from crash import STEPS, Trial

CALLS = "openat,pwrite64,write,ftruncate,fsync,fdatasync,rename,link,unlink,mkdir,close"

LINE = re.compile(r"^\d+ +(\w+)\((.*)\) += (-?\d+)", re.S)

TEXT = re.compile(r'"((?:\\x[0-9a-f]{2})*)"')


def texts_of(words):
    """The texts of a call, as bytes."""
    return [bytes.fromhex(text.replace("\\x", "")) for text in TEXT.findall(words)]


class Disk:
    """The files below a folder: what is read, what is on the disk for sure, and what may be there since."""

    def __init__(self, home):
        self.home = home.encode()
        self.names, self.sure_names, self.moves = {}, {}, []
        self.bytes, self.sure_bytes, self.writes = {}, {}, {}
        self.opened = {}
        self.folders, self.sure_folders = {self.home}, {self.home}
        for path in Path(home).rglob("*"):
            if path.is_dir():
                self.folders.add(bytes(path))
                self.sure_folders.add(bytes(path))
            else:
                self.names[bytes(path)] = self.sure_names[bytes(path)] = self.file(path.read_bytes())

    def file(self, data=b""):
        """A new file."""
        number = len(self.bytes)
        self.bytes[number], self.sure_bytes[number], self.writes[number] = bytearray(data), data, []
        return number

    def move(self, path, file):
        """A path has this file from now on, or none."""
        self.names[path] = file
        self.moves.append((path, file))

    def call(self, name, words, result):
        """One call of the system that was answered so; whether it changed anything here."""
        texts = texts_of(words)
        if name == "close":
            self.opened.pop(int(words), None)
        elif name == "openat":
            return self.open(texts[0], words, result)
        elif name in ("pwrite64", "write"):
            return self.write(int(words.split(",")[0]), texts[0][:result], words if name == "pwrite64" else None)
        elif name in ("fsync", "fdatasync"):
            return self.sync(self.opened.get(int(words)))
        elif name == "ftruncate" and int(words.split(",")[0]) in self.opened:
            raise ValueError("a cut is not known here")
        elif name == "mkdir" and texts[0].startswith(self.home + b"/"):
            self.folders.add(texts[0])
            self.moves.append((texts[0], "folder"))
        elif name in ("rename", "link"):
            file = self.names[texts[0]]
            self.move(texts[1], file)
            if name == "rename":
                self.move(texts[0], None)
        elif name == "unlink":
            self.move(texts[0], None)
        return name in ("mkdir", "rename", "link", "unlink")

    def open(self, path, words, result):
        """A file or a folder below the home is opened, and made where it is not there."""
        if path != self.home and not path.startswith(self.home + b"/"):
            return False
        if path in self.folders:
            self.opened[result] = path
            return False
        made = self.names.get(path) is None
        if made:
            self.move(path, self.file())
        self.opened[result] = [self.names[path], 0]
        return made

    def write(self, number, data, words):
        """Bytes are written to a file, at an offset or behind those before."""
        if not isinstance(self.opened.get(number), list):
            return False
        file, at = self.opened[number]
        if words is not None:
            at = int(words.rsplit(",", 1)[1])
        else:
            self.opened[number][1] = at + len(data)
        put(self.bytes[file], at, data)
        self.writes[file].append((at, data))
        return True

    def sync(self, what):
        """A file or a folder is synced."""
        if isinstance(what, list):
            self.sure_bytes[what[0]], self.writes[what[0]] = bytes(self.bytes[what[0]]), []
            return True
        if what is not None:
            mine = [move for move in self.moves if os.path.dirname(move[0]) == what]
            self.moves = [move for move in self.moves if move not in mine]
            for path, file in mine:
                self.settle(self.sure_names, self.sure_folders, path, file)
        return what is not None

    @staticmethod
    def settle(names, folders, path, file):
        """A name is on the disk, or gone from it."""
        if file == "folder":
            folders.add(path)
        else:
            names[path] = file

    def leave(self, home, chance):
        """Leaves what a loss of power may leave: nothing that is not sure, or of that a part by chance."""
        names, folders = dict(self.sure_names), set(self.sure_folders)
        for path, file in self.moves:
            if chance is not None and chance.random() < 0.5:
                self.settle(names, folders, path, file)
        for folder in sorted(folders):
            if all(folder[:at] in folders for at in range(len(self.home), len(folder)) if folder[at:at + 1] == b"/"):
                os.makedirs(home + os.fsdecode(folder[len(self.home):]), exist_ok=True)
        for path, file in names.items():
            if file is None or not os.path.isdir(home + os.fsdecode(os.path.dirname(path)[len(self.home):])):
                continue
            data = bytearray(self.sure_bytes[file])
            for at, written in self.writes[file] if chance is not None else ():
                put(data, at, torn(chance, data[at:at + len(written)], written, path.endswith(b"/journal")))
            Path(home + os.fsdecode(path[len(self.home):])).write_bytes(data)


def torn(chance, before, written, is_journal):
    """What may be there of bytes that were written over others: all, a first part, none, or of each byte the one or the other. Of the
    journal nothing rests on that, so there it may be any."""
    kind = chance.randrange(4)
    if kind == 3:
        mixed = zip(before.ljust(len(written), b"\0"), written)
        return chance.randbytes(len(written)) if is_journal else bytes(chance.choice(pair) for pair in mixed)
    return (written, written[:chance.randrange(len(written) + 1)], b"")[kind]


def put(data, at, written):
    """Writes bytes over others, and past their end."""
    if len(data) < at:
        data.extend(bytes(at - len(data)))
    data[at:at + len(written)] = written


def moments(trial, words):
    """The disk behind each call of a command that changes something, from its beginning on."""
    disk, told = Disk(trial.home), f"{trial.home}.calls"
    yield disk
    line = ["strace", "-f", "-qq", "-xx", "-s", "10000000", "-o", told, "-e", f"trace={CALLS}"]
    subprocess.run([*line, trial.program, trial.home, "1", *words], stdout=subprocess.DEVNULL, stderr=subprocess.DEVNULL, check=False)
    for text in Path(told).read_text().splitlines():
        found = LINE.match(text)
        if found and int(found.group(3)) >= 0 and disk.call(found.group(1), found.group(2), int(found.group(3))):
            yield disk
    os.unlink(told)


def prepare(trial, folder, step):
    """A home before a command; what its stack holds then."""
    trial.begin_home(folder)
    for name, resources in (("first", step[1]), ("next", step[2])):
        Path(trial.home, "templates", name).write_text(json.dumps({"Resources": resources}))
    if step[1]:
        trial.what = "the first"
        trial.call("deploy", "s", "first")
        trial.compare_end("s", trial.check().stacks["s"], step[1], False, None)
    return copy.deepcopy(trial.stacks.get("s"))


def go_on(trial, step, held, is_last):
    """Goes on from what a loss of power left."""
    trial.stacks = {"s": copy.deepcopy(held)} if held else {}
    stack = trial.check().stacks.get("s")
    if is_last and (stack is None or stack.is_in_progress()):
        trial.complain("the command has ended, and its operation is in progress")
    if stack is None or stack.operation == (1 if held else 0):
        trial.call("deploy", "s", "next")
    elif stack.is_in_progress():
        trial.call("resume", "s")
    trial.compare_end("s", trial.check().stacks["s"], step[2], step[3], held)


def lose_power(trial, folder, step, chance):
    """Loses power at each moment of a command, three times; how many moments there are."""
    held = prepare(trial, folder, step)
    begun = trial.home
    states = [copy.deepcopy(disk) for disk in moments(trial, ["deploy", "s", "next"])]
    for number, disk in enumerate(states):
        for random_one in (None, chance, chance):
            complaints = trial.complaints
            trial.home = tempfile.mkdtemp(prefix="home-", dir=folder)
            trial.what = f"{step[0]}, moment {number} of {len(states) - 1}"
            disk.leave(trial.home, random_one)
            go_on(trial, step, held, number == len(states) - 1)
            if trial.complaints == complaints:
                shutil.rmtree(trial.home)
    shutil.rmtree(begun)
    return len(states)


def main():
    if len(sys.argv) not in (2, 3):
        sys.exit(__doc__)
    folder = tempfile.mkdtemp(prefix="power-")
    trial = Trial(os.path.abspath(sys.argv[1]), 0, "1")
    chance = random.Random(int(sys.argv[2]) if len(sys.argv) == 3 else 1)
    print("| command | moments | homes | differences |")
    print("|---|---:|---:|---:|")
    for step in STEPS:
        complaints = trial.complaints
        count = lose_power(trial, folder, step, chance)
        print(f"| {step[0]} | {count} | {3 * count} | {trial.complaints - complaints} |", flush=True)
    if trial.complaints:
        sys.exit(f"homes that differ are kept in {folder}")
    shutil.rmtree(folder)


if __name__ == "__main__":
    main()
