#!/usr/bin/env python3
"""Measures `load N` beside a plain C program that makes the same writes and syncs.

usage: bench/load.py PROGRAM N [ROUNDS]

PROGRAM is the built program. In turn, in new home folders on the same disk, it makes the stack of `load N`, and so does `load.c`,
which is compiled here: it leaves the same journal, records and tables of tokens by the same writes and syncs, and does nothing else.
After each round the bytes of both homes are compared; a file that differs ends it. Printed are the least, the median and the greatest
time of each in so many rounds (five, if not said), the median of the program in times of that of C, and what strace counts of
writes and syncs of both. The status is 1 where the program takes more than three times as long.

Where the program has no command `load`, a template of that text is deployed in its place under the same names, which leaves the same
bytes. Folders are made where the system makes temporary ones, or in TMPDIR: that has to be a real disk, since in memory a sync costs
nothing.
"""
import json
import os
import re
import shutil
import statistics
import subprocess
import sys
import tempfile
import time
from pathlib import Path

MOST_TIMES = 3.0

CALLS = "write,pwrite64,writev,pwritev,ftruncate,fsync,fdatasync,rename,renameat,renameat2,link,linkat,openat,mkdir,mkdirat,unlink,unlinkat"


def load_text(count):
    """The template of the load mode: a tree of records, each with the length of the one that it needs."""
    resources = {}
    for number in range(1, count + 1):
        value = {"Fn::Sub": f"v{number} of ${{R{number // 2:04}.Length}}"} if number > 1 else "v1"
        resources[f"R{number:04}"] = {"Properties": {"Key": f"k{number}", "Value": value}, "Type": "Local::Records::Record"}
    text = {"Outputs": {"Last": {"Value": {"Fn::GetAtt": [f"R{count:04}", "Length"]}}}, "Resources": resources}
    return json.dumps(text, separators=(",", ":"))


def last_of(count):
    """The length of the last value."""
    if count == 1:
        return len("v1")
    return len(f"v{count} of {last_of(count // 2)}")


def bytes_in(folder):
    """The files of a home but its templates, by their paths."""
    found = {}
    for path in sorted(Path(folder).rglob("*")):
        inner = path.relative_to(folder)
        if path.is_file() and inner.parts[0] != "templates":
            found[str(inner)] = path.read_bytes()
    return found


def home_in(folder, count):
    """A new home, with the template of the load mode."""
    home = tempfile.mkdtemp(prefix="home-", dir=folder)
    Path(home, "templates").mkdir()
    Path(home, "templates", f"load-{count}").write_text(load_text(count))
    return home


def timed(words):
    """The seconds of a run, and its lines."""
    begin = time.perf_counter()
    ended = subprocess.run(words, stdout=subprocess.PIPE, stderr=subprocess.PIPE, check=False)
    taken = time.perf_counter() - begin
    if ended.returncode != 0:
        sys.exit(f"{' '.join(words)}: status {ended.returncode}: {ended.stdout.decode()[-300:]}{ended.stderr.decode()[-300:]}")
    return taken, ended.stdout.decode().splitlines()


def words_of(program, home, count, has_load):
    """The words that make the stack."""
    command = ["load", str(count)] if has_load else ["deploy", f"load-{count}", f"load-{count}"]
    return [program, home, "1", *command]


def check_report(lines, count, has_load):
    """Compares what the program printed with what it has to print."""
    if has_load:
        wanted = [f"load {count}", f"stack load-{count} CREATE_COMPLETE", f"resources {count}", f'last "{last_of(count)}"', "exit 0 Done"]
        if lines != wanted:
            sys.exit(f"load printed {lines}")
    elif sum(line.startswith("resource ") for line in lines) != count or f'output Last "{last_of(count)}"' not in lines:
        sys.exit(f"deploy printed {lines[:2]} .. {lines[-2:]}")


def compare(one, other):
    """Ends where two homes differ."""
    mine, plain = bytes_in(one), bytes_in(other)
    for name in sorted(mine.keys() | plain.keys()):
        if mine.get(name) != plain.get(name):
            sizes = [len(found[name]) if name in found else "none" for found in (mine, plain)]
            sys.exit(f"{name} differs: {sizes[0]} bytes of the program, {sizes[1]} of C; homes are kept: {one} {other}")
    return {name: len(data) for name, data in mine.items()}


def counted(words):
    """What strace counts of a run's calls."""
    if shutil.which("strace") is None:
        return "-"
    ended = subprocess.run(["strace", "-f", "-c", "-e", f"trace={CALLS}", *words], stdout=subprocess.DEVNULL, stderr=subprocess.PIPE,
                           check=False)
    found = re.findall(r"^\s*[\d.]+\s+[\d.]+\s+\d+\s+(\d+)\s+(?:\d+\s+)?(\w+)$", ended.stderr.decode(), re.M)
    return ", ".join(f"{name} {count}" for count, name in sorted(found, key=lambda pair: pair[1]) if name != "total")


def compile_plain(folder):
    """The C program."""
    plain = os.path.join(folder, "load")
    source = os.path.join(os.path.dirname(os.path.abspath(__file__)), "load.c")
    subprocess.run(["cc", "-O2", "-Wall", "-o", plain, source], check=True)
    return plain


def measure(program, plain, folder, count, rounds, has_load):
    """The times of both, and the sizes of what they leave."""
    times, sizes = {"program": [], "C": []}, {}
    for _ in range(rounds):
        mine, theirs = home_in(folder, count), home_in(folder, count)
        taken, lines = timed(words_of(program, mine, count, has_load))
        check_report(lines, count, has_load)
        times["program"].append(taken)
        times["C"].append(timed([plain, theirs, str(count)])[0])
        sizes = compare(mine, theirs)
        shutil.rmtree(mine)
        shutil.rmtree(theirs)
    return times, sizes


def main():
    if len(sys.argv) not in (3, 4):
        sys.exit(__doc__)
    program, count = os.path.abspath(sys.argv[1]), int(sys.argv[2])
    rounds = int(sys.argv[3]) if len(sys.argv) == 4 else 5
    folder = tempfile.mkdtemp(prefix="load-")
    plain = compile_plain(folder)
    has_load = subprocess.run([program, home_in(folder, 1), "1", "load", "1"], stdout=subprocess.PIPE, check=False).returncode == 0
    print(f"load at the start: {os.getloadavg()[0]:.1f}, processors: {os.cpu_count()}, {'load' if has_load else 'deploy'} {count}")
    times, sizes = measure(program, plain, folder, count, rounds, has_load)
    print(f"bytes: {', '.join(f'{name} {size}' for name, size in sizes.items())}")
    print(f"{'':10}{'least s':>10}{'median s':>10}{'most s':>10}  calls")
    for name, taken in times.items():
        home = home_in(folder, count)
        words = words_of(program, home, count, has_load) if name == "program" else [plain, home, str(count)]
        print(f"{name:10}{min(taken):>10.3f}{statistics.median(taken):>10.3f}{max(taken):>10.3f}  {counted(words)}")
    ratio = statistics.median(times["program"]) / statistics.median(times["C"])
    print(f"the program takes {ratio:.2f} times as long as C")
    shutil.rmtree(folder)
    if ratio > MOST_TIMES:
        sys.exit(1)


if __name__ == "__main__":
    main()
