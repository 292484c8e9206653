#!/usr/bin/env python3
"""Runs the program over homes that are damaged, full, locked or write-protected: each has to be told, and nothing may be lost.

usage: bench/faults.py PROGRAM

PROGRAM is the built program. Each row of the table that it prints is one kind of trouble, the runs that were made of it, how they
ended, and how many of them differ from what is wanted here:

- a journal cut at each of its bytes, or with a byte of its head changed: each command ends with the exit that `docs/JOURNAL.md`
  gives, with the same offset, and no byte of the home changes where it is `NotAJournal`;
- a journal of zeros beside the lanes of an older one: `LaneAhead`, and no byte of the lanes changes;
- a table of tokens cut at each of its bytes: `LaneFault`, a line on standard error, and nothing that is there changes;
- files that may not grow past a size, for each of many sizes; a file system that is full, with more and more pages that are free (as
  root, who may mount one in memory); and each call of the system in turn that writes, syncs, renames, links, makes a folder or removes,
  which fails alone, or with all behind it (by strace): the fault is told on standard error, and once all is well again the operation is
  ended, and files and records are what the journal says;
- a home, or a part of it, that may not be written; one that is of another kind; a journal that another process has: told, and
  nothing changes.

What is told on standard error has to be lines `cfstack: PATH: WORDS`, with a path of the home, or `standard output`, and the words of
the system. The journal and the tables are read by `home.py`, without the program. As root the rows of what may not be written are run
as nobody.

Homes are made where the system makes temporary files, or in TMPDIR: in memory (TMPDIR=/dev/shm) a sync costs nothing, and it takes
about two minutes. Where something differs it is told, and the status is 1.
"""
import contextlib
import fcntl
import json
import os
import re
import resource
import shutil
import signal
import subprocess
import sys
import tempfile
import time
from pathlib import Path

import home as homes
from crash import BAD, FIRST, NEXT, resource as made

FILE, RECORD = homes.FILE, homes.RECORD

NOBODY = 65534

PATHS = {"journal": "journal", "files": "files/.rows", "records": "records/rows"}

SMALL = {"A": made(FILE, Path="a", Content="x"), "B": made(RECORD, Key="b", Value={"Ref": "A"})}

# Texts of some pages, so that a page too few ends a write at its beginning, amid it or at its end.
LONG = "w" * 9000

WIDE = {"A": made(FILE, Path="a", Content=LONG), "B": made(RECORD, Key="b", Value=LONG), "C": made(FILE, ("B",), Path="c", Content=LONG)}

WIDER = {"A": made(FILE, Path="a", Content=LONG + "x"), "B": made(RECORD, Key="b", Value=LONG + "x"),
         "C": made(FILE, ("B",), Path="c2", Content=LONG)}

TEMPLATES = {"small": SMALL, "first": FIRST, "next": NEXT, "bad": BAD, "wide": WIDE, "wider": WIDER}

# How many pages more are free in each run of a full file system, up to this number.
MOST_PAGES = 60

PAGE = 4096

# What is made to fail.
CALLS = ("pwrite64", "write", "ftruncate", "fsync", "fdatasync", "rename", "link", "unlink", "mkdir")


# Of an exit the places one of which has to be told on standard error.
WHERE = {6: {"templates"}, 7: {"journal"}, 8: {"standard output"}, 13: {"files", "records"}}


# ---- Runs ----

class Faults:
    """A program, homes in which it made a stack, and what came of damaging copies of them."""

    def __init__(self, program, folder):
        self.folder = folder
        # Nobody may run this copy.
        self.program = os.path.join(folder, "program")
        shutil.copy(program, self.program)
        os.chmod(self.program, 0o755)
        self.differ = 0
        self.kept = {name: self.make(name, *templates) for name, templates in
                     (("none", ()), ("small", ("small",)), ("first", ("first",)), ("next", ("first", "next")), ("wide", ("wide",)))}

    def make(self, name, *templates):
        """A home in which these templates were deployed one after another."""
        home = os.path.join(self.folder, name)
        Path(home, "templates").mkdir(parents=True)
        for key, resources in TEMPLATES.items():
            Path(home, "templates", key).write_text(json.dumps({"Resources": resources}))
        for template in templates:
            status, lines, errors = self.call(home, "deploy", "s", template)
            if status != 0 or errors:
                sys.exit(f"deploy s {template}: {lines} {errors}")
        return home

    def call(self, home, *words, under=(), **how):
        """Runs a command; its status, its lines and the lines that it wrote on standard error."""
        ended = subprocess.run([*under, self.program, home, "1", *words], stdin=subprocess.DEVNULL, stdout=subprocess.PIPE,
                               stderr=subprocess.PIPE, check=False, timeout=600, **how)
        return ended.returncode, ended.stdout.decode().splitlines(), ended.stderr.decode().splitlines()

    def copy(self, kept, to=None, **files):
        """A copy of a home, in which these files have other bytes."""
        home = tempfile.mkdtemp(prefix="home-", dir=to or self.folder)
        shutil.copytree(self.kept[kept], home, dirs_exist_ok=True)
        for name, data in files.items():
            Path(home, PATHS[name]).write_bytes(data)
        return home

    def row(self, what, results):
        """Prints the runs of one kind of trouble: how they ended, and those that differ."""
        begin = time.perf_counter()
        results = list(results)
        wrong = [text for _, text in results if text]
        ends = {}
        for end, _ in results:
            ends[end] = ends.get(end, 0) + 1
        self.differ += len(wrong)
        told = ", ".join(f"{end} {count}" for end, count in sorted(ends.items()))
        print(f"| {what} | {len(results)} | {told} | {len(wrong)} |", flush=True)
        print(f"  {what}: {time.perf_counter() - begin:.0f} s", file=sys.stderr)
        for text in wrong[:5]:
            print(f"DIFFERS {what}: {text}", flush=True)


def state(home):
    """Every byte of a home, and each folder of it."""
    return {str(path.relative_to(home)): path.read_bytes() if path.is_file() else None for path in sorted(Path(home).rglob("*"))}


def name_of(lines):
    """The name of the exit that was printed."""
    return lines[-1].split(" ")[2] if lines and lines[-1].startswith("exit ") else "nothing"


def misprinted(home, status, lines, errors):
    """What is wrong with how a fault was told: each line on standard error has a place and words, and the exit fits them."""
    pattern = re.compile(rf"cfstack: (?:{re.escape(home)}/([^:]*)|(standard output)): (.+)")
    found = [pattern.fullmatch(line) for line in errors]
    if not all(found):
        return f"standard error says {errors}"
    places = {one.group(2) or one.group(1).split("/")[0] for one in found}
    last = lines[-1] if lines else "nothing"
    if status != 8 and not last.startswith(f"exit {status} "):
        return f"status {status}, and {last} printed"
    if status in WHERE and not places & WHERE[status] or " Fault" in last and not places & WHERE[13]:
        return f"status {status}, {last}, and standard error says {errors}"
    if errors and status in (1, 2, 3, 10, 11, 12, 14):
        return f"{last}, and standard error says {errors}"
    return ""


def changed(before, home, *but):
    """What of a home changed, but for these files."""
    after = state(home)
    return sorted(name for name in before.keys() | after.keys()
                  if (name not in before or before[name] != after.get(name, b"")) and name not in but)


# ---- Damage ----

def no_journal(data):
    """The offset from which on bytes are no journal, None where they are one."""
    try:
        homes.entries_of(data)
    except homes.NotAJournal as error:
        return error.args[0]
    return None


# How a command ends over a new journal beside the lanes of the small home.
OVER_NONE = {"describe": "exit 3 StackRefused NoStack", "events": "exit 3 StackRefused NoStack", "list": "exit 0 Done",
             "resume": 'exit 12 LaneAhead "files1" 1 1', "deploy": 'exit 12 LaneAhead "files1" 1 1'}


def damaged_journal(faults, data, *words):
    """A command over the small home with a journal of these bytes, which is none or has no entry."""
    home = faults.copy("small", journal=data)
    before, offset = state(home), no_journal(data)
    status, lines, errors = faults.call(home, *words)
    wanted = OVER_NONE[words[0]] if offset is None else f"exit 10 NotAJournal {offset}"
    wrong = misprinted(home, status, lines, errors)
    if lines != [wanted]:
        wrong = f"{lines} for {wanted}"
    elif changed(before, home, *(("journal",) if offset is None else ())):
        wrong = f"{changed(before, home)} changed"
    shutil.rmtree(home)
    return name_of(lines), wrong and f"{len(data)} bytes, {words[0]}: {wrong}"


def damaged_table(faults, name, data):
    """A deployment over a table of these bytes."""
    home = faults.copy("small", **{name: data})
    before = state(home)
    status, lines, errors = faults.call(home, "deploy", "s", "small")
    wrong = misprinted(home, status, lines, errors)
    if lines != [f'exit 13 LaneFault "{name}1"']:
        wrong = f"{lines} {errors}"
    # Before the records' fences those of the files are raised, each by a row.
    rest = changed(before, home, "journal", *((PATHS["files"],) if name == "records" else ()))
    if rest:
        wrong = f"{rest} changed"
    shutil.rmtree(home)
    return name_of(lines), wrong and f"{len(data)} bytes: {wrong}"


# ---- No room ----

def bounded(size):
    """No file may grow past this size, and the signal of that is ignored, so that the write fails."""
    def bound():
        signal.signal(signal.SIGXFSZ, signal.SIG_IGN)
        resource.setrlimit(resource.RLIMIT_FSIZE, (size, size))
    return bound


def full(faults, home, template, fill, **how):
    """A deployment where there is no room for some of it, and what ends it once there is room."""
    before = homes.read(home)
    ended = faults.call(home, "deploy", "s", template, **how)
    account = homes.read(home)
    wrong = account.complaints + homes.differences(home, account)
    wrong += [text for text in (misprinted(home, *ended),) if text]
    if ended[0] not in (0, 4, 5, 7, 8, 13) or ended[0] in (5, 7, 13) and not ended[2]:
        wrong.append(f"{ended[1][-1:]}, {ended[2]}")
    fill()
    wrong += ended_with_room(faults, home, template, before)
    shutil.rmtree(home)
    return "SinkFault" if ended[0] == 8 else name_of(ended[1]), "; ".join(map(str, wrong))


def paths_of(account):
    """The paths of the resources that the stack holds."""
    return {one.path for one in account.stacks["s"].held.values()} if "s" in account.stacks else set()


def ended_with_room(faults, home, template, before):
    """What is wrong once the operation is ended, by a resuming, the command again or a continued rollback."""
    for _ in range(2):
        stack = homes.read(home).stacks.get("s")
        if stack is None or stack.operation == before.operation:
            words = ["deploy", "s", template]
        elif stack.is_in_progress():
            words = ["resume", "s"]
        elif stack.status == "UPDATE_ROLLBACK_FAILED":
            words = ["continue-rollback", "s"]
        else:
            break
        status, lines, errors = faults.call(home, *words)
        if status not in (0, 4, 5) or errors:
            return [f"with room {words} ends with {lines[-1:]} {errors}"]
    account = homes.read(home)
    stack = account.stacks["s"]
    wrong = account.complaints + homes.differences(home, account)
    wanted = {"CREATE_COMPLETE": set(TEMPLATES[template]), "UPDATE_COMPLETE": set(TEMPLATES[template]),
              "UPDATE_ROLLBACK_COMPLETE": paths_of(before), "ROLLBACK_COMPLETE": set()}
    if stack.status != "ROLLBACK_FAILED" and wanted.get(stack.status) != paths_of(account):
        wrong.append(f"with room it is {stack.status}, and holds {sorted(paths_of(account))}")
    told = [line for line in faults.call(home, "describe", "s")[1] if not line.startswith(("parameter ", "output "))]
    if told != [*account.describe_lines("s"), "exit 0 Done"]:
        wrong.append(f"described is {told}")
    return wrong


def bounded_sizes(faults, kept, template):
    """A deployment for each seventh size that no file may pass, from what the journal has on to what it would have."""
    last = faults.copy(kept)
    least = Path(last, "journal").stat().st_size if kept != "none" else 0
    faults.call(last, "deploy", "s", template)
    most = Path(last, "journal").stat().st_size
    shutil.rmtree(last)
    for size in [0, *range(max(1, least - 5), most + 7, 7)]:
        home = faults.copy(kept)
        end, wrong = full(faults, home, template, lambda: None, preexec_fn=bounded(size))
        yield end, wrong and f"size {size}: {wrong}"


@contextlib.contextmanager
def mounted(faults, options):
    """A file system in memory."""
    place = tempfile.mkdtemp(prefix="mount-", dir=faults.folder)
    os.chmod(place, 0o755)
    subprocess.run(["mount", "-t", "tmpfs", "-o", options, "tmpfs", place], check=True)
    try:
        yield place
    finally:
        subprocess.run(["umount", place], check=True)


def fill_but(place, pages):
    """Fills a file system but for some pages; the file that does."""
    filler = Path(place, "filler")
    system = os.statvfs(place)
    with open(filler, "wb") as file:
        file.write(bytes(max(0, system.f_bavail * system.f_frsize - pages * PAGE)))
    return filler


def full_systems(faults, kept, template):
    """A deployment for each number of pages that a file system has free."""
    with mounted(faults, "size=2m") as place:
        for pages in range(MOST_PAGES):
            home = faults.copy(kept, to=place)
            filler = fill_but(place, pages)
            end, wrong = full(faults, home, template, filler.unlink)
            yield end, wrong and f"{pages} pages: {wrong}"
            if end == "Done":
                break


def calls_of(faults, kept, template):
    """The calls of a deployment, by their names, in their order."""
    home = faults.copy(kept)
    told = Path(f"{home}.calls")
    faults.call(home, "deploy", "s", template, under=["strace", "-f", "-qq", "-o", told, "-e", f"trace={','.join(CALLS)}"])
    names = re.findall(r"^\d+ +(\w+)\(", told.read_text(), re.M)
    told.unlink()
    shutil.rmtree(home)
    return names


def failing(names):
    """The words under which the last of these calls fails."""
    return ["-e", f"inject={names[-1]}:error=EIO:when={names.count(names[-1])}"]


def failing_on(names):
    """The words under which each call fails from the last of these on, but those of `write`, by which it is told."""
    words = []
    for name in CALLS:
        if name != "write":
            words += ["-e", f"inject={name}:error=EIO:when={names[:-1].count(name) + 1}+"]
    return words


def failing_calls(faults, kept, template, words_of):
    """A deployment for each of its calls of the system, with that call failing."""
    names = calls_of(faults, kept, template)
    for at in range(1, len(names) + 1):
        home = faults.copy(kept)
        under = ["strace", "-f", "-qq", "-o", "/dev/null", "-e", f"trace={','.join(CALLS)}", *words_of(names[:at])]
        end, wrong = full(faults, home, template, lambda: None, under=under)
        yield end, wrong and f"call {at}, {names[at - 1]}: {wrong}"


# ---- What may not be written, and what is of another kind ----

def refused(faults, home, status, path, text, *words, but=(), **how):
    """A command that ends with this status, one line on standard error, and nothing changed but some files."""
    before = state(home)
    ended = faults.call(home, *words, **how)
    wrong = misprinted(home, *ended)
    wanted = f"cfstack: {home}/{path}: {text}"
    if ended[0] != status or ended[2] != [wanted]:
        wrong = f"{ended} for {status}, {wanted}"
    elif changed(before, home, *but):
        wrong = f"{changed(before, home, *but)} changed"
    return name_of(ended[1]), wrong and f"{' '.join(words)}: {wrong}"


DENIED = "Permission denied (os error 13)"

READ_ONLY = "Read-only file system (os error 30)"

# Of a part of the home the exit, the path that is told, and what changes although that part can't.
PARTS = {"": (7, "journal", ()), "journal": (7, "journal", ()), "files": (13, "files/.rows", ("journal",)),
         "records": (13, "records/rows", ("journal", "files/.rows"))}


def denied(faults, part):
    """A deployment where a part of the home may not be written."""
    home = faults.copy("next")
    for path in [Path(home), *Path(home).rglob("*")]:
        path.chmod(0o777 if path.is_dir() else 0o666)
    for path in [Path(home, part), *Path(home, part).rglob("*")]:
        path.chmod(0o555 if path.is_dir() else 0o444)
    how = {"user": NOBODY, "group": NOBODY, "extra_groups": []} if os.geteuid() == 0 else {}
    status, path, but = PARTS[part]
    result = refused(faults, home, status, path, DENIED, "deploy", "s", "first", but=but, **how)
    for path in [Path(home), *Path(home).rglob("*")]:
        path.chmod(0o755)
    shutil.rmtree(home)
    return result


def read_only_systems(faults):
    """Commands over a file system that may not be written, with a journal in the home and without."""
    for kept in ("next", "none"):
        with mounted(faults, "size=2m") as place:
            home = faults.copy(kept, to=place)
            subprocess.run(["mount", "-o", "remount,ro", place], check=True)
            for words in (["describe", "s"], ["list"], ["deploy", "s", "first"]):
                yield refused(faults, home, 7, "journal", READ_ONLY, *words)
            yield validated(faults, home)


def validated(faults, home):
    """A template is read where the journal can't be."""
    ended = faults.call(home, "validate", "first")
    return name_of(ended[1]), "" if ended == (0, ["exit 0 Done"], []) else str(ended)


def of_another_kind(faults):
    """Commands where something else stands in the place of a file or a folder."""
    absent, folder, no_folder = "No such file or directory (os error 2)", "Is a directory (os error 21)", "Not a directory (os error 20)"
    cases = (("journal", Path.mkdir, 7, "journal", folder), ("journal", os.mkfifo, 7, "journal", "not a regular file"),
             ("files", Path.touch, 13, "files/.rows", no_folder), ("files/.rows", Path.mkdir, 13, "files/.rows", folder),
             ("records", Path.touch, 13, "records/rows", no_folder), ("records/rows", Path.mkdir, 13, "records/rows", folder))
    for place, make, status, path, text in cases:
        home = faults.copy("none")
        Path(home, place).parent.mkdir(exist_ok=True)
        make(Path(home, place))
        # The entry of the opening is written before the lanes are entered, and those of files before those of records.
        but = ("journal",) * (status == 13) + ("files", "files/.rows") * path.startswith("records")
        yield refused(faults, home, status, path, text, "deploy", "s", "small", but=but)
        shutil.rmtree(home)
    gone = os.path.join(faults.folder, "gone")
    yield refused(faults, gone, 7, "journal", absent, "deploy", "s", "small")
    Path(gone).touch()
    ended = faults.call(gone, "list")
    yield name_of(ended[1]), "" if ended == (7, ["exit 7 DiskFault"], [f"cfstack: {gone}/journal: {no_folder}"]) else str(ended)


def unread(faults):
    """Templates that can't be read, and a report that can't be printed."""
    home = faults.copy("small")
    templates = Path(home, "templates")
    deploy, validate = ("deploy", "s", "small"), ("validate", "small")
    shutil.rmtree(templates)
    yield refused(faults, home, 6, "templates/small", "No such file or directory (os error 2)", *validate)
    templates.touch()
    yield refused(faults, home, 6, "templates/small", "not a directory", *validate)
    templates.unlink()
    Path(templates, "small").mkdir(parents=True)
    yield refused(faults, home, 6, "templates/small", "invalid input parameter", *validate)
    # A deployment opens the journal and raises the fences before it asks for the template.
    yield refused(faults, home, 6, "templates/small", "invalid input parameter", *deploy, but=("journal", *PATHS.values()))
    with open("/dev/full", "wb") as nowhere:
        for words in (("describe", "s"), ("list",), ("events", "s"), ("validate", "one")):
            ended = subprocess.run([faults.program, home, "1", *words], stdout=nowhere, stderr=subprocess.PIPE, check=False)
            told = ended.stderr.decode().splitlines()
            right = ended.returncode == 8 and told == ["cfstack: standard output: No space left on device (os error 28)"]
            yield "SinkFault" if ended.returncode == 8 else "nothing", "" if right else f"{words}: status {ended.returncode}, {told}"
    shutil.rmtree(home)


# ---- Two processes ----

TAKEN = "another process has it open"


def locked(faults):
    """Commands while this process has the journal."""
    home = faults.copy("next")
    with open(Path(home, "journal"), "rb") as file:
        fcntl.flock(file, fcntl.LOCK_EX)
        for words in (["describe", "s"], ["list"], ["events", "s"], ["resume", "s"], ["deploy", "s", "first"]):
            yield refused(faults, home, 7, "journal", TAKEN, *words)
        yield validated(faults, home)
    shutil.rmtree(home)


def stopped_amid(faults, home):
    """A deployment that was stopped once it had written something, None where it ended before."""
    size = Path(home, "journal").stat().st_size
    child = subprocess.Popen([faults.program, home, "1", "deploy", "t", "many"], stdout=subprocess.PIPE, stderr=subprocess.PIPE)
    while child.poll() is None:
        if Path(home, "journal").stat().st_size > size:
            child.send_signal(signal.SIGSTOP)
            os.waitid(os.P_PID, child.pid, os.WSTOPPED | os.WEXITED | os.WNOWAIT)
            break
    if child.poll() is None:
        return child
    child.communicate()
    return None


def second_process(faults):
    """Commands while a deployment goes on, which is stopped meanwhile; it ends as it would have."""
    many = {f"R{number:03}": made(RECORD, Key=f"k{number}", Value="v") for number in range(300)}
    child = None
    while child is None:
        home = faults.copy("next")
        Path(home, "templates", "many").write_text(json.dumps({"Resources": many}))
        child = stopped_amid(faults, home)
    for words in (["describe", "t"], ["list"], ["resume", "t"], ["deploy", "s", "first"]):
        yield refused(faults, home, 7, "journal", TAKEN, *words)
    child.send_signal(signal.SIGCONT)
    printed, errors = child.communicate(timeout=600)
    lines = printed.decode().splitlines()
    account = homes.read(home)
    wrong = account.complaints + homes.differences(home, account)
    if child.returncode != 0 or errors or len(lines) != len(many) + 2:
        wrong.append(f"the deployment ended with {lines[-1:]} {errors}")
    yield name_of(lines), "; ".join(map(str, wrong))
    shutil.rmtree(home)


# ---- All of them ----

def play_damage(faults):
    """Prints the rows of journals and tables that are damaged."""
    journal = Path(faults.kept["small"], "journal").read_bytes()
    all_words = (("describe", "s"), ("events", "s"), ("list",), ("resume", "s"), ("deploy", "s", "small"))
    for words, step in zip(all_words, (1, 5, 5, 5, 1)):
        faults.row(f"journal cut at each {'fifth ' * (step > 1)}byte, `{words[0]}`",
                   (damaged_journal(faults, journal[:at], *words) for at in range(0, len(journal), step)))
    faults.row("a byte of the journal's head changed",
               (damaged_journal(faults, journal[:at] + b"\x07" + journal[at + 1:], *words) for at in range(10) for words in all_words))
    faults.row("`hello world` as journal", (damaged_journal(faults, b"hello world", *words) for words in all_words))
    faults.row("a journal of zeros",
               (damaged_journal(faults, bytes(size), *words) for size in (1, 10, len(journal)) for words in all_words))
    for name in ("files", "records"):
        table = Path(faults.kept["small"], PATHS[name]).read_bytes()
        faults.row(f"`{PATHS[name]}` cut at each byte", (damaged_table(faults, name, table[:at]) for at in range(1, len(table))))


def play(faults):
    """Prints the rows."""
    print("| trouble | runs | how they ended | differ |")
    print("|---|---:|---|---:|")
    play_damage(faults)
    commands = (("a creation", "none", "first"), ("an update", "first", "next"), ("an update that fails", "first", "bad"))
    for what, kept, template in commands:
        faults.row(f"no file may pass a size, {what}", bounded_sizes(faults, kept, template))
    for what, kept, template in commands if shutil.which("strace") else ():
        faults.row(f"one call fails, {what}", failing_calls(faults, kept, template, failing))
        faults.row(f"calls fail from one on, {what}", failing_calls(faults, kept, template, failing_on))
    if os.geteuid() == 0:
        for what, kept, template in (("a creation", "none", "wide"), ("an update", "wide", "wider")):
            faults.row(f"a full file system, {what}", full_systems(faults, kept, template))
        faults.row("a file system that may not be written", read_only_systems(faults))
    faults.row("no right to write", (denied(faults, part) for part in PARTS))
    faults.row("of another kind, or not there", of_another_kind(faults))
    faults.row("templates that can't be read, a full standard output", unread(faults))
    faults.row("locked", locked(faults))
    faults.row("a second process", second_process(faults))


def main():
    if len(sys.argv) != 2:
        sys.exit(__doc__)
    with tempfile.TemporaryDirectory(prefix="faults-") as folder:
        os.chmod(folder, 0o755)
        faults = Faults(os.path.abspath(sys.argv[1]), folder)
        play(faults)
    print(f"{faults.differ} runs differ")
    sys.exit(1 if faults.differ else 0)


if __name__ == "__main__":
    main()
