#!/usr/bin/env python3
"""Reads a home folder without the program: what its journal says of each stack, and what files and records are there.

usage: bench/home.py HOME

It prints for each stack of the journal its status and what it holds, then the operations that are in progress with their open
calls, and at last each difference between the journal and what is there: a resource that the journal has and that is lost, one
that is there and that the journal doesn't list, one that is there twice, one with other properties. The status is 1 where there
is a difference, and 2 where the journal can't be read.

The journal is read by `docs/JOURNAL.md` and `docs/ENTRIES.md`, files, records and the tables of tokens by `docs/DEVICES.md`;
nothing here is taken from the program. Where a call is open, so that nobody knows whether it acted, both is right.
"""
import sys
from dataclasses import dataclass, field, replace
from pathlib import Path

CODES = ("", "NotUpdatable", "InvalidRequest", "AccessDenied", "InvalidCredentials", "AlreadyExists", "NotFound",
         "ResourceConflict", "Throttling", "ServiceLimitExceeded", "NotStabilized", "GeneralServiceException",
         "ServiceInternalError", "NetworkFailure", "InternalFailure")

STATUSES = ("", "CREATE_IN_PROGRESS", "CREATE_COMPLETE", "ROLLBACK_IN_PROGRESS", "ROLLBACK_COMPLETE", "ROLLBACK_FAILED",
            "UPDATE_IN_PROGRESS", "UPDATE_COMPLETE_CLEANUP_IN_PROGRESS", "UPDATE_COMPLETE", "UPDATE_ROLLBACK_IN_PROGRESS",
            "UPDATE_ROLLBACK_COMPLETE_CLEANUP_IN_PROGRESS", "UPDATE_ROLLBACK_COMPLETE", "UPDATE_ROLLBACK_FAILED",
            "DELETE_IN_PROGRESS", "DELETE_COMPLETE", "DELETE_FAILED", "REVIEW_IN_PROGRESS")

KINDS = ("", "create", "update", "delete", "continue")

PHASES = ("", "", "clean", "back", "backclean")

WHYS = ("", "retained", "failed", "doubt")

FILE = "Local::Files::File"

RECORD = "Local::Records::Record"


class NotAnEntry(Exception):
    """The bytes are no entry."""


class NotAJournal(Exception):
    """The bytes are no journal; it has the offset."""


# ---- Bytes ----

class Bytes:
    """Bytes that are read from first to last."""

    def __init__(self, data):
        self.data = data
        self.at = 0

    def take(self, count):
        """The next bytes."""
        if self.at + count > len(self.data):
            raise NotAnEntry
        taken = self.data[self.at:self.at + count]
        self.at += count
        return taken

    def number(self, count=8):
        """A number of so many bytes."""
        return int.from_bytes(self.take(count), "big")

    def text(self):
        """A text."""
        try:
            return self.take(self.number(4)).decode()
        except UnicodeDecodeError as error:
            raise NotAnEntry from error

    def items(self, read):
        """A list whose members are read so."""
        return [read() for _ in range(self.number(4))]

    def truth(self):
        """A truth value."""
        byte = self.number(1)
        if byte > 1:
            raise NotAnEntry
        return byte == 1

    def option(self, read):
        """Nothing, or what is read so."""
        return read() if self.truth() else None

    def pairs(self, read):
        """A list of pairs of a text and what is read so."""
        return self.items(lambda: (self.text(), read()))

    def value(self):
        """A value of a property."""
        kind = self.number(1)
        if kind == 1:
            return self.text()
        if kind == 2:
            return int.from_bytes(self.take(8), "big", signed=True)
        if kind == 3:
            return self.truth()
        if kind == 4:
            return self.items(self.value)
        if kind == 5:
            return self.dictionary()
        raise NotAnEntry

    def dictionary(self):
        """Properties or attributes: their names strictly ascend."""
        pairs = self.pairs(self.value)
        names = [name.encode() for name, _ in pairs]
        if any(not one < two for one, two in zip(names, names[1:])):
            raise NotAnEntry
        return dict(pairs)

    def blob(self):
        """Bytes of any kind."""
        return self.take(self.number(4))

    def one_of(self, names):
        """One of these names, by its number from 1 on."""
        number = self.number(1)
        if not 1 <= number < len(names):
            raise NotAnEntry
        return names[number]


# ---- Entries ----

@dataclass
class Opened:
    epoch: int
    lanes: list


@dataclass
class Begin:
    number: int
    stack: str
    kind: str
    source: dict
    paths: list


@dataclass
class Kept:
    number: int
    path: str
    physical: str
    why: str


@dataclass
class Request:
    action: str
    kind: str
    physical: str
    props: dict


@dataclass
class Intent:
    number: int
    token: int
    lane: str
    path: str
    request: Request


@dataclass
class Outcome:
    number: int
    token: int
    answer: str
    physical: str
    attrs: dict
    code: str
    before: int
    after: int


@dataclass
class Phase:
    number: int
    phase: str
    cause: tuple


@dataclass
class Done:
    number: int
    status: str
    failed: list


@dataclass
class ChangeSet:
    number: int
    stack: str
    source: dict


def source_of(data):
    """The source of a creation or an update."""
    return {"root": data.text(), "templates": dict(data.pairs(data.blob)), "given": dict(data.pairs(data.text)),
            "imports": dict(data.pairs(data.text))}


def request_of(data):
    """What a call asks for."""
    kind = data.number(1)
    if kind == 1:
        return Request("CREATE", data.text(), "", data.dictionary())
    if kind == 2:
        return Request("UPDATE", "", data.text(), data.dictionary())
    if kind == 3:
        return Request("DELETE", "", data.text(), {})
    raise NotAnEntry


def outcome_of(data):
    """How a call was answered."""
    number, token, kind = data.number(), data.number(), data.number(1)
    physical, attrs, code = "", {}, ""
    if kind == 1:
        physical, attrs = data.text(), data.dictionary()
    elif kind == 2:
        code = data.one_of(CODES)
    elif kind != 3:
        raise NotAnEntry
    return Outcome(number, token, ("", "success", "failed", "doubt")[kind], physical, attrs, code, data.number(), data.number())


def cause_of(data):
    """Why an operation goes back."""
    kind = data.number(1)
    if kind == 1:
        path, reason = data.text(), data.number(1)
        return "Handler", path, CODES[reason] if reason else "Fault"
    if kind in (2, 3):
        return ("", "", "Plan", "Export")[kind], data.text()
    raise NotAnEntry


def change_set_of(data):
    """A change set, of which its rows are not kept."""
    number, stack, source = data.number(), data.text(), source_of(data)

    def detail():
        return data.number(1), data.text(), data.number(1), data.number(1)

    def row():
        return data.number(1), data.text(), data.text(), data.number(1), data.truth(), data.items(detail)

    data.items(row)
    data.truth()
    return ChangeSet(number, stack, source)


def entry_of(body):
    """The entry whose spelling these bytes are."""
    data = Bytes(body)
    kind = data.number(1)
    if kind == 1:
        entry = Opened(data.number(), data.pairs(data.text))
    elif kind == 2:
        entry = Begin(data.number(), data.text(), data.one_of(KINDS), data.option(lambda: source_of(data)), data.items(data.text))
    elif kind == 3:
        entry = Kept(data.number(), data.text(), data.text(), data.one_of(WHYS))
    elif kind == 4:
        entry = Intent(data.number(), data.number(), data.text(), data.text(), request_of(data))
    elif kind == 5:
        entry = outcome_of(data)
    elif kind == 6:
        entry = Phase(data.number(), data.one_of(PHASES), data.option(lambda: cause_of(data)))
    elif kind == 7:
        entry = Done(data.number(), data.one_of(STATUSES), data.items(data.text))
    elif kind == 8:
        entry = change_set_of(data)
    else:
        raise NotAnEntry
    if data.at != len(body):
        raise NotAnEntry
    return entry


def entries_of(data):
    """The entries of a journal's bytes."""
    if len(data) <= 1 or data[0] == 0:
        return []
    if data[1:9] != b"CFSTACK1":
        raise NotAJournal(1)
    if data[0] != 1:
        return []
    entries, at = [], 9
    while True:
        if at >= len(data):
            raise NotAJournal(at)
        if data[at] != 1:
            return entries
        size = int.from_bytes(data[at + 1:at + 5], "big")
        after = at + 5 + size
        if after >= len(data):
            raise NotAJournal(at)
        try:
            entries.append(entry_of(data[at + 5:after]))
        except NotAnEntry as error:
            raise NotAJournal(at) from error
        at = after


# ---- What the journal says ----

@dataclass
class Resource:
    """A resource that an operation made."""
    path: str
    kind: str
    physical: str
    props: dict
    status: str
    unsure: bool = False


@dataclass
class Stack:
    """A stack, by its entries."""
    name: str
    status: str = ""
    number: int = 0
    operation: int = 0
    kind: str = ""
    phase: str = ""
    held: dict = field(default_factory=dict)
    made: dict = field(default_factory=dict)
    before: dict = field(default_factory=dict)
    leftovers: list = field(default_factory=list)
    failed: list = field(default_factory=list)
    source: dict = None
    events: list = field(default_factory=list)
    restores: dict = field(default_factory=dict)

    def is_in_progress(self):
        """Whether an operation of it is in progress."""
        return self.status.endswith("IN_PROGRESS") and self.status != "REVIEW_IN_PROGRESS"


BEGINS = {"create": "CREATE_IN_PROGRESS", "update": "UPDATE_IN_PROGRESS", "delete": "DELETE_IN_PROGRESS",
          "continue": "UPDATE_ROLLBACK_IN_PROGRESS"}


class Account:
    """What a list of entries says: of each stack, of each call, and of what is live."""

    def __init__(self, entries):
        self.entries = entries
        self.stacks = {}
        self.operations = {}
        self.intents = {}
        self.outcomes = {}
        self.live = {}
        self.resources = {}
        self.open = {}
        self.abandoned = {}
        self.complaints = []
        self.epoch = self.token = self.operation = 0
        steps = {Opened: self.opened, Begin: self.begin, Kept: self.kept, Intent: self.intent, Outcome: self.outcome,
                 Phase: self.turn, Done: self.done, ChangeSet: self.change_set}
        for place, entry in enumerate(entries, 1):
            self.place = place
            steps[type(entry)](entry)

    def complain(self, text):
        """Notes that an entry doesn't fit behind those before it."""
        self.complaints.append(f"entry {self.place}: {text}")

    def event(self, stack, text):
        """Notes an event of a stack."""
        stack.events.append(f"event {self.place} {text}")

    def opened(self, entry):
        self.epoch += 1
        if entry.epoch != self.epoch:
            self.complain(f"epoch {entry.epoch} for {self.epoch}")

    def begin(self, entry):
        self.operation += 1
        if entry.number != self.operation:
            self.complain(f"operation {entry.number} for {self.operation}")
        stack = self.stacks.setdefault(entry.stack, Stack(entry.stack))
        if stack.is_in_progress():
            self.complain(f"{stack.name} begins in {stack.status}")
        self.operations[entry.number] = stack
        stack.operation, stack.kind, stack.phase, stack.status = entry.number, entry.kind, "forward", BEGINS[entry.kind]
        if entry.kind == "create":
            stack.number = entry.number
        if entry.kind in ("create", "update"):
            stack.before = {key: replace(one) for key, one in stack.held.items()}
            stack.made, stack.source, stack.restores = {}, entry.source, {}
        if entry.kind == "continue":
            stack.phase = "back"
            self.skip(stack, entry.paths)
        self.event(stack, f"- {stack.status}")

    def skip(self, stack, paths):
        """A rollback goes on without what failed at these paths."""
        for token, call in list(self.open.items()):
            if self.operations[call.number] is stack and call.path in paths:
                self.abandoned[token] = self.open.pop(token)
                if call.request.action == "CREATE":
                    stack.leftovers.append((call.path, "-", "doubt"))
        for physical, one in stack.held.items():
            if one.path in paths:
                one.props = stack.before[physical].props
                one.status, one.unsure = "UPDATE_COMPLETE", True

    def kept(self, entry):
        stack = self.operations[entry.number]
        stack.leftovers.append((entry.path, entry.physical or "-", entry.why))
        stack.held.pop(entry.physical, None)
        stack.made.pop(entry.physical, None)
        for token, call in list(self.open.items()):
            about = call.request.physical == entry.physical if entry.physical else call.path == entry.path
            if self.operations[call.number] is stack and about:
                self.abandoned[token] = self.open.pop(token)
        self.event(stack, f"{entry.path} {'DELETE_SKIPPED' if entry.why == 'retained' else 'DELETE_FAILED'}")

    def intent(self, entry):
        self.token += 1
        if entry.token != self.token:
            self.complain(f"token {entry.token} for {self.token}")
        stack = self.operations[entry.number]
        if entry.number != stack.operation or not stack.is_in_progress():
            self.complain(f"operation {entry.number} of {stack.name} is not in progress")
        if any(self.operations[call.number] is stack and call.path == entry.path for call in self.open.values()):
            self.complain(f"{entry.path} has an open call already")
        self.intents[entry.token] = self.open[entry.token] = entry
        self.event(stack, f"{entry.path} {entry.request.action}_IN_PROGRESS")

    def outcome(self, entry):
        call = self.open.get(entry.token)
        if call is None:
            self.complain(f"the call of token {entry.token} is not open")
            return
        stack = self.operations[call.number]
        action = call.request.action
        if entry.answer == "doubt":
            self.mark(stack, call)
            self.event(stack, f"{call.path} {action}_FAILED Fault")
            return
        del self.open[entry.token]
        self.outcomes[entry.token] = entry
        if entry.answer == "success" or (action == "DELETE" and entry.code == "NotFound"):
            self.event(stack, f"{call.path} {action}_COMPLETE")
            self.act(stack, call, entry)
        else:
            self.event(stack, f"{call.path} {action}_FAILED {entry.code}")
            self.mark(stack, call)

    def act(self, stack, call, entry):
        """What a call that was answered with success did."""
        request = call.request
        if request.action == "CREATE":
            was_there = any(one.path == call.path for one in stack.before.values())
            status = "UPDATE_COMPLETE" if was_there else "CREATE_COMPLETE"
            made = Resource(call.path, request.kind, entry.physical, request.props, status)
            if entry.physical in self.resources:
                self.complain(f"{entry.physical} is made twice")
            self.live[entry.physical] = request.kind, request.props
            self.resources[entry.physical] = stack.made[entry.physical] = made
        elif request.action == "UPDATE":
            if request.physical not in self.live:
                self.complain(f"{request.physical} is updated and not live")
                return
            self.live[request.physical] = self.live[request.physical][0], request.props
            one = self.resources[request.physical]
            one.props, one.status, one.unsure = request.props, "UPDATE_COMPLETE", False
        else:
            self.live.pop(request.physical, None)
            stack.held.pop(request.physical, None)
            stack.made.pop(request.physical, None)

    def mark(self, stack, call):
        """Marks the resource of a call that failed, where it is one that gives back or takes away."""
        one = self.resources.get(call.request.physical)
        if one is None:
            return
        if call.request.action == "DELETE":
            one.status = "DELETE_FAILED"
        elif stack.phase == "back":
            one.status = "UPDATE_FAILED"

    def turn(self, entry):
        stack = self.operations[entry.number]
        stack.phase = entry.phase
        if entry.phase == "clean":
            stack.status = "UPDATE_COMPLETE_CLEANUP_IN_PROGRESS"
            stack.held.update(stack.made)
            stack.made = {}
        elif entry.phase == "back":
            stack.status = "ROLLBACK_IN_PROGRESS" if stack.kind == "create" else "UPDATE_ROLLBACK_IN_PROGRESS"
        else:
            stack.status = "UPDATE_ROLLBACK_COMPLETE_CLEANUP_IN_PROGRESS"
        self.event(stack, f"- {stack.status}")

    def done(self, entry):
        stack = self.operations[entry.number]
        if entry.number != stack.operation or not stack.is_in_progress():
            self.complain(f"operation {entry.number} of {stack.name} is not in progress")
        stack.status, stack.failed, stack.phase = entry.status, entry.failed, ""
        if entry.status in ("CREATE_COMPLETE", "ROLLBACK_FAILED"):
            stack.held.update(stack.made)
            stack.made = {}
        self.event(stack, f"- {entry.status}")

    def change_set(self, entry):
        stack = self.stacks.setdefault(entry.stack, Stack(entry.stack))
        if stack.status in ("", "DELETE_COMPLETE"):
            stack.status, stack.number = "REVIEW_IN_PROGRESS", 0
            self.event(stack, "- REVIEW_IN_PROGRESS")

    def pending(self):
        """The calls of which nobody knows whether they acted: the open ones, and those that were given up."""
        return {**self.abandoned, **self.open}

    def list_lines(self):
        """The lines of `list` but for its exit."""
        told = (stack for _, stack in sorted(self.stacks.items(), key=lambda pair: pair[0].encode()))
        return [f"stack {one.name} {one.status} {one.number}" for one in told if one.status != "DELETE_COMPLETE"]

    def describe_lines(self, name):
        """The lines of `describe` but for its exit, its parameters and its outputs; of a stack that nothing is in progress of."""
        stack = self.stacks[name]
        held = sorted(stack.held.values(), key=lambda one: (one.path.encode(), one.physical.encode()))
        lines = [f"stack {name} {stack.status} {stack.number}"]
        for one in held:
            lines.append(f"resource {one.path} {one.kind} {one.physical} {one.status}{' unsure' if one.unsure else ''}")
        lines += [f"leftover {path} {physical} {why}" for path, physical, why in stack.leftovers]
        return lines + [f"failed {path}" for path in stack.failed]


# ---- What is there ----

class Damaged(Exception):
    """A table of tokens that can't be read; it has the file and the offset."""


@dataclass
class Row:
    """A row of a table: a call that was settled, or a fence that was raised."""
    is_done: bool
    entry: object
    outcome: Outcome = None


@dataclass
class Folder:
    """What a folder of resources has: its rows, what is live, how calls were settled, the fences, and the row that may be undone."""
    rows: list = field(default_factory=list)
    live: dict = field(default_factory=dict)
    settled: dict = field(default_factory=dict)
    fences: dict = field(default_factory=dict)
    undone: Row = None


def row_of(is_done, body):
    """The row whose body these bytes are: the length of its first entry, that entry, and the rest."""
    data = Bytes(body)
    entry = entry_of(data.blob())
    rest = data.take(len(body) - data.at)
    if isinstance(entry, Opened) and not rest and len(entry.lanes) == 1:
        return Row(is_done, entry)
    outcome = entry_of(rest)
    if not isinstance(entry, Intent) or not isinstance(outcome, Outcome) or entry.token != outcome.token:
        raise NotAnEntry
    return Row(is_done, entry, outcome)


def rows_of(path):
    """The rows of a table."""
    data = path.read_bytes() if path.exists() else b""
    rows, at = [], 0
    while data:
        if at >= len(data):
            raise Damaged(path, at)
        if data[at] not in (1, 2):
            break
        after = at + 5 + int.from_bytes(data[at + 1:at + 5], "big")
        if after >= len(data):
            raise Damaged(path, at)
        try:
            rows.append(row_of(data[at] == 2, data[at + 5:after]))
        except NotAnEntry as error:
            raise Damaged(path, at) from error
        at = after
    return rows


def act_on(live, request, physical):
    """What a call that succeeded did to what is live."""
    if request.action == "CREATE":
        live[physical] = request.kind, request.props
    elif request.action == "DELETE":
        live.pop(physical, None)
    elif physical in live:
        live[physical] = live[physical][0], request.props


def folder_of(path):
    """What a table says."""
    folder = Folder(rows_of(path))
    for row in folder.rows:
        if row.outcome is None:
            folder.fences[row.entry.lanes[0][0]] = row.entry.epoch
            continue
        folder.settled[row.entry.token] = row
        if row.outcome.answer == "success":
            act_on(folder.live, row.entry.request, row.outcome.physical)
    if folder.rows and not folder.rows[-1].is_done:
        folder.undone = folder.rows[-1]
    return folder


def tables_of(home):
    """What the tables of both folders say."""
    return {FILE: folder_of(Path(home, "files", ".rows")), RECORD: folder_of(Path(home, "records", "rows"))}


# ---- The comparison ----

def read(home):
    """What the journal of a home says."""
    path = Path(home, "journal")
    return Account(entries_of(path.read_bytes() if path.exists() else b""))


def answer_of(outcome):
    """What was answered, without how many faults there were."""
    return outcome.answer, outcome.physical, outcome.attrs, outcome.code


def token_differences(account, kind, folder):
    """How a table differs from the calls that the journal has."""
    lanes = {lane for entry in account.entries if isinstance(entry, Opened) for lane, its in entry.lanes if its == kind}
    calls = {token: call for token, call in account.intents.items() if call.lane in lanes}
    found = []
    for token, row in folder.settled.items():
        call = calls.get(token)
        if call is None:
            found.append(f"token {token} is settled in the table of {kind}, and the journal has no call of it")
        elif (call.lane, call.request) != (row.entry.lane, row.entry.request):
            found.append(f"token {token} is another call in the table than in the journal")
    for token, outcome in account.outcomes.items():
        if token in calls and token not in folder.settled:
            found.append(f"token {token} has an outcome in the journal, and the table of {kind} has none")
        elif token in calls and answer_of(folder.settled[token].outcome) != answer_of(outcome):
            found.append(f"token {token} has another answer in the table than in the journal")
    if len(folder.settled) != sum(row.outcome is not None for row in folder.rows):
        found.append(f"a token is settled twice in the table of {kind}")
    for lane, fence in folder.fences.items():
        if fence > account.epoch:
            found.append(f"the fence of {lane} is {fence}, past the journal's last opening {account.epoch}")
    return found


def live_differences(account, kind, folder):
    """How what a table has live differs from what the journal says, where open calls count as the table settled them."""
    wanted = {physical: one for physical, one in account.live.items() if one[0] == kind}
    for token, call in sorted(account.pending().items()):
        row = folder.settled.get(token)
        if row is not None and row.outcome.answer == "success":
            act_on(wanted, call.request, row.outcome.physical)
    found = [f"{physical} is lost" for physical in wanted.keys() - folder.live.keys()]
    found += [f"{physical} is there and not listed" for physical in folder.live.keys() - wanted.keys()]
    found += [f"{physical} has {folder.live[physical][1]} for {wanted[physical][1]}"
              for physical in wanted.keys() & folder.live.keys() if wanted[physical] != folder.live[physical]]
    main = "Path" if kind == FILE else "Key"
    same = [(props[main], props.get("Class")) for _, props in folder.live.values()]
    return sorted(found) + [f"{one} is there twice" for one in set(same) if same.count(one) > 1]


def file_differences(home, folder):
    """How the files that are there differ from those that the table has live; the last row may be undone yet."""
    wanted = {props["Path"]: {props["Content"]} for _, props in folder.live.values()}
    undone = folder.undone
    if undone is not None and undone.outcome is not None and undone.outcome.answer == "success":
        before = {}
        for row in folder.rows[:-1]:
            if row.outcome is not None and row.outcome.answer == "success":
                act_on(before, row.entry.request, row.outcome.physical)
        for live in (before, folder.live):
            _, props = live.get(undone.outcome.physical, ("", {}))
            wanted.setdefault(undone.entry.path, set()).add(props.get("Content"))
    there = {path.name: path for path in Path(home, "files").iterdir()} if Path(home, "files").is_dir() else {}
    found = [f"the file {name} is there and not listed" for name in there.keys() - wanted.keys() - {".rows", ".new"}]
    for name, contents in wanted.items():
        content = there[name].read_text() if name in there else None
        if content not in contents:
            found.append(f"the file {name} is lost" if content is None else f"the file {name} has another content")
    return sorted(found)


def differences(home, account):
    """Each difference between what the journal says and what is there."""
    try:
        tables = tables_of(home)
    except Damaged as damage:
        return [f"{damage.args[0]} is no table, from {damage.args[1]} on"]
    found = []
    for kind, folder in tables.items():
        found += token_differences(account, kind, folder) + live_differences(account, kind, folder)
    return found + file_differences(home, tables[FILE])


def main():
    if len(sys.argv) != 2:
        sys.exit(__doc__)
    try:
        account = read(sys.argv[1])
    except NotAJournal as error:
        print(f"no journal, at {error.args[0]}")
        sys.exit(2)
    for name in sorted(account.stacks, key=str.encode):
        stack = account.stacks[name]
        print("\n".join(account.describe_lines(name)))
        if stack.is_in_progress():
            print(f"in progress {stack.name} operation {stack.operation}, {stack.phase}")
    for token, call in account.pending().items():
        print(f"open {token} {call.request.action} {call.path} on {call.lane}")
    found = account.complaints + differences(sys.argv[1], account)
    for text in found:
        print(f"DIFFERS {text}")
    sys.exit(1 if found else 0)


if __name__ == "__main__":
    main()
