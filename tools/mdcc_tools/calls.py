"""The calls that a program makes at files and sockets, as `tools/native/calls.c` records them, and what a power cut among them may leave."""
import os
from collections import Counter
from itertools import combinations
from typing import NamedTuple

from .compiled import library

# Calls at a descriptor that the program opened and keeps; `read` and `write` are at its standard streams. A socket is bound as it is made, and
# only then moved above those.
AT_FILES = ("flock", "fsync", "fdatasync", "ftruncate", "pread", "pwrite", "zeros")
# Those that change a file, and those that make that durable. `zeros` are written as `pwrite` writes, and a record has no bytes of them.
CHANGES, SYNCS = ("pwrite", "zeros", "ftruncate"), ("fsync", "fdatasync")
AT_SOCKETS = ("setsockopt", "recvfrom", "sendto")


class Call(NamedTuple):
    """A call: `target` is what its descriptor stands for, `at` its offset, port, operation or timeout, `answer` what it answered, and `error`
    its errno where that is -1. `is_ruled` says whether the rule of the run struck it."""
    name: str
    descriptor: int
    target: str
    at: int
    size: int
    data: bytes
    answer: int
    error: int
    is_ruled: bool

    def file(self):
        """The name of the file in its folder, or what else its descriptor stands for."""
        return os.path.basename(self.target)

    def is_made(self):
        return self.answer >= 0

    def written(self):
        """The bytes that a call wrote at its offset."""
        return bytes(self.answer) if self.name == "zeros" else self.data[:self.answer]


class Rule(NamedTuple):
    """Of the calls of a name those from the `first`-th on, `count` of them or all where it is 0, end so: with an errno, `short` or `nothing`."""
    name: str
    first: int
    count: int
    how: object

    def text(self):
        return f"{self.name} {self.first} {self.count} {self.how}"


def leave_out(name):
    """The rule that no call of this name is made, though each is answered as if it were."""
    return Rule(name, 1, 0, "nothing")


def environment_of(record, rule=None, most_bytes=64):
    """What a program is given in its environment so that its calls are recorded in a file."""
    given = {"LD_PRELOAD": library("calls"), "CALLS_RECORD": os.path.abspath(record), "CALLS_BYTES": str(most_bytes)}
    return given if rule is None else {**given, "CALLS_RULE": rule.text()}


def call_in(line):
    name, descriptor, target, at, size, data, answer, error, ruled = line.split(" ")
    return Call(name, int(descriptor), target, int(at), int(size), b"" if data == "-" else bytes.fromhex(data), int(answer), int(error), ruled == "1")


def read_calls(path):
    """The calls of a record, in their order."""
    try:
        with open(path) as file:
            return [call_in(line) for line in file.read().splitlines()]
    except FileNotFoundError:
        return []


def has_struck(path):
    """Whether the rule of a run struck, up to now; of a record that is still written."""
    try:
        with open(path, "rb") as file:
            return b" 1\n" in file.read()
    except FileNotFoundError:
        return False


def counts_of(calls):
    return Counter(call.name for call in calls)


# ---- what is durable

class Image:
    """The bytes of a file: those that are durable, and what was written and cut since."""

    # So many changes are kept and lost in all ways; of more, only some ways are tried.
    MOST_CHANGES = 3

    def __init__(self, durable=b""):
        self.durable, self.since = bytes(durable), []

    def note(self, call):
        """Takes a call that was made at this file."""
        if call.name in ("pwrite", "zeros") and call.answer > 0:
            self.since.append((call.at, call.written()))
        elif call.name == "ftruncate" and call.is_made():
            self.since.append((call.at, None))
        elif call.name in SYNCS and call.is_made():
            self.durable, self.since = self.after(range(len(self.since))), []

    def after(self, kept, torn=None):
        """The bytes where of what is not durable those changes stay that are named. Of the write that is torn only the first half stays."""
        data = bytearray(self.durable)
        for number in kept:
            at, written = self.since[number]
            if written is None:
                del data[at:]
                data.extend(bytes(at - len(data)))
                continue
            if number == torn:
                written = written[:len(written) // 2]
            data.extend(bytes(max(0, at + len(written) - len(data))))
            data[at:at + len(written)] = written
        return bytes(data)

    def kept(self):
        """Which changes a power cut may keep: of a few all choices; of many all, none, only the last, all but one."""
        count = len(self.since)
        if count <= self.MOST_CHANGES:
            return [numbers for size in range(count + 1) for numbers in combinations(range(count), size)]
        return [(), tuple(range(count)), (count - 1,), *(tuple(n for n in range(count) if n != out) for out in (0, count // 2, count - 1))]

    def left(self):
        """What a power cut may leave: some changes, of which the last may be torn. The length may be the new one all the same; then what
        was lost behind the old one is zeros, or anything."""
        whole, left = self.after(range(len(self.since))), set()
        for numbers in self.kept():
            for torn in {None, numbers[-1] if numbers else None}:
                data = self.after(numbers, torn)
                lost = max(0, len(whole) - len(data))
                left.update((data, data + bytes(lost), data + b"\1" * lost))
        return sorted(left)


def dirty_files(calls):
    """After each call the names of the files that have changes which are not durable."""
    dirty, after = set(), []
    for call in calls:
        if call.is_made():
            if call.name in CHANGES:
                dirty = dirty | {call.file()}
            elif call.name in SYNCS:
                dirty = dirty - {call.file()}
        after.append(dirty)
    return after
