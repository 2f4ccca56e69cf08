"""What a folder says of the centre whose log it has: the note `mdcc-K.id`, with the centre and sums of its configuration.

A log belongs to its centre and to the rules of its cluster: quorums, bounds, `gamma`, `limit`. Addresses may move, when all centres know it.
How many cells a node has, how long it waits and when it copies its log (`cells`, `wait`, `checkpoint`) are its own, and no part of a sum.
"""
import hashlib
import json
import os
from typing import NamedTuple, Optional

from .configuration import Configuration

FORM = "mdcc-id 1"
OWN = ("cells", "wait", "checkpoint")
ADDRESSES = ("hosts", "port")
CELLS = 1_048_576


class Note(NamedTuple):
    centre: int
    rules: str
    addresses: str

    def text(self) -> str:
        return f"{FORM}\ncentre {self.centre}\nrules {self.rules}\naddresses {self.addresses}\n"

    def sum(self) -> str:
        """Both sums as one short word."""
        return sum_of([self.rules, self.addresses])[:12]


class NoNote(ValueError):
    """The file is not of this form."""


def sum_of(value: object) -> str:
    return hashlib.sha256(json.dumps(value, sort_keys=True, separators=(",", ":")).encode()).hexdigest()


def cells_in(configuration: Configuration) -> int:
    """How many cells its nodes have."""
    return json.loads(configuration.text).get("cells", CELLS)


def note_of(configuration: Configuration, centre: int) -> Note:
    members = {"limit": "safe", **json.loads(configuration.text)}
    rules = {name: value for name, value in members.items() if name not in OWN + ADDRESSES}
    return Note(centre, sum_of(rules), sum_of({name: members.get(name) for name in ADDRESSES}))


def path_of(folder: str, centre: int) -> str:
    return os.path.join(folder, f"mdcc-{centre}.id")


def read_note(folder: str, centre: int) -> Optional[Note]:
    """The note of a folder; None where there is none. Raises NoNote where it cannot be read as one."""
    try:
        with open(path_of(folder, centre)) as file:
            lines = file.read().splitlines()
    except FileNotFoundError:
        return None
    words = [line.split() for line in lines[1:]]
    if lines[:1] != [FORM] or [line[0] for line in words if line] != ["centre", "rules", "addresses"] or any(len(line) != 2 for line in words):
        raise NoNote(path_of(folder, centre))
    return Note(int(words[0][1]), words[1][1], words[2][1])


def write_whole(path: str, text: str) -> None:
    """Writes a file so that a crash leaves the old one or this."""
    with open(path + ".new", "w") as file:
        file.write(text)
        file.flush()
        os.fsync(file.fileno())
    os.replace(path + ".new", path)
    descriptor = os.open(os.path.dirname(path) or ".", os.O_RDONLY)
    try:
        os.fsync(descriptor)
    finally:
        os.close(descriptor)


def write_note(folder: str, note: Note) -> None:
    write_whole(path_of(folder, note.centre), note.text())
