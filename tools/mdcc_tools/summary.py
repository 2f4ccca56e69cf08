"""What the log of one centre says in short: how much it holds, what it heard, what is open there, and how new each of its items is.

Facts are read as they are laid out, without asking whether each byte is as it must be: a node does that when it starts, `tools/look` whenever
one likes. A transaction is one number here, (centre, epoch, sequence) from the highest bits down.
"""
import json
from typing import Dict, Iterable, List, Set, Tuple

from .areas import End, Position
from .logs import ADOPTED, BOOTED, HEARD, VOTED, cells_of
from .parts import TX, U32, U64

FORMAT = 5


def number_of(centre: int, epoch: int, sequence: int) -> int:
    return centre << 64 | epoch << 32 | sequence


def tx_of(number: int) -> Tuple[int, int, int]:
    return number >> 64, number >> 32 & 0xffffffff, number & 0xffffffff


def ranges_of(numbers: Iterable[int]) -> List[List[int]]:
    """Runs of numbers that follow each other, as first and last."""
    runs: List[List[int]] = []
    for number in sorted(numbers):
        if runs and number == runs[-1][1] + 1:
            runs[-1][1] = number
        else:
            runs.append([number, number])
    return runs


def keys_by_version(versions: Dict[str, int]) -> Dict[str, str]:
    """The keys of each version, with spaces between, which no key has."""
    groups: Dict[int, List[str]] = {}
    for key, version in versions.items():
        groups.setdefault(version, []).append(key)
    return {str(version): " ".join(keys) for version, keys in groups.items()}


def set_of(runs: Iterable[Iterable[int]]) -> Set[int]:
    numbers: Set[int] = set()
    for first, last in runs:
        numbers.update(range(first, last + 1))
    return numbers


def key_at(data: bytes, at: int) -> Tuple[str, int]:
    after = at + 1 + data[at]
    return data[at + 1:after].decode("ascii"), after


def after_update(data: bytes, at: int) -> int:
    """The offset after an update and its write set."""
    if data[at] == 1:
        at += 2 + data[at + 1]
        at += 1 + 8 * data[at]
        at += 1 + 9 * data[at]
    else:
        at += 2 + 9 * data[at + 1]
    count, at = data[at], at + 1
    for _ in range(count):
        at += 9 + data[at]
    return at


class Summary:
    """What one centre has."""

    def __init__(self, centre: int):
        self.centre = centre
        self.begin_anew()

    def begin_anew(self) -> None:
        self.epoch, self.cells, self.kinds = 0, 0, [0] * 7
        self.commits: Set[int] = set()
        self.aborts: Set[int] = set()
        self.open: Set[int] = set()
        # The version held of each key, the adds on it, and the adds heard on later ones.
        self.versions: Dict[str, int] = {}
        self.adds: Dict[str, Set[int]] = {}
        self.ahead: Dict[Tuple[str, int], Set[int]] = {}
        self.position = Position()
        # What the files are like: bytes of the area in use, its generation, and whether a process has the log.
        self.bytes, self.generation, self.is_running, self.looked = 0, 0, False, 0.0
        # The sum of the configuration in the folder's note.
        self.configuration = ""

    @property
    def facts(self) -> int:
        return sum(self.kinds)

    def note_end(self, end: End, is_running: bool, now: float) -> None:
        self.bytes, self.generation = (end.offset + 1, end.area.generation) if end.area else (0, 0)
        self.is_running, self.looked = is_running, now

    # ---- facts

    def take(self, payload: bytes) -> None:
        kind = payload[0]
        self.kinds[kind] += 1
        self.cells += cells_of(payload)
        if kind == VOTED:
            self.take_vote(payload)
        elif kind == HEARD:
            self.take_outcome(payload)
        elif kind == ADOPTED:
            self.take_data(payload)
        elif kind == BOOTED:
            self.epoch = U32.unpack_from(payload, 1)[0]

    def take_vote(self, data: bytes) -> None:
        """A centre asks for the outcome of what it has the choice of: accepted, or offered where it rejected it at the fast ballot. Of what a
        leader had it reject it knows no more than the name."""
        at = 2 + data[1] + 8 + 9
        count, at = U32.unpack_from(data, at)[0], at + 4
        for left in reversed(range(count)):
            if data[at] == 0:
                at += 10
                continue
            self.note_choice(number_of(*TX.unpack_from(data, at + 1)))
            if not left:
                return
            at = after_update(data, at + 10 + 1 + data[at + 10] + 8)
        if data[at] == 1:
            self.note_choice(number_of(*TX.unpack_from(data, at + 1)))

    def note_choice(self, tx: int) -> None:
        if tx not in self.commits and tx not in self.aborts:
            self.open.add(tx)

    def take_outcome(self, data: bytes) -> None:
        tx = number_of(*TX.unpack_from(data, 1))
        self.open.discard(tx)
        if data[10] == 0:
            self.aborts.add(tx)
            return
        self.commits.add(tx)
        at = 12
        for _ in range(data[11]):
            key, at = key_at(data, at + 9)
            version = U64.unpack_from(data, at)[0]
            if data[at + 8] == 1:
                self.hold(key, version + 1)
            else:
                self.add(key, version, tx)
            at = after_update(data, at + 8)

    def take_data(self, data: bytes) -> None:
        key, at = key_at(data, 1)
        version = U64.unpack_from(data, at)[0]
        self.hold(key, version)
        at += 9 + data[at + 8]
        at += 1 + 8 * data[at]
        count, at = data[at], at + 1
        for _ in range(count):
            self.add(key, version, number_of(*TX.unpack_from(data, at)))
            at += 10 + 9 * data[at + 9]

    def hold(self, key: str, version: int) -> None:
        if version <= self.versions.get(key, 0):
            return
        self.versions[key] = version
        self.adds.pop(key, None)
        if self.ahead:
            for name in [name for name in self.ahead if name[0] == key and name[1] <= version]:
                adds = self.ahead.pop(name)
                if name[1] == version:
                    self.adds[key] = adds

    def add(self, key: str, version: int, tx: int) -> None:
        held = self.versions.get(key, 0)
        if version == held:
            self.adds.setdefault(key, set()).add(tx)
        elif version > held:
            self.ahead.setdefault((key, version), set()).add(tx)

    # ---- kept

    def text(self) -> str:
        """As it is kept, and read by `summary_of`."""
        return json.dumps({
            "format": FORMAT, "centre": self.centre, "looked": self.looked, "position": list(self.position), "epoch": self.epoch,
            "cells": self.cells, "kinds": self.kinds, "bytes": self.bytes, "generation": self.generation, "running": self.is_running,
            "configuration": self.configuration,
            "commits": ranges_of(self.commits), "aborts": ranges_of(self.aborts), "open": sorted(self.open),
            "versions": keys_by_version(self.versions),
            "adds": {key: sorted(adds) for key, adds in self.adds.items() if adds},
            "ahead": [[key, version, sorted(adds)] for (key, version), adds in self.ahead.items()]}, separators=(",", ":"))


def summary_of(text: str) -> Summary:
    """The summary that was kept so. Raises ValueError where it is none of this format."""
    kept = json.loads(text)
    if not isinstance(kept, dict) or kept.get("format") != FORMAT:
        raise ValueError("no summary of this format")
    summary = Summary(kept["centre"])
    summary.position = Position(*kept["position"])
    summary.epoch, summary.cells, summary.kinds = kept["epoch"], kept["cells"], kept["kinds"]
    summary.bytes, summary.generation = kept["bytes"], kept["generation"]
    summary.is_running, summary.looked, summary.configuration = kept["running"], kept["looked"], kept["configuration"]
    summary.commits, summary.aborts, summary.open = set_of(kept["commits"]), set_of(kept["aborts"]), set(kept["open"])
    for version, keys in kept["versions"].items():
        summary.versions.update(dict.fromkeys(keys.split(), int(version)))
    summary.adds = {key: set(adds) for key, adds in kept["adds"].items()}
    summary.ahead = {(key, version): set(adds) for key, version, adds in kept["ahead"]}
    return summary
