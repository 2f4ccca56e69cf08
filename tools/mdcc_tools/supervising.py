"""What is asked before a centre is started, and what is done when its node ends.

A centre without its log would answer from nothing: it would vote again on what it had voted on, and give its transactions numbers that were
given before, so that others answer with outcomes of long ago. So no start without a log, but for the first of all.
"""
import os
import time
from typing import List, NamedTuple, Optional

from . import notes, sums
from .areas import ENDS, has_facts, is_in_use, path_of, size_of
from .configuration import Configuration
from .processes import MOST_TURNS, Node

# How this program ends where it refuses to start a centre; no node ends so.
REFUSED = 64
SHORTEST_PAUSE, LONGEST_PAUSE = 1.0, 60.0
# A node that ran for so many seconds ended for a new cause.
SETTLED = 60.0
ROOM = 1 << 16


class Advice(NamedTuple):
    """What is done after an end: started again at once, after a pause, once there is room, or not. `about` is a heading of
    docs/OPERATING.md."""
    again: str
    about: str


AT_ONCE, AFTER_A_PAUSE, WITH_ROOM, NEVER = "started again", "started again after a pause", "started again once there is room", "not started again"
BY_STATUS = {
    0: Advice(AT_ONCE, "What a supervisor does at each status"),
    2: Advice(NEVER, "What a supervisor does at each status"),
    3: Advice(NEVER, "Drift of configurations"),
    5: Advice(AFTER_A_PAUSE, "What a supervisor does at each status"),
    6: Advice(AFTER_A_PAUSE, "What a supervisor does at each status"),
    7: Advice(NEVER, "A disk that failed"),
    8: Advice(AFTER_A_PAUSE, "Network"),
    9: Advice(NEVER, "A damaged log"),
    10: Advice(AFTER_A_PAUSE, "What a supervisor does at each status"),
    12: Advice(NEVER, "What a supervisor does at each status"),
}
BY_LIMIT = {
    "cells": Advice(NEVER, "Cells full"),
    "log": Advice(NEVER, "Log full"),
    "serial": Advice(AT_ONCE, "What a supervisor does at each status"),
}


def advice_of(status: int, line: str, is_disk_full: bool = False, is_taken: bool = False) -> Advice:
    """What to do after this status with this line on the error stream. Of a failed disk it is known whether it is full, and whether another
    process has the log."""
    if status < 0:
        return Advice(AFTER_A_PAUSE, "What a supervisor does at each status")
    if status == 7 and is_taken:
        return Advice(NEVER, "What a supervisor does at each status")
    if status == 7 and is_disk_full:
        return Advice(WITH_ROOM, "A full disk")
    if status == 11:
        words = line.split()
        return BY_LIMIT.get(words[2] if len(words) > 2 else "", Advice(NEVER, "What a supervisor does at each status"))
    return BY_STATUS.get(status, Advice(AFTER_A_PAUSE, "What a supervisor does at each status"))


def room_in(folder: str) -> int:
    """The bytes free where a folder stands."""
    room = os.statvfs(folder)
    return room.f_bavail * room.f_frsize


def room_wanted(folder: str, centre: int) -> int:
    """What a node needs to go on: a copy of its log, and a little more."""
    return ROOM + max(size_of(path_of(folder, centre, end)) for end in ENDS)


def faults_before_start(folder: str, configuration: Configuration, centre: int, is_new: bool, may_move: bool = False,
                        with_sums: bool = True) -> List[str]:
    """Why this centre must not be started in this folder, each with the heading of docs/OPERATING.md; none where it may."""
    if centre not in configuration.numbers():
        return [f"the configuration has no centre {centre} (Drift of configurations)"]
    try:
        note = notes.read_note(folder, centre)
    except notes.NoNote as fault:
        return [f"{fault} is no note of a centre (A wrong folder)"]
    found = []
    is_there = has_facts(folder, centre)
    if note is not None:
        found += faults_of_note(note, notes.note_of(configuration, centre), may_move)
        if not is_there:
            found.append(f"centre {centre} ran in {folder}, and its log is gone: never start it anew (A lost disk)")
    elif not is_there and not is_new:
        found.append(f"{folder} has no log of centre {centre}; the first start of a cluster wants --new (A wrong folder)")
    if is_there and is_new:
        found.append(f"{folder} has a log of centre {centre} already: start it without --new (First start)")
    if is_there and is_in_use(folder, centre):
        found.append(f"another process has the log of centre {centre} in {folder} (What a supervisor does at each status)")
    elif is_there and with_sums and not found:
        verdict = sums.verify(folder, centre)
        if verdict.fault:
            found.append(f"the log of centre {centre} in {folder} is damaged: {verdict.fault} (A damaged log)")
    return found


def faults_of_note(note: notes.Note, given: notes.Note, may_move: bool) -> List[str]:
    found = []
    if note.centre != given.centre:
        found.append(f"the files of centre {given.centre} are those of centre {note.centre} (A wrong folder)")
    if note.rules != given.rules:
        found.append(f"centre {given.centre} has another configuration than the log was written with (Drift of configurations)")
    if note.addresses != given.addresses and not may_move:
        found.append(f"centre {given.centre} has other hosts or another port than before; where that is meant, --moved (Drift of configurations)")
    return found


def boot_line_after(path: str, offset: int) -> Optional[str]:
    """The boot line that an output has from this offset on. One that was cut off meanwhile, as logs are, is read from its beginning."""
    with open(path, "rb") as file:
        file.seek(offset if size_of(path) >= offset else 0)
        for line in file:
            if line.startswith(b"boot ") and line.endswith(b"\n"):
                return line.decode().rstrip()
    return None


class Supervised:
    """A node that is started again when it ends by what wants it."""

    def __init__(self, node: Node, turns: Optional[int] = None, once: bool = False, with_sums: bool = True, is_new: bool = False,
                 may_move: bool = False):
        self.node, self.turns, self.once, self.with_sums = node, turns, once, with_sums
        self.is_new, self.may_move = is_new, may_move
        self.started, self.due, self.pause, self.last = 0.0, None, SHORTEST_PAUSE, 0
        self.is_waiting, self.is_over, self.out_before = False, False, 0

    def start(self) -> Optional[str]:
        """Starts it; a line where the system does not."""
        self.started, self.due, self.is_waiting = time.monotonic(), None, True
        self.out_before = size_of(self.node.path("out"))
        try:
            self.node.start(MOST_TURNS if self.turns is None else self.turns)
        except OSError as failure:
            # There is no such program, or the folder takes no file, as where the disk is full.
            if self.node.is_running():
                self.node.kill()
            self.wait_a_pause()
            return f"centre {self.node.centre} could not be started: {failure}; {AFTER_A_PAUSE}"
        return None

    def wait_a_pause(self) -> None:
        self.due, self.is_waiting = time.monotonic() + self.pause, False
        self.pause = min(2 * self.pause, LONGEST_PAUSE)

    def is_up(self) -> Optional[str]:
        """The boot line of this start, once."""
        if not self.is_waiting:
            return None
        boot = boot_line_after(self.node.path("out"), self.out_before)
        if boot is None:
            return None
        self.is_waiting = False
        line = f"{boot} pid {self.node.process.pid}"
        note = notes.note_of(self.node.configuration, self.node.centre)
        try:
            if notes.read_note(self.node.folder, self.node.centre) != note:
                notes.write_note(self.node.folder, note)
        except (OSError, notes.NoNote) as failure:
            line += f"; its note could not be written: {failure}"
        return line

    def look(self) -> Optional[str]:
        """A line where it ended, or came up; starts it again when that is due."""
        if self.is_over:
            return None
        if self.due is not None:
            return self.restart() if time.monotonic() >= self.due else None
        up = self.is_up()
        if up is None and not self.node.is_running():
            return self.ended()
        return up

    def restart(self) -> Optional[str]:
        """Starts it again, where it may be started and, after a full disk, there is room; a line where it may not."""
        folder, centre = self.node.folder, self.node.centre
        if self.last == 7 and room_in(folder) < room_wanted(folder, centre):
            self.wait_a_pause()
            return None
        is_new = self.is_new and not has_facts(folder, centre)
        faults = faults_before_start(folder, self.node.configuration, centre, is_new, self.may_move, self.with_sums)
        if faults:
            self.is_over, self.due, self.last = True, None, REFUSED
            return "\n".join(f"refused: {fault}" for fault in faults)
        return self.start()

    def ended(self) -> str:
        status = self.last = self.node.process.returncode
        self.is_waiting = False
        folder, centre = self.node.folder, self.node.centre
        if self.with_sums:
            sums.record_where_whole(folder, centre)
        line = self.node.last_error() if status > 0 else ""
        said = f"centre {centre} ended with status {status}" + (f": {line}" if line else "")
        if self.once or (status == 0 and self.turns is not None):
            self.is_over = True
            return said
        advice = advice_of(status, line, room_in(folder) < room_wanted(folder, centre), is_in_use(folder, centre))
        self.plan(advice)
        return f"{said}; {advice.again} ({advice.about})"

    def plan(self, advice: Advice) -> None:
        if time.monotonic() - self.started >= SETTLED:
            self.pause = SHORTEST_PAUSE
        if advice.again == NEVER:
            self.is_over = True
        elif advice.again == AT_ONCE:
            self.due = time.monotonic()
        else:
            self.wait_a_pause()


def last_status(supervised: List[Supervised]) -> int:
    """The greatest status of those that are not started again; one that a signal ended counts from 128."""
    return max((one.last if one.last >= 0 else 128 - one.last for one in supervised), default=0)
