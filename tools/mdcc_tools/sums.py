"""Sums of the facts of a log, kept beside it in `mdcc-K.sum`: what was written once has to be read so for ever.

A log has no checksums of its own, and one bit that changes in it may cut it at that place, silently, once its node starts. The sums are
over the facts in their order, each with its length, so that they hold in either area: one line for each 1,024 facts, and one for the rest.
Only what is closed is summed: while a node runs, not the last facts, whose syncs may be under way.
"""
import hashlib
import os
from typing import List, NamedTuple, Optional

from .areas import ENDS, Follower, Position, is_in_use, path_of as path_of_area
from .logs import NotALog
from .notes import write_whole
from .parts import U32

FORM = "mdcc-sum 1"
BLOCK = 1024
# A group that is appended together has fewer bytes of facts, and what one turn makes: two facts at most.
UNDER_WAY = 262_144
OF_A_TURN = 2


class Line(NamedTuple):
    """So many facts, of so many bytes, of which those after the line before have this sum."""
    facts: int
    bytes: int
    sum: str


class Verdict(NamedTuple):
    """How many facts agree with the sums, how many have none yet, and what is wrong, if anything."""
    agree: int
    unsummed: int
    fault: Optional[str]


def path_of(folder: str, centre: int) -> str:
    return os.path.join(folder, f"mdcc-{centre}.sum")


def read_lines(folder: str, centre: int) -> List[Line]:
    """The lines that were kept, none where nothing was. Raises ValueError where the file is not of this form."""
    try:
        with open(path_of(folder, centre)) as file:
            lines = file.read().splitlines()
    except FileNotFoundError:
        return []
    try:
        if lines[:1] != [FORM]:
            raise ValueError
        return [Line(int(facts), int(size), text) for facts, size, text in (line.split() for line in lines[1:])]
    except ValueError:
        raise ValueError(f"{path_of(folder, centre)} is no file of sums") from None


def payloads_from(folder: str, centre: int, line: Optional[Line] = None) -> List[bytes]:
    """The payloads after a line, or all."""
    payloads: List[bytes] = []
    position = Position(line.facts, line.bytes, -1) if line else Position()
    Follower(folder, centre, position).read(payloads.append, payloads.clear)
    return payloads


def sum_of(payloads: List[bytes]) -> str:
    summed = hashlib.sha256()
    for payload in payloads:
        summed.update(U32.pack(len(payload)))
        summed.update(payload)
    return summed.hexdigest()


def lines_after(last: Optional[Line], payloads: List[bytes]) -> List[Line]:
    facts, size = (last.facts, last.bytes) if last else (0, 0)
    lines = []
    while payloads:
        block, payloads = payloads[:BLOCK], payloads[BLOCK:]
        facts, size = facts + len(block), size + sum(map(len, block))
        lines.append(Line(facts, size, sum_of(block)))
    return lines


def sync(folder: str, centre: int) -> None:
    """Has the system write what it holds back of a log whose node was killed. Changes no byte."""
    for end in ENDS:
        try:
            descriptor = os.open(path_of_area(folder, centre, end), os.O_RDONLY)
        except FileNotFoundError:
            continue
        try:
            os.fsync(descriptor)
        finally:
            os.close(descriptor)


def closed(payloads: List[bytes]) -> List[bytes]:
    """Those before the last ones, whose syncs may be under way while their node runs."""
    left, size = len(payloads) - OF_A_TURN, 0
    while left > 0 and size < UNDER_WAY:
        left -= 1
        size += len(payloads[left])
    return payloads[:max(left, 0)]


def record(folder: str, centre: int) -> int:
    """Sums what is closed and not summed yet, and gives how many facts have a sum then. Where what was summed is not there any more nothing is
    written, so that `verify` finds it. Raises NotALog where the bytes are no log, OSError where the sums cannot be written."""
    lines = read_lines(folder, centre)
    kept = [line for line in lines if line.facts % BLOCK == 0]
    last = kept[-1] if kept else None
    is_running = is_in_use(folder, centre)
    if not is_running:
        sync(folder, centre)
    payloads = payloads_from(folder, centre, last)
    if is_running:
        payloads = closed(payloads)
    before = last.facts if last else 0
    if lines and (before + len(payloads) <= lines[-1].facts or not agrees(lines[-1], before, payloads)):
        return lines[-1].facts
    if payloads:
        new = lines_after(last, payloads)
        write_whole(path_of(folder, centre), "".join([FORM + "\n"] + [f"{line.facts} {line.bytes} {line.sum}\n" for line in kept + new]))
    return before + len(payloads)


def agrees(line: Line, before: int, payloads: List[bytes]) -> bool:
    """Whether a line over the facts after `before` has their sum."""
    return line.facts == before or sum_of(payloads[:line.facts - before]) == line.sum


def record_where_whole(folder: str, centre: int) -> None:
    """The same, and nothing where it cannot be done: `verify` says why at the next start."""
    try:
        record(folder, centre)
    except (NotALog, OSError, ValueError):
        pass


def verify(folder: str, centre: int) -> Verdict:
    """Asks whether the log has the facts that were summed. Changes no byte."""
    try:
        lines, payloads = read_lines(folder, centre), payloads_from(folder, centre)
    except ValueError as fault:
        return Verdict(0, 0, str(fault))
    except NotALog as damage:
        return Verdict(0, 0, f"its bytes are no log from byte {damage.args[0]} on")
    agree = 0
    for line in lines:
        if line.facts > len(payloads):
            return Verdict(agree, 0, f"it has {len(payloads)} facts, and had {lines[-1].facts} once")
        if sum_of(payloads[agree:line.facts]) != line.sum:
            return Verdict(agree, 0, f"its facts {agree + 1} to {line.facts} are not those that were written")
        agree = line.facts
    return Verdict(agree, len(payloads) - agree, None)
