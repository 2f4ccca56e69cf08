"""The two areas of a log, read while its node runs, without a lock and without a write.

A node only appends, and opens the gate of a group once all of it stands in the file; so what is read up to a closed gate is whole. A
checkpoint copies all facts, in their order, into the other area, which from then on is the one in use. So a place in a log is told by two
numbers, the facts before it and their bytes, and is found again in either area.

After the closed gate that ends an area a node writes zeros, a mebibyte at most, over which it appends.
"""
import os
import re
import time
import zlib
from typing import Callable, List, NamedTuple, Optional

from .logs import FIRST, SECOND, NotALog
from .messages import MOST_BYTES
from .parts import U32, U64

ENDS = ("log", "alt")
# The most bytes that an area may have.
LOG_LIMIT = 1 << 30
FRESH = 9
# The most zeros that a node writes after the last gate.
AHEAD = 1 << 20
PIECE = 8 << 20
PATIENCE = 20
MOST_AT_ONCE = 5000
# A lock that a process has: `1: FLOCK  ADVISORY  WRITE 4711 fe:00:131 0 EOF`. Behind `->` stands one that waits for it.
LOCK = re.compile(r"(?m)^\d+: FLOCK .*?:(\d+) \d+ \S+$")


class Moved(OSError):
    """The area that was read is no longer the one in use, again and again."""


class Area(NamedTuple):
    """An area that is whole. `count` records without gates stand before its frames, from the byte `begin` on."""
    path: str
    generation: int
    count: int
    begin: int


class Position(NamedTuple):
    """A place in a log: so many facts stand before it, of so many bytes, the last of this length and with this sum (none where the length is
    below 0)."""
    facts: int = 0
    bytes: int = 0
    length: int = 0
    last: int = 0

    def after(self, payloads: List[bytes]) -> "Position":
        """The place after these payloads."""
        if not payloads:
            return self
        read = self.bytes + sum(map(len, payloads))
        return Position(self.facts + len(payloads), read, len(payloads[-1]), zlib.crc32(payloads[-1]))


class End(NamedTuple):
    """How far a log was read: its area, the offset of the gate after the last fact, that gate, and the size of the file."""
    area: Optional[Area]
    offset: int
    gate: int
    size: int


def path_of(folder: str, centre: int, end: str) -> str:
    return os.path.join(folder, f"mdcc-{centre}.{end}")


def size_of(path: str) -> int:
    try:
        return os.stat(path).st_size
    except FileNotFoundError:
        return 0


def read_head(path: str) -> bytes:
    try:
        with open(path, "rb", buffering=0) as file:
            return file.read(25)
    except FileNotFoundError:
        return b""


def area_of(path: str, head: bytes, may_be_first: bool) -> Optional[Area]:
    """The area that begins with these bytes; None where it is not whole. Raises NotALog where its numbers are missing."""
    if len(head) <= FRESH:
        return None
    if may_be_first and head[:8] == FIRST:
        return Area(path, 0, 0, 8)
    if head[:8] != SECOND or head[8] != 1:
        return None
    if len(head) < 17:
        raise NotALog(9)
    if len(head) < 25:
        raise NotALog(17)
    generation = U64.unpack_from(head, 9)[0]
    if generation == 0:
        raise NotALog(9)
    return Area(path, generation, U64.unpack_from(head, 17)[0], 25)


def area_in_use(folder: str, centre: int) -> Optional[Area]:
    """The area that a node would take; None where the log is fresh or not there. Raises NotALog as a node would."""
    paths = [path_of(folder, centre, end) for end in ENDS]
    heads = [read_head(path) for path in paths]
    areas = [area_of(path, head, number == 0) for number, (path, head) in enumerate(zip(paths, heads))]
    if areas == [None, None]:
        if len(heads[0]) > FRESH:
            raise NotALog(0)
        return None
    if None not in areas and areas[0].generation == areas[1].generation:
        raise NotALog(9)
    return max((area for area in areas if area is not None), key=lambda area: area.generation)


def are_zeros_after(path: str, offset: int) -> bool:
    """Whether nothing stands in a file from an offset on, or zeros as a node writes them ahead."""
    with open(path, "rb") as file:
        file.seek(offset)
        data = file.read(AHEAD + 1)
    return len(data) <= AHEAD and data.count(0) == len(data)


def has_facts(folder: str, centre: int) -> bool:
    """Whether a log stands there that is more than a beginning. One that is damaged counts as one."""
    paths = [path_of(folder, centre, end) for end in ENDS]
    begun = tuple(mark + b"\0" for mark in (FIRST, SECOND))
    return any(size_of(path) > FRESH and not (read_head(path).startswith(begun) and are_zeros_after(path, FRESH)) for path in paths)


def is_in_use(folder: str, centre: int) -> bool:
    """Whether a process of this machine has a lock of the log, as a node has while it runs."""
    try:
        with open("/proc/locks") as table:
            locked = set(LOCK.findall(table.read()))
    except OSError:
        return False
    for end in ENDS:
        try:
            if str(os.stat(path_of(folder, centre, end)).st_ino) in locked:
                return True
        except FileNotFoundError:
            pass
    return False


# ---- reading on

def offset_of(area: Area, position: Position) -> int:
    """Where a place of the log stands in this area: at a record, or at a gate."""
    return area.begin + position.bytes + 4 * position.facts + max(0, position.facts - area.count)


class Pieces:
    """The bytes of a file from an offset on, as many as are asked for."""

    def __init__(self, file, offset: int):
        self.file, self.data, self.start = file, b"", offset

    def need(self, offset: int, count: int) -> bool:
        """Sees to it that these bytes are there, and says whether they are."""
        at = offset - self.start
        if at + count <= len(self.data):
            return True
        rest = self.data[at:]
        self.data = rest + os.pread(self.file.fileno(), max(PIECE, count), offset + len(rest))
        self.start = offset
        return count <= len(self.data)


def record_at(pieces: Pieces, area: Area, offset: int, facts: int) -> Optional[bytes]:
    """The payload at an offset before which so many facts stand; None at a gate that is not open. Raises NotALog where it breaks off."""
    gate = 0 if facts < area.count else 1
    if not pieces.need(offset, 1):
        raise NotALog(offset)
    if gate and pieces.data[offset - pieces.start] != 1:
        return None
    if not pieces.need(offset, gate + 4):
        raise NotALog(offset)
    length = U32.unpack_from(pieces.data, offset + gate - pieces.start)[0]
    # After a frame stands its gate; the last record has one as well.
    if length > MOST_BYTES or not pieces.need(offset, gate + 4 + length + 1):
        raise NotALog(offset)
    at = offset + gate + 4 - pieces.start
    return pieces.data[at:at + length]


def payloads_in(file, area: Area, position: Position, take: Callable[[List[bytes]], None]) -> End:
    """Hands over the payloads from a place on, in lists, up to a gate that is not open. Raises NotALog at the offset of what is no log, once it
    has handed over what stands before that."""
    offset, facts, batch = offset_of(area, position), position.facts, []
    pieces = Pieces(file, offset)
    try:
        while True:
            payload = record_at(pieces, area, offset, facts)
            if payload is None:
                break
            batch.append(payload)
            offset += (0 if facts < area.count else 1) + 4 + len(payload)
            facts += 1
            if len(batch) >= MOST_AT_ONCE:
                take(batch)
                batch = []
    finally:
        take(batch)
    return End(area, offset, pieces.data[offset - pieces.start], os.fstat(file.fileno()).st_size)


class Follower:
    """Reads a log, and later what is new in it. A log that is not the one that was read is read anew: `began_anew` says so.

    `take` gets each payload once, in order. Raises NotALog where the bytes are none, and stay so when they are read again.
    """

    def __init__(self, folder: str, centre: int, position: Position = Position()):
        self.folder, self.centre, self.position, self.began_anew = folder, centre, position, False

    def read(self, take: Callable[[bytes], None], begin_anew: Callable[[], None]) -> End:
        tries, before = 0, self.position
        while True:
            try:
                return self.read_once(take, begin_anew)
            except (Moved, NotALog, FileNotFoundError):
                tries, before = (tries + 1 if self.position == before else 1), self.position
                # A checkpoint came between, or goes on; where no node has the log the second reading decides.
                if tries >= (PATIENCE if is_in_use(self.folder, self.centre) else 2):
                    raise
                time.sleep(0.02)

    def read_once(self, take, begin_anew) -> End:
        area = area_in_use(self.folder, self.centre)
        if area is None:
            if self.position.facts:
                self.start_over(begin_anew)
            return End(None, 0, 0, size_of(path_of(self.folder, self.centre, "log")))
        with open(area.path, "rb", buffering=0) as file:
            if not self.stands_in(file, area):
                self.start_over(begin_anew)

            def batch(payloads):
                # What was read counts where the area is still the one in use: else another copy may be under way in it.
                if area_in_use(self.folder, self.centre) != area:
                    raise Moved
                for payload in payloads:
                    take(payload)
                self.position = self.position.after(payloads)

            return payloads_in(file, area, self.position, batch)

    def start_over(self, begin_anew):
        self.position, self.began_anew = Position(), True
        begin_anew()

    def stands_in(self, file, area: Area) -> bool:
        """Whether the last fact that was read stands before this place here."""
        position = self.position
        if position.facts == 0 or position.length < 0:
            return True
        data = os.pread(file.fileno(), 4 + position.length, offset_of(area, position) - position.length - 4)
        return data[:4] == U32.pack(position.length) and zlib.crc32(data[4:]) == position.last
