"""The bytes of requests and answers, as docs/CLIENTS.md has them in tables."""
from __future__ import annotations

import struct
from functools import partial
from typing import Callable, Iterable, List, NamedTuple, Optional, Tuple, Union

from .records import Add, Item, Part, Record, Tx

HEAD, MESSAGE, TX = struct.Struct("<BIIIHH"), struct.Struct("<BBBBI"), struct.Struct("<BII")
# Makes a transaction of its fields, of which an answer has many.
MADE: Callable[[Iterable[int]], Tx] = partial(tuple.__new__, Tx)
PIECE = 1383
MOST_DATAGRAM = 1400
CLIENT_READ, CLIENT_BEGIN, CLIENT_ANSWER = 13, 14, 15
STALE, UNSEEN, NO_ITEM, SEQUENCE, BUSY = range(1, 6)
BEGIN_FAULTS = ("stale", "unseen", "no item", "sequence", "busy")
DRAFT_FAULTS = ("empty", "too many", "repeated key", "bad attribute", "zero amount", "out of bounds")


class NoAnswer(ValueError):
    """The bytes are no answer to a client."""


class Begun(NamedTuple):
    """A transaction was begun for the request."""

    tx: Tx


class Heard(NamedTuple):
    """The transaction of the request ended."""

    tx: Tx
    is_commit: bool


class BeginRefused(NamedTuple):
    """Nothing was begun because of a key; `version` is the one that the centre holds, where it says so."""

    key: str
    fault: int
    version: Optional[int]
    seen: Tuple[Tx, ...]


class DraftRefused(NamedTuple):
    """The parts are no transaction."""

    fault: int


Answer = Union[Record, Begun, Heard, BeginRefused, DraftRefused]


class Answered(NamedTuple):
    """An answer, to which request, and in which epoch the centre gave it."""

    serial: int
    epoch: int
    answer: Answer


# ---- requests

def key_bytes(key: str) -> bytes:
    data = key.encode()
    return bytes((len(data),)) + data


def seen_bytes(seen: Iterable[Tx]) -> bytes:
    listed = tuple(seen)
    return bytes((len(listed),)) + b"".join(TX.pack(*tx) for tx in listed)


def item_bytes(item: Item) -> bytes:
    count = len(item.values)
    return bytes((len(item.body),)) + item.body + bytes((count,)) + struct.pack(f"<{count}q", *item.values)


def part_bytes(part: Part) -> bytes:
    head = key_bytes(part.key) + struct.pack("<Q", part.version)
    if isinstance(part.update, Add):
        amounts = part.update.amounts
        return head + b"\2" + bytes((len(amounts),)) + b"".join(struct.pack("<Bq", *amount) for amount in amounts)
    return head + b"\1" + item_bytes(part.update.item) + seen_bytes(part.update.seen)


def request(centre: int, kind: int, serial: int, rest: bytes) -> bytes:
    return bytes((1, kind, 16 + centre, centre)) + struct.pack("<I", serial) + rest


def read_request(centre: int, serial: int, key: str) -> bytes:
    """The message that asks a centre for a key."""
    return request(centre, CLIENT_READ, serial, key_bytes(key))


def begin_request(centre: int, serial: int, parts: Iterable[Part]) -> bytes:
    """The message that asks a centre to begin a transaction of these parts, in whatever order they come."""
    ordered = sorted(parts, key=lambda part: part.key.encode())
    return request(centre, CLIENT_BEGIN, serial, bytes((len(ordered),)) + b"".join(map(part_bytes, ordered)))


def datagrams(message: bytes, sender: int, epoch: int, serial: int) -> List[bytes]:
    """The datagrams of a message: as many pieces of 1,383 bytes as it needs, each with a head."""
    count = -(-len(message) // PIECE)
    return [HEAD.pack(sender, epoch, serial, len(message), index, count) + message[index * PIECE:(index + 1) * PIECE]
            for index in range(count)]


# ---- answers

class Reader:
    """Bytes that are read one after another; raises NoAnswer where they end too early or are not as the tables say."""

    def __init__(self, data: bytes):
        self.data, self.at = data, 0

    def take(self, count: int) -> bytes:
        end = self.at + count
        if end > len(self.data):
            raise NoAnswer("the bytes end too early")
        taken, self.at = self.data[self.at:end], end
        return taken

    def u8(self, low: int = 0, high: int = 255) -> int:
        if self.at >= len(self.data):
            raise NoAnswer("the bytes end too early")
        value = self.data[self.at]
        if not low <= value <= high:
            raise NoAnswer(f"{value} is not from {low} to {high}")
        self.at += 1
        return value

    def u64(self) -> int:
        return int.from_bytes(self.take(8), "little")

    def i64(self) -> int:
        return int.from_bytes(self.take(8), "little", signed=True)

    def key(self) -> str:
        try:
            return self.take(self.u8(1, 32)).decode("ascii")
        except UnicodeDecodeError:
            raise NoAnswer("a key that is none") from None

    def tx(self) -> Tx:
        tx = MADE(TX.unpack(self.take(TX.size)))
        if not 1 <= tx.centre <= 9:
            raise NoAnswer("a transaction of no centre")
        return tx

    def seen(self) -> Tuple[Tx, ...]:
        listed = tuple(map(MADE, TX.iter_unpack(self.take(self.u8(0, 64) * TX.size))))
        if listed and not (1 <= min(listed).centre and max(listed).centre <= 9):
            raise NoAnswer("a transaction of no centre")
        return listed

    def item(self) -> Item:
        body = self.take(self.u8(0, 128))
        return Item(body, tuple(self.i64() for _ in range(self.u8(1, 4))))

    def end(self) -> None:
        if self.at != len(self.data):
            raise NoAnswer("bytes follow")


def record_in(reader: Reader, centre: int) -> Record:
    key, version = reader.key(), reader.u64()
    item = reader.item() if reader.u8(0, 1) else None
    return Record(key, version, item, reader.seen(), bool(reader.u8(0, 1)), centre)


def refusal_in(reader: Reader) -> BeginRefused:
    key, fault = reader.key(), reader.u8(1, 5)
    version = reader.u64() if fault in (STALE, UNSEEN) else None
    return BeginRefused(key, fault, version, reader.seen() if fault == STALE else ())


def answer_in(reader: Reader, centre: int) -> Answer:
    tag = reader.u8(1, 5)
    if tag == 1:
        return record_in(reader, centre)
    if tag == 2:
        return Begun(reader.tx())
    if tag == 3:
        return refusal_in(reader)
    if tag == 4:
        return Heard(reader.tx(), bool(reader.u8(0, 1)))
    return DraftRefused(reader.u8(1, 6))


def read_answer(datagram: bytes, centre: int) -> Answered:
    """The answer in a datagram of a centre. An answer has at most 791 bytes, so it is one piece always."""
    if len(datagram) < HEAD.size:
        raise NoAnswer("no head")
    sender, epoch, _, total, index, count = HEAD.unpack_from(datagram)
    if sender != centre or (index, count) != (0, 1) or total != len(datagram) - HEAD.size:
        raise NoAnswer("no single piece of this centre")
    reader = Reader(datagram[HEAD.size:])
    *head, serial = MESSAGE.unpack(reader.take(MESSAGE.size))
    if head != [1, CLIENT_ANSWER, centre, 16 + centre]:
        raise NoAnswer("another message")
    answer = answer_in(reader, centre)
    reader.end()
    return Answered(serial, epoch, answer)
