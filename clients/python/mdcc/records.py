"""Records as a client sees them: what a read shows, and the updates that a transaction asks for."""
from __future__ import annotations

from dataclasses import dataclass
from typing import NamedTuple, Optional, Tuple, Union

KEY_BYTES = frozenset(b"abcdefghijklmnopqrstuvwxyzABCDEFGHIJKLMNOPQRSTUVWXYZ0123456789_./-")
MOST_KEY, MOST_BODY, MOST_SEEN, MOST_PARTS = 32, 128, 64, 8


class Tx(NamedTuple):
    """A transaction: the centre that began it, in which epoch of that centre, and as the how manieth. Its text is `1.1.7`."""

    centre: int
    epoch: int
    sequence: int

    def __str__(self) -> str:
        return f"{self.centre}.{self.epoch}.{self.sequence}"


class Item(NamedTuple):
    """The body of a record, at most 128 bytes, and its numbers, one for each of the bounds of the configuration."""

    body: bytes
    values: Tuple[int, ...]


@dataclass(frozen=True)
class Record:
    """What a read showed of a key at a centre.

    `version` counts how often the record was written whole, and `seen` are the transactions whose adds the numbers have, at most 64. Both
    together are the token that a write over this record carries. A record that is not there has version 0 and no item."""

    key: str
    version: int
    item: Optional[Item]
    seen: Tuple[Tx, ...]
    due: bool
    centre: int

    def __bool__(self) -> bool:
        """Whether the record is there."""
        return self.item is not None

    @property
    def body(self) -> bytes:
        """The body; empty where the record is not there."""
        return self.item.body if self.item else b""

    @property
    def values(self) -> Tuple[int, ...]:
        """The numbers; none where the record is not there."""
        return self.item.values if self.item else ()

    @property
    def value(self) -> int:
        """The first number. Raises KeyError where the record is not there."""
        if self.item is None:
            raise KeyError(self.key)
        return self.item.values[0]

    @property
    def age(self) -> Tuple[int, int]:
        """Of two reads of a key the one with the greater age is the newer, or as new."""
        return self.version, len(self.seen)


class Write(NamedTuple):
    """A whole new item in the place of the one with a token: of a version, with the adds of these transactions."""

    item: Item
    seen: Tuple[Tx, ...]


class Add(NamedTuple):
    """Amounts that are added to numbers, which count from 1: pairs that ascend by number, no amount 0."""

    amounts: Tuple[Tuple[int, int], ...]


class Part(NamedTuple):
    """What a transaction does to one key, at a version of it."""

    key: str
    version: int
    update: Union[Write, Add]


def checked_key(key: str) -> str:
    """The key, where it is one: 1 to 32 letters, digits or bytes of `_./-`."""
    data = key.encode()
    if not 1 <= len(data) <= MOST_KEY or not KEY_BYTES.issuperset(data):
        raise ValueError(f"{key!r} is no key: 1 to {MOST_KEY} letters, digits or bytes of _ . / - are wanted")
    return key


def checked_body(body: bytes) -> bytes:
    """The body, where it is one: at most 128 bytes."""
    if len(body) > MOST_BODY:
        raise ValueError(f"a body of {len(body)} bytes: at most {MOST_BODY} are wanted")
    return bytes(body)
