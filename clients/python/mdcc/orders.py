"""The record of an order, by which an order that is sent again does not happen again.

An order's record is written in the same transaction as what the order does, so it is there exactly if the order happened. It stands under
`order/` and the name of the order, with a mark as the first byte of its body and a note of the application behind it.
"""
from __future__ import annotations

from typing import Optional

from .configuration import Configuration
from .records import Item, Part, Record, Write

PREFIX = "order/"
# It happened. Nothing of it was in flight when this was written, and it may still be sent again. It shall never happen.
DONE, VOID, CANCELLED = b"D", b"V", b"C"


def mark_of(record: Optional[Record]) -> bytes:
    """The mark of an order's record; empty where there is none."""
    return record.body[:1] if record else b""


def part_for(configuration: Configuration, key: str, record: Optional[Record], mark: bytes, note: bytes = b"") -> Part:
    """The part that writes a mark over what was read of the order's record, or where there is none."""
    item = Item(mark + note, configuration.nearest_to_zero)
    return Part(key, record.version, Write(item, record.seen)) if record else Part(key, 0, Write(item, ()))
