"""Documents of JSON: what an application sends and what it is shown.

A body, as the note of an order, is a text, or {"base64": ".."} where its bytes are no text in UTF-8; it may be sent as either.
"""
from __future__ import annotations

import base64
import binascii
import json
import re
from dataclasses import dataclass
from typing import Any, Dict, List, NoReturn, Optional, Sequence, Tuple, Union

from mdcc import Item, Record, Tx
from mdcc.records import MOST_BODY, MOST_PARTS, MOST_SEEN, checked_key

from .faults import Fault

KINDS = ("insert", "write", "add", "keep")
# No more keys than this are read at once.
MOST_KEYS = 64
TX = re.compile(r"([1-9])\.([1-9]\d{0,9})\.([1-9]\d{0,9})")
MOST_VERSION, MOST_VALUE = 2 ** 64 - 1, 2 ** 63 - 1


@dataclass(frozen=True)
class Update:
    """What is to be done to a key. What of values and body is None stays as it was read."""

    kind: str
    key: str
    at: str
    values: Optional[Tuple[int, ...]] = None
    body: Optional[bytes] = None
    amounts: Tuple[int, ...] = ()


@dataclass(frozen=True)
class Order:
    """A transaction as it was sent: what it rests on, keys to be read now or records as they were read, and what it does."""

    order: Optional[str]
    note: bytes
    again: bool
    reads: Tuple[Union[str, Record], ...]
    updates: Tuple[Update, ...]

    @property
    def keys(self) -> List[str]:
        """The keys that are to be read now."""
        return [read for read in self.reads if isinstance(read, str)]

    @property
    def shown(self) -> Dict[str, Record]:
        """The records that were read before."""
        return {read.key: read for read in self.reads if isinstance(read, Record)}


# ---- JSON

def pairs_in(pairs: Sequence[Tuple[str, object]]) -> Dict[str, object]:
    members = dict(pairs)
    if len(members) != len(pairs):
        raise ValueError("an object has a member twice")
    return members


def no_number(text: str) -> NoReturn:
    raise ValueError(f"{text} is no number")


DECODER = json.JSONDecoder(object_pairs_hook=pairs_in, parse_constant=no_number)


def document_in(data: bytes) -> "Members":
    """The object of JSON in a body."""
    try:
        read = DECODER.decode(data.decode("utf-8"))
    except RecursionError:
        raise Fault("not_json", "the body is nested too deep") from None
    except ValueError as error:
        raise Fault("not_json", f"the body is no JSON: {error}") from None
    return Members(read, "")


class Members:
    """An object of JSON whose members are taken one after another."""

    def __init__(self, value: object, at: str):
        if not isinstance(value, dict):
            raise Fault("wrong_value", "an object is wanted", at=at or "the body")
        self.left, self.at = dict(value), at

    def place(self, name: str) -> str:
        return f"{self.at}.{name}" if self.at else name

    def take(self, name: str, default: Any = None, is_wanted: bool = False) -> Any:
        """A member; null stands for one that is left out."""
        value = self.left.pop(name, None)
        if value is None and is_wanted:
            raise Fault("missing_member", f"the member {name} is missing", at=self.place(name))
        return default if value is None else value

    def wrong(self, name: str, cause: str) -> Fault:
        return Fault("wrong_value", cause, at=self.place(name))

    def end(self) -> None:
        """Raises where a member is left."""
        for name in self.left:
            raise Fault("unknown_member", f"there is no member {name[:40]!r} here", at=self.place(name[:40]))

    def key(self, name: str) -> str:
        return key_of(self.take(name, is_wanted=True), self.place(name))

    def flag(self, name: str) -> bool:
        value = self.take(name, False)
        if not isinstance(value, bool):
            raise self.wrong(name, "true or false is wanted")
        return value

    def items(self, name: str, most: int) -> List[Any]:
        value = self.take(name, [])
        if not isinstance(value, list) or len(value) > most:
            raise self.wrong(name, f"a list of at most {most} is wanted")
        return value

    def numbers(self, name: str) -> Tuple[int, ...]:
        """Whole numbers, at most four."""
        value = self.items(name, 4)
        if not all(isinstance(number, int) and not isinstance(number, bool) and abs(number) <= MOST_VALUE for number in value):
            raise self.wrong(name, "whole numbers are wanted")
        return tuple(value)

    def body(self, name: str, most: int = MOST_BODY) -> Optional[bytes]:
        """A body: a text or an object with base64. None where there is none."""
        value = self.take(name)
        if value is None:
            return None
        body = value if isinstance(value, str) else None
        try:
            if body is not None:
                data = body.encode("utf-8")
            else:
                inside = Members(value, self.place(name))
                data = base64.b64decode(inside.take("base64", is_wanted=True), validate=True)
                inside.end()
        except (binascii.Error, UnicodeEncodeError, TypeError, ValueError):
            raise self.wrong(name, "a text, or an object with base64, is wanted") from None
        if len(data) > most:
            raise self.wrong(name, f"it has {len(data)} bytes: at most {most} are taken")
        return data


def key_of(value: object, at: str) -> str:
    try:
        return checked_key(value) if isinstance(value, str) else checked_key("")
    except ValueError as error:
        raise Fault("wrong_value", str(error), at=at) from None


# ---- records

def body_shown(body: bytes) -> Union[str, Dict[str, str]]:
    """A body as it is shown."""
    try:
        return body.decode("utf-8")
    except UnicodeDecodeError:
        return {"base64": base64.b64encode(body).decode("ascii")}


def record_shown(record: Record) -> Dict[str, object]:
    """A record as it is shown, and as it may be sent back as a read."""
    return {"key": record.key, "found": bool(record), "version": record.version, "values": list(record.values),
            "body": body_shown(record.body), "seen": [str(tx) for tx in record.seen], "due": record.due, "centre": record.centre}


def tx_in(text: object, at: str) -> Tx:
    found = TX.fullmatch(text) if isinstance(text, str) else None
    if not found or max(map(int, found.groups())) > 0xFFFFFFFF:
        raise Fault("wrong_value", "a transaction is wanted, such as 1.1.7", at=at)
    return Tx(int(found[1]), int(found[2]), int(found[3]))


def record_in(value: object, at: str) -> Record:
    """A record as it was shown."""
    members = Members(value, at)
    key, version = members.key("key"), members.take("version", is_wanted=True)
    if isinstance(version, bool) or not isinstance(version, int) or not 0 <= version <= MOST_VERSION:
        raise members.wrong("version", "a whole number is wanted")
    is_found = version > 0
    if members.take("found", is_found) is not is_found:
        raise members.wrong("found", "a record that was found has a version above 0, one that was not has 0")
    values, body = members.numbers("values"), members.body("body") or b""
    seen = [tx_in(text, f"{at}.seen[{number}]") for number, text in enumerate(members.items("seen", MOST_SEEN))]
    if any(left >= right for left, right in zip(seen, seen[1:])):
        raise members.wrong("seen", "transactions ascend")
    for name in ("due", "centre"):
        members.take(name)
    members.end()
    return Record(key, version, Item(body, values) if is_found else None, tuple(seen), False, 0)


# ---- orders

def update_in(value: object, at: str) -> Update:
    members = Members(value, at)
    kinds = [kind for kind in KINDS if kind in members.left]
    if len(kinds) != 1:
        raise Fault("missing_member" if not kinds else "wrong_value", f"one of {', '.join(KINDS)} is wanted, with a key", at=at)
    kind = kinds[0]
    key = members.key(kind)
    values: Optional[Tuple[int, ...]] = None
    body: Optional[bytes] = None
    amounts: Tuple[int, ...] = ()
    if kind == "add":
        amounts = members.numbers("amounts")
        if not any(amounts):
            raise members.wrong("amounts", "amounts are wanted, one for each number of the record, not all of them 0")
    elif kind != "keep":
        values = members.numbers("values") if members.left.get("values") is not None else None
        body = members.body("body")
        if values is None and kind == "insert":
            raise Fault("missing_member", "the member values is missing", at=members.place("values"))
    members.end()
    return Update(kind, key, at, values, body, amounts)


def order_in(data: bytes, prefix: str) -> Order:
    """The transaction in a body. `prefix` is what the names of orders' records begin with."""
    members = document_in(data)
    order = members.take("order")
    if order is not None:
        order = order_name(order, prefix, "order")
    note = members.body("note", MOST_BODY - 1) or b""
    again = members.flag("again")
    if order is None and (note or again):
        raise Fault("missing_member", "a note, and a sending again, are of an order", at="order")
    reads = tuple(key_of(read, f"reads[{number}]") if isinstance(read, str) else record_in(read, f"reads[{number}]")
                  for number, read in enumerate(members.items("reads", MOST_KEYS)))
    updates = tuple(update_in(update, f"updates[{number}]") for number, update in enumerate(members.items("updates", MOST_PARTS)))
    members.end()
    if not updates:
        raise Fault("missing_member", "one update at least is wanted", at="updates")
    keys = [read if isinstance(read, str) else read.key for read in reads]
    for update in updates:
        if sum(other.key == update.key for other in updates) > 1:
            raise Fault("wrong_value", f"{update.key} has two updates", at=update.at)
        if update.kind in ("write", "keep") and update.key not in keys:
            raise Fault("not_read", at=update.at, key=update.key)
    if len(set(keys)) != len(keys):
        raise Fault("wrong_value", "a key is read twice", at="reads")
    return Order(order, note, again, reads, updates)


def order_name(name: object, prefix: str, at: str) -> str:
    """The name of an order, whose record's key has room for it."""
    try:
        if isinstance(name, str) and name:
            checked_key(prefix + name)
            return name
    except ValueError:
        pass
    raise Fault("wrong_value", f"the name of an order is wanted: 1 to {32 - len(prefix)} letters, digits or bytes of _ . / -", at=at)
