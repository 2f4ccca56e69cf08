"""What a transaction asks for, before it is begun."""
from __future__ import annotations

from typing import Dict, List, Mapping, Optional, Sequence, Tuple, Union

from .configuration import Configuration
from .records import MOST_PARTS, Add, Item, Part, Record, Write, checked_body, checked_key

Amounts = Union[int, Mapping[int, int]]
Values = Union[int, Sequence[int]]


def values_of(values: Values) -> Tuple[int, ...]:
    return (values,) if isinstance(values, int) else tuple(values)


def amounts_of(amounts: Amounts) -> Dict[int, int]:
    return {1: amounts} if isinstance(amounts, int) else dict(amounts)


class Draft:
    """The updates of a transaction, one for each of at most eight keys.

    An add and an insert do not rest on what was read, so they are made again where another was faster. A set and a keep stand for what was
    read, and hold only over that."""

    def __init__(self, configuration: Configuration, order: Optional[str], note: bytes, prefix: str):
        self.configuration = configuration
        self.order = None if order is None else checked_key(prefix + order)
        # A mark of one byte stands before it.
        checked_body(b"." + note)
        self.note = bytes(note)
        # where the records of this transaction were read, and what was shown
        self.centre: Optional[int] = None
        # whether each attempt has a new draft, whose reads are as new
        self.is_made_anew = False
        self.reads: Dict[str, Record] = {}
        self.inserts: Dict[str, Item] = {}
        self.adds: Dict[str, Dict[int, int]] = {}
        self.writes: Dict[str, Tuple[Record, Item]] = {}

    # ---- updates

    def insert(self, key: str, values: Values, body: bytes = b"") -> None:
        """A new record, where there is none under this key."""
        self.inserts[self.new_key(key)] = self.item(values, body)

    def add(self, record: Union[Record, str], amounts: Amounts) -> None:
        """Adds to the first number of a record, or to several: `{1: -1, 2: 5}`. Other adds of the same moment do not hinder it."""
        key = checked_key(record.key if isinstance(record, Record) else record)
        if key not in self.adds:
            self.adds[self.new_key(key)] = {}
        for number, amount in amounts_of(amounts).items():
            if not 1 <= number <= len(self.configuration.bounds):
                raise ValueError(f"number {number}: a record has {len(self.configuration.bounds)}")
            self.adds[key][number] = self.adds[key].get(number, 0) + amount

    def set(self, record: Record, values: Optional[Values] = None, body: Optional[bytes] = None) -> None:
        """Writes over the very record that was read; what is not given stays. It fails where another wrote or added in between."""
        if record.item is None:
            self.insert(record.key, self.configuration.nearest_to_zero if values is None else values, body or b"")
            return
        item = self.item(record.values if values is None else values, record.body if body is None else body)
        self.writes[self.new_key(record.key)] = record, item

    def keep(self, record: Record) -> None:
        """Writes what was read over itself: the transaction happens only if nothing of the record changed. It makes room for 64 more
        adds, and lets what was added be taken away."""
        self.set(record)

    # ---- what comes of them

    @property
    def keys(self) -> List[str]:
        """The keys of all updates, without the order's own."""
        return [*self.inserts, *self.adds, *self.writes]

    @property
    def may_repeat(self) -> bool:
        """Whether two of it cannot both commit: one of its parts is a write, which holds over one token alone."""
        return self.order is not None or bool(self.inserts) or bool(self.writes)

    def part_of(self, key: str, shown: Mapping[str, Record]) -> Part:
        """The part of a key, over what its centre shows of it."""
        if key in self.inserts:
            return Part(key, 0, Write(self.inserts[key], ()))
        if key in self.writes:
            record, item = self.writes[key]
            return Part(key, record.version, Write(item, record.seen))
        amounts = tuple(sorted((number, amount) for number, amount in self.adds[key].items() if amount))
        return Part(key, shown[key].version, Add(amounts))

    def parts(self, shown: Mapping[str, Record]) -> List[Part]:
        """The parts of all updates but those that come to nothing."""
        return [self.part_of(key, shown) for key in self.keys if key not in self.adds or any(self.adds[key].values())]

    # ---- checks

    def new_key(self, key: str) -> str:
        """The key, which has no update yet and for which there is room."""
        checked_key(key)
        if key in self.inserts or key in self.adds or key in self.writes or key == self.order:
            raise ValueError(f"{key} has an update in this transaction")
        if len(self.keys) + (self.order is not None) >= MOST_PARTS:
            raise ValueError(f"a transaction has at most {MOST_PARTS} records, its order's own among them")
        return key

    def item(self, values: Values, body: bytes) -> Item:
        numbers = values_of(values)
        bounds = self.configuration.bounds
        if len(numbers) != len(bounds) or not all(low <= number <= high for number, (low, high) in zip(numbers, bounds)):
            raise ValueError(f"{list(numbers)} are no numbers within the bounds {[list(pair) for pair in bounds]}")
        return Item(checked_body(body), numbers)
