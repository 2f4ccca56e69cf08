"""The items of a cluster, in the newest state that its logs together show: each committed write and add that any centre heard of or took over."""
from typing import Dict, Iterator, List, NamedTuple, Tuple

from . import logs
from .areas import Follower
from .parts import Write, text_of_tx


class Item(NamedTuple):
    key: str
    version: int
    adds: int
    body: bytes
    values: Tuple[int, ...]

    def word(self) -> str:
        """As a word of `ask` or of a schedule that inserts it."""
        return f"new:{self.key}:{self.body.hex() or '-'}:{','.join(map(str, self.values))}"


class Items:
    """Facts are taken in any order, of any centres."""

    def __init__(self):
        # The greatest version of each key with its base, and the adds on it and above it.
        self.bases: Dict[bytes, Tuple[int, tuple]] = {}
        self.adds: Dict[bytes, Dict[int, Dict[tuple, tuple]]] = {}
        self.heard, self.aborted, self.voted = set(), set(), set()

    def take(self, kind: int, body: tuple) -> None:
        if kind == logs.VOTED:
            self.voted.update(tx for tx, _ in body[3])
        elif kind == logs.HEARD:
            self.take_outcome(*body)
        elif kind == logs.ADOPTED:
            key, version, item, deltas = body
            self.hold(key, version, item)
            for tx, amounts in deltas:
                self.add(key, version, tx, amounts)

    def take_outcome(self, tx, choices) -> None:
        (self.aborted if choices is None else self.heard).add(tx)
        for choice in choices or ():
            if isinstance(choice.update, Write):
                self.hold(choice.key, choice.version + 1, choice.update.item)
            else:
                self.add(choice.key, choice.version, tx, choice.update.amounts)

    def hold(self, key: bytes, version: int, item: tuple) -> None:
        if key not in self.bases or version > self.bases[key][0]:
            self.bases[key] = (version, item)
            adds = self.adds.get(key)
            if adds:
                self.adds[key] = {later: own for later, own in adds.items() if later >= version}

    def add(self, key: bytes, version: int, tx: tuple, amounts: tuple) -> None:
        if key not in self.bases or version >= self.bases[key][0]:
            self.adds.setdefault(key, {}).setdefault(version, {})[tx] = amounts

    def open(self) -> int:
        """How many transactions a centre voted on, and no log knows the outcome of."""
        return len(self.voted - self.heard - self.aborted)

    def disputed(self) -> List[str]:
        return [text_of_tx(tx) for tx in sorted(self.heard & self.aborted)]

    def unfounded(self) -> List[str]:
        """Keys with an add on a version whose base no log has."""
        return [key.decode() for key, adds in sorted(self.adds.items())
                if any(version > self.bases.get(key, (0, None))[0] for version in adds)]

    def __iter__(self) -> Iterator[Item]:
        for key in sorted(self.bases):
            version, (body, values) = self.bases[key]
            adds = self.adds.get(key, {}).get(version, {})
            shown = list(values)
            for amounts in adds.values():
                for attribute, amount in amounts:
                    shown[attribute - 1] += amount
            yield Item(key.decode(), version, len(adds), body, tuple(shown))


def take_log(items: Items, folder: str, centre: int) -> int:
    """Takes all facts of a log, and gives their number."""
    count = [0]

    def take(payload):
        count[0] += 1
        items.take(*logs.decode_fact(payload))

    # What was taken before a log is read anew is taken once more, which changes nothing.
    Follower(folder, centre).read(take, lambda: None)
    return count[0]
