"""Items from the log of a centre, read while its node runs or not, without a lock and without a write."""
from __future__ import annotations

import time
from typing import Dict, Iterator, List

from mdcc_tools import logs
from mdcc_tools.areas import Follower, has_facts
from mdcc_tools.items import Item, Items
from mdcc_tools.parts import Refused as NoFact

from .answers import DONE, NOT, REFUSED, Answer, line_of_item, not_done
from .words import Listing

# Seconds between two looks of a watch.
EVERY = 1.0


def line_of(item: Item) -> str:
    return line_of_item(item.key, item.version, item.values, item.body)


class Log:
    """The items of a log that begin with a prefix, as they are at each look."""

    def __init__(self, folder: str, centre: int, prefix: str):
        self.prefix, self.items, self.shown = prefix, Items(), {}  # type: str, Items, Dict[str, Item]
        self.follower = Follower(folder, centre)

    def take(self, payload: bytes) -> None:
        self.items.take(*logs.decode_fact(payload))

    def begin_anew(self) -> None:
        self.items = Items()

    def changes(self) -> List[Item]:
        """The items that are not as they were at the last look; at the first one all. Raises as a Follower does, and where a fact is none."""
        before = self.follower.position
        self.follower.read(self.take, self.begin_anew)
        if self.follower.position == before:
            return []
        now = {item.key: item for item in self.items if item.key.startswith(self.prefix)}
        changed = [item for key, item in now.items() if self.shown.get(key) != item]
        self.shown = now
        return changed


def watch(log: Log, every: float = EVERY) -> Iterator[str]:
    """A line for each item that changes from now on, without end."""
    log.changes()
    while True:
        time.sleep(every)
        yield from map(line_of, log.changes())


def listed(folder: str, centre: int, listing: Listing) -> Answer:
    """The items of a log; with a watch, prints what changes until it is interrupted."""
    if not has_facts(folder, centre):
        return Answer(NOT, (), (f"absent: no facts of centre {centre} in {folder}", "the folder of its log is given by --folder"))
    log = Log(folder, centre, listing.prefix)
    try:
        if not listing.is_watched:
            lines = tuple(map(line_of, log.changes()))
            return Answer(DONE if lines else NOT, lines)
        for line in watch(log):
            print(line, flush=True)
    except KeyboardInterrupt:
        return Answer(DONE)
    except (logs.NotALog, NoFact, OSError) as damage:
        if isinstance(damage, BrokenPipeError):
            raise
        return not_done(REFUSED, f"the log of centre {centre} cannot be read: {damage}", advice="see tools/look")
    return Answer(DONE)
