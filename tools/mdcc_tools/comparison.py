"""What the summaries of all centres say together: who missed what, and which items each holds older than others."""
from typing import Dict, List, NamedTuple, Set, Tuple

from .summary import Summary


class Behind(NamedTuple):
    """An item that is not equally new at all centres: the newest version, those that hold all of it, and those that do not. No centre holds
    all of it where each has missed a different add."""
    version: int
    whole: Tuple[int, ...]
    older: Tuple[int, ...]


class Comparison:
    def __init__(self, summaries: List[Summary]):
        heard = {one.centre: one.commits | one.aborts for one in summaries}
        everything: Set[int] = set().union(*heard.values())
        self.missed: Dict[int, Set[int]] = {centre: everything - own for centre, own in heard.items()}
        self.both: Set[int] = set().union(*(one.commits for one in summaries)) & set().union(*(one.aborts for one in summaries))
        self.items: Dict[str, Behind] = {key: behind_at(summaries, key) for key in sorted(differing(summaries))}

    def older_at(self, centre: int) -> List[str]:
        return [key for key, behind in self.items.items() if centre in behind.older]


def differing(summaries: List[Summary]) -> Set[str]:
    """The keys that two centres hold in different states."""
    keys: Set[str] = set()
    for one in summaries[1:]:
        first = summaries[0]
        if one.versions != first.versions:
            keys.update(key for key, _ in one.versions.items() ^ first.versions.items())
        if one.adds != first.adds:
            keys.update(key for key in one.adds.keys() | first.adds.keys() if one.adds.get(key) != first.adds.get(key))
    return keys


def behind_at(summaries: List[Summary], key: str) -> Behind:
    version = max(one.versions.get(key, 0) for one in summaries)
    newest = {one.centre: one.adds.get(key, set()) for one in summaries if one.versions.get(key, 0) == version}
    adds = set().union(*newest.values(), *(one.ahead.get((key, version), ()) for one in summaries))
    whole = tuple(sorted(centre for centre, own in newest.items() if own == adds))
    return Behind(version, whole, tuple(sorted(one.centre for one in summaries if one.centre not in whole)))
