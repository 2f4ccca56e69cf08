"""The facts of one centre and what they say, after `mdcc_def_protocol`'s definitions Facts, Fit, Structures and Visible, for pictures.

Values are those of `parts.py`: a mark is a choice, or None for a rejection; options are a dictionary from transaction to mark; an outcome is
the choices of a commit, or None for an abort. No proof stands on this: what is made of it is held against the program's own report.
"""
from typing import Dict, Iterable, List, NamedTuple, Optional, Tuple

from . import logs
from .parts import FAST, Add, Choice, Write

MOST_DELTAS, LAST_VERSION = 64, 2 ** 64 - 1
ACCEPT_ROOM = {Write: 512, Add: 500}
REJECT_ROOM = 16384
FITS, CONFLICT, LIMIT, BREAKS = "Fits", "Conflict", "Limit", "Breaks"

Fact = Tuple[int, tuple]
Tx = Tuple[int, int, int]
Ballot = Tuple[int, int, int]
Options = Dict[Tx, Optional[Choice]]


class Cluster(NamedTuple):
    """What the header of a schedule says."""
    centres: int
    classic: int
    fast: int
    gamma: int
    cells: int
    limit: str
    bounds: Tuple[Tuple[int, int], ...]

    @property
    def parts(self) -> int:
        return self.classic if self.limit == "safe" else self.centres

    def threshold(self, count: int) -> int:
        return self.fast + count - self.centres

    def quorum(self, ballot: Ballot) -> int:
        return self.fast if ballot == FAST else self.classic

    def home(self, key: bytes) -> int:
        """The centre whose leader takes the collisions of a key."""
        return sum(key) % self.centres + 1

    def all(self) -> range:
        return range(1, self.centres + 1)


class Load:
    """What live choices weigh beside a seen set."""

    def __init__(self, live: Dict[Tx, object], seen: Iterable[Tx]):
        known = set(seen)
        adds = [update for update in live.values() if isinstance(update, Add)]
        self.writes = len(live) - len(adds)
        self.unseen = sum(tx not in known for tx in live)
        self.count = len(adds)
        self.down: Dict[int, int] = {}
        self.up: Dict[int, int] = {}
        for update in adds:
            for attribute, amount in update.amounts:
                side = self.up if amount > 0 else self.down
                side[attribute] = side.get(attribute, 0) + abs(amount)


def quantities(cluster: Cluster, base: tuple, load: Load, amounts: tuple) -> List[Tuple[int, int, int, int]]:
    """All that an Add changes: number, sum of the live choices, room, magnitude of the amount."""
    found = [(0, load.count, MOST_DELTAS, 1)]
    for attribute, amount in amounts:
        value, (low, high) = base[1][attribute - 1], cluster.bounds[attribute - 1]
        if amount > 0:
            found.append((attribute, load.up.get(attribute, 0), high - value, amount))
        else:
            found.append((attribute, load.down.get(attribute, 0), value - low, -amount))
    return found


def exact_fit(cluster: Cluster, base: Optional[tuple], load: Load, update: object) -> Tuple[str, Optional[int]]:
    if isinstance(update, Write):
        return (CONFLICT if load.unseen else FITS), None
    if base is None or load.writes:
        return CONFLICT, None
    for number, total, room, amount in quantities(cluster, base, load, update.amounts):
        if total + amount > room:
            return BREAKS, number
    return FITS, None


def fast_fit(cluster: Cluster, base: Optional[tuple], load: Load, update: object) -> Tuple[str, Optional[int]]:
    """What fits exactly may still be past the share of one acceptor."""
    fit = exact_fit(cluster, base, load, update)
    if fit[0] != FITS or base is None or isinstance(update, Write):
        return fit
    share = cluster.threshold(cluster.parts)
    for number, total, room, amount in quantities(cluster, base, load, update.amounts):
        if cluster.parts * (total + amount) > share * room:
            return LIMIT, number
    return fit


def are_within_room(cluster: Cluster, base: Optional[tuple], load: Load) -> bool:
    """Whether live Adds on an item are together within the room at each quantity."""
    if base is None or load.count > MOST_DELTAS:
        return False
    return all(load.down.get(attribute, 0) <= base[1][attribute - 1] - low and load.up.get(attribute, 0) <= high - base[1][attribute - 1]
               for attribute, (low, high) in enumerate(cluster.bounds, 1))


def next_version(version: int) -> int:
    return min(version + 1, LAST_VERSION)


class Facts:
    """The facts of a centre, oldest first, with what is asked of them kept by key, version and transaction."""

    def __init__(self):
        self.all: List[Fact] = []
        self.cells = self.epoch = 0
        self.promises: Dict[bytes, List[Tuple[int, int, Ballot]]] = {}
        self.votes: Dict[Tuple[bytes, int], Dict[Ballot, Options]] = {}
        self.heard: Dict[Tx, Optional[tuple]] = {}
        self.current: Dict[bytes, int] = {}
        self.bases: Dict[Tuple[bytes, int], tuple] = {}
        self.deltas: Dict[Tuple[bytes, int], Dict[Tx, tuple]] = {}
        self.lives: Dict[Tuple[bytes, int], Dict[Tx, object]] = {}
        self.known: Dict[Tuple[bytes, int, Tx], Choice] = {}
        self.write_sets: Dict[Tx, tuple] = {}
        self.unresolved: Dict[Tx, tuple] = {}

    # ---- a further fact

    def add(self, fact: Fact) -> None:
        kind, body = fact
        self.all.append(fact)
        self.cells += cells_needed(fact)
        (self.booted, self.promised, self.voted, self.outcome, self.adopted)[kind - 1](*body)

    def booted(self, epoch: int) -> None:
        self.epoch = epoch

    def promised(self, key: bytes, low: int, high: int, ballot: Ballot) -> None:
        self.promises.setdefault(key, []).append((low, high, ballot))

    def voted(self, key: bytes, version: int, ballot: Ballot, options: tuple, offered: Optional[Choice]) -> None:
        votes = self.votes.setdefault((key, version), {}).setdefault(ballot, {})
        for tx, mark in options:
            votes.setdefault(tx, mark)
        for choice in [mark for _, mark in options if mark] + [offered] * bool(offered):
            self.known.setdefault((key, version, choice.tx), choice)
            if choice.tx not in self.write_sets:
                self.write_sets[choice.tx] = choice.write_set
                if choice.tx not in self.heard:
                    self.unresolved[choice.tx] = choice.write_set
        live = self.lives.setdefault((key, version), {})
        for tx, mark in options:
            if mark:
                live.setdefault(tx, mark.update)

    def outcome(self, tx: Tx, choices: Optional[tuple]) -> None:
        if tx not in self.heard:
            self.heard[tx] = choices
        self.unresolved.pop(tx, None)
        for choice in choices or ():
            if isinstance(choice.update, Write):
                self.give_base(choice.key, next_version(choice.version), choice.update.item)
            else:
                self.give_delta(choice.key, choice.version, tx, choice.update.amounts)

    def adopted(self, key: bytes, version: int, item: tuple, deltas: tuple) -> None:
        self.give_base(key, version, item)
        for tx, amounts in deltas:
            self.give_delta(key, version, tx, amounts)

    def give_base(self, key: bytes, version: int, item: tuple) -> None:
        self.current[key] = max(self.current.get(key, 0), version)
        self.bases.setdefault((key, version), item)

    def give_delta(self, key: bytes, version: int, tx: Tx, amounts: tuple) -> None:
        self.deltas.setdefault((key, version), {}).setdefault(tx, amounts)
        self.lives.setdefault((key, version), {}).setdefault(tx, Add(amounts))

    # ---- what they say

    def version_of(self, key: bytes) -> int:
        return self.current.get(key, 0)

    def base_of(self, key: bytes) -> Optional[tuple]:
        version = self.version_of(key)
        return self.bases.get((key, version)) if version else None

    def executed(self, key: bytes) -> Dict[Tx, tuple]:
        return self.deltas.get((key, self.version_of(key)), {})

    def token_of(self, key: bytes) -> Tuple[int, Tuple[Tx, ...]]:
        return self.version_of(key), tuple(sorted(self.executed(key)))

    def promise_of(self, key: bytes, version: int) -> Ballot:
        ranges = [ballot for low, high, ballot in self.promises.get(key, ()) if low <= version <= high]
        return max(ranges + list(self.votes.get((key, version), ())) + [FAST])

    def promised_through(self, key: bytes, version: int, ballot: Ballot) -> Optional[int]:
        return next((high for low, high, other in self.promises.get(key, ()) if low == version and other == ballot), None)

    def votes_at(self, key: bytes, version: int, ballot: Ballot) -> Options:
        return self.votes.get((key, version), {}).get(ballot, {})

    def report_of(self, key: bytes, version: int, below: Ballot) -> Tuple[Ballot, Options]:
        """What a centre reports to a leader: the votes at the greatest ballot below the leader's."""
        ballot = max([other for other in self.votes.get((key, version), ()) if other < below] + [FAST])
        return ballot, {} if below == FAST else self.votes_at(key, version, ballot)

    def vote_of(self, key: bytes, version: int, tx: Tx) -> Optional[Tuple[Ballot, Optional[Choice]]]:
        """The vote on a transaction at the greatest ballot at which it was voted, with that ballot."""
        for ballot, options in sorted(self.votes.get((key, version), {}).items(), reverse=True):
            if tx in options:
                return ballot, options[tx]
        return None

    def is_void(self, tx: Tx) -> bool:
        return tx in self.heard and self.heard[tx] is None

    def live_of(self, key: bytes, version: int) -> Dict[Tx, object]:
        return {tx: update for tx, update in self.lives.get((key, version), {}).items() if not self.is_void(tx)}

    def is_news(self, key: bytes, version: int, deltas: tuple) -> bool:
        current = self.version_of(key)
        return current < version or current == version and any(tx not in self.executed(key) for tx, _ in deltas)

    def is_crowding(self, fact: Fact) -> bool:
        """Whether a further fact would bring more than 64 deltas to the version that is then held."""
        kind, body = fact
        if kind == logs.HEARD and body[1] is not None:
            return any(self.crowds(choice.key, next_version(choice.version), ()) if isinstance(choice.update, Write) else
                       self.crowds(choice.key, 0, ((choice.version, body[0]),)) for choice in body[1])
        if kind == logs.ADOPTED:
            return self.crowds(body[0], body[1], tuple((body[1], tx) for tx, _ in body[3]))
        return False

    def crowds(self, key: bytes, given: int, new: tuple) -> bool:
        version = max(self.version_of(key), given)
        return len(set(self.deltas.get((key, version), ())) | {tx for at, tx in new if at == version}) > MOST_DELTAS

    def read(self, key: bytes) -> Tuple[Tuple[int, Tuple[Tx, ...]], Optional[tuple]]:
        """What a read shows: what was seen, and the base with the executed deltas in it."""
        base = self.base_of(key)
        if base is None:
            return self.token_of(key), None
        values = list(base[1])
        for amounts in self.executed(key).values():
            for attribute, amount in amounts:
                if attribute <= len(values):
                    values[attribute - 1] += amount
        return self.token_of(key), (base[0], tuple(max(-2 ** 63, min(2 ** 63 - 1, value)) for value in values))


def cells_needed(fact: Fact) -> int:
    return logs.cells_of(logs.encode_fact(*fact))
