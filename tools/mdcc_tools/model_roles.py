"""What a node keeps beside its facts, role by role, after `mdcc_def_protocol`'s definitions Learner, Manager, Leader and Recover, for pictures."""
from typing import Dict, List, NamedTuple, Optional, Tuple

from .model_facts import ACCEPT_ROOM, FITS, REJECT_ROOM, Ballot, Cluster, Facts, Load, Options, Tx, are_within_room, exact_fit
from .parts import FAST, Add, Choice

MOST_OPEN, MOST_ACCEPTED, MOST_REJECTED = 256, 1024, 32768


class Vote(NamedTuple):
    sender: int
    key: bytes
    version: int
    ballot: Ballot
    tx: Tx
    mark: Optional[Choice]


class Claim(NamedTuple):
    tx: Tx
    key: bytes
    version: int
    choice: Optional[Choice]


class Report(NamedTuple):
    """A promise that was counted."""
    sender: int
    through: int
    ballot: Ballot
    votes: Options


class Exhausted(Exception):
    """A leader refuses a claim or a promise, and nothing changes."""


# ---- learning

Votes = Dict[Tuple[Tx, bytes], List[Vote]]


def taken(votes: Votes, vote: Vote) -> List[Vote]:
    """The counted votes on a transaction and key with one more, where nothing bars it."""
    on = votes.get((vote.tx, vote.key), [])
    barred = any(other.version != vote.version or (other.ballot, other.sender) == (vote.ballot, vote.sender) for other in on)
    return on if barred else on + [vote]


def learned(cluster: Cluster, on: List[Vote]) -> Optional[Vote]:
    """A vote whose mark a quorum has, at the least ballot where one has."""
    ready = [vote for vote in on
             if sum(other.ballot == vote.ballot and other.mark == vote.mark for other in on) >= cluster.quorum(vote.ballot)]
    return min(ready, key=lambda vote: vote.ballot) if ready else None


def has_collided(cluster: Cluster, on: List[Vote]) -> bool:
    fast = [vote for vote in on if vote.ballot == FAST]
    silent = cluster.centres - len(fast)
    accepts = sum(vote.mark is not None for vote in fast)
    return (learned(cluster, on) is None and accepts + silent < cluster.fast and len(fast) - accepts + silent < cluster.fast)


def decision(cluster: Cluster, votes: Votes, tx: Tx, keys: List[bytes], vote: Vote) -> Optional[Tuple[Optional[tuple]]]:
    """What the votes with one more decide: an outcome in a tuple, or None."""
    found = [learned(cluster, taken(votes, vote) if key == vote.key else votes.get((tx, key), [])) for key in keys]
    if any(one is not None and one.mark is None for one in found):
        return (None,)
    return (tuple(one.mark for one in found),) if all(found) else None


def without(votes: Votes, tx: Tx) -> None:
    for place in [place for place in votes if place[0] == tx]:
        del votes[place]


# ---- structures

def with_claim(cluster: Cluster, facts: Facts, key: bytes, version: int, options: Options, tx: Tx, choice: Optional[Choice]) -> Options:
    """The structure with a claim marked; a claim that is in it stays as it is marked, and one whose outcome was heard is left out."""
    if tx in options or tx in facts.heard:
        return options
    mark = choice if choice is not None and is_accepted(cluster, facts, key, version, options, choice) else None
    if mark is None and sum(other is None for other in options.values()) >= REJECT_ROOM:
        return options
    return {**options, tx: mark}


def live_at_leader(facts: Facts, key: bytes, version: int, options: Options) -> Dict[Tx, object]:
    """What is live beside a structure: its accepted choices and the executed deltas, but for what is void."""
    live = {tx: mark.update for tx, mark in options.items() if mark}
    for tx, amounts in facts.deltas.get((key, version), {}).items():
        live.setdefault(tx, Add(amounts))
    return {tx: update for tx, update in live.items() if not facts.is_void(tx)}


def is_accepted(cluster: Cluster, facts: Facts, key: bytes, version: int, options: Options, choice: Choice) -> bool:
    if facts.version_of(key) != version or sum(mark is not None for mark in options.values()) >= ACCEPT_ROOM[type(choice.update)]:
        return False
    live = live_at_leader(facts, key, version, options)
    return exact_fit(cluster, facts.base_of(key), Load(live, getattr(choice.update, "seen", ())), choice.update)[0] == FITS


def forced(cluster: Cluster, reports: List[Report]) -> Options:
    """At the fast ballot what enough of the reports have, at a classic ballot all that was voted at the greatest one."""
    ballot = max([report.ballot for report in reports] + [FAST])
    marks: Options = {}
    for report in reports:
        if ballot == FAST or report.ballot == ballot:
            for tx, mark in report.votes.items():
                marks.setdefault(tx, mark)
    if ballot != FAST:
        return marks
    least, kept = cluster.threshold(len(reports)), {}
    for tx in marks:
        given = [report.votes[tx] for report in reports if tx in report.votes]
        enough = [mark for mark in given if sum(mark == other for other in given) >= least]
        if enough:
            kept[tx] = enough[0]
    return kept


def is_enough(cluster: Cluster, facts: Facts, key: bytes, version: int, reports: List[Report]) -> bool:
    if len(reports) >= cluster.parts:
        return True
    if len(reports) < cluster.classic:
        return False
    marks = forced(cluster, reports)
    if not any(mark and isinstance(mark.update, Add) for mark in marks.values()):
        return True
    live = live_at_leader(facts, key, version, marks)
    return facts.version_of(key) == version and are_within_room(cluster, facts.base_of(key), Load(live, ()))


def first_structure(cluster: Cluster, facts: Facts, lead: "Lead") -> Options:
    """The forced marks, and then the claims in order of transaction."""
    claims = dict(lead.claims)
    reported: Dict[Tx, Choice] = {}
    for report in lead.promises:
        for tx, mark in report.votes.items():
            if mark is not None:
                reported.setdefault(tx, mark)
    for tx, choice in reported.items():
        claims[tx] = claims.get(tx) or choice
    options = forced(cluster, lead.promises)
    for tx, choice in sorted(claims.items()):
        options = with_claim(cluster, facts, lead.key, lead.version, options, tx, choice)
    return options


# ---- what the roles keep

class Open:
    """A transaction that a node began and that is not decided there."""

    def __init__(self, choices: Tuple[Choice, ...]):
        self.choices = choices
        self.led: set = set()
        self.ticks = 0

    def unled(self, key: bytes) -> Optional[Choice]:
        return next((choice for choice in self.choices if choice.key == key and key not in self.led), None)


class Lead:
    """A classic ballot that a node leads on a key, from its version through the end of its range."""

    def __init__(self, claim: Claim, through: int, ballot: Ballot):
        self.key, self.version, self.through, self.ballot = claim.key, claim.version, through, ballot
        self.is_refused = False
        self.claims: Dict[Tx, Optional[Choice]] = {claim.tx: claim.choice}
        self.promises: List[Report] = []
        self.structures: Dict[int, Options] = {}

    def is_covered(self, cluster: Cluster, version: int) -> bool:
        return (self.version <= version and sum(version <= promise.through for promise in self.promises) >= cluster.classic
                and (self.version < version or self.version in self.structures))

    def is_waiting(self, version: int) -> bool:
        return self.version == version and version not in self.structures

    def counts(self, sender: int, version: int, ballot: Ballot, reported: Ballot, votes: Options) -> bool:
        """Whether a promise is this lead's, the first of its centre, and no report contradicts it."""
        if (self.version, self.ballot) != (version, ballot) or self.is_refused or any(one.sender == sender for one in self.promises):
            return False
        return reported == FAST or not any(
            one.ballot == reported and tx in one.votes and one.votes[tx] != mark for one in self.promises for tx, mark in votes.items())


class Kept:
    """All that a node loses in a crash."""

    def __init__(self):
        self.seq = 0
        self.open: Dict[Tx, Open] = {}
        self.votes: Votes = {}
        self.leads: Dict[bytes, Lead] = {}
        self.refused_rounds: Dict[bytes, int] = {}
        self.last_rounds: Dict[bytes, int] = {}
        self.counters: Dict[Tx, int] = {}
        self.watched: Votes = {}

    def close(self, tx: Tx) -> None:
        self.open.pop(tx, None)
        self.counters.pop(tx, None)
        without(self.votes, tx)
        without(self.watched, tx)
