"""What a picture of the logs of a cluster shows: the facts of each centre in their order, and what joins those of one transaction.

A log has no times and no messages. Rows only put facts beside each other that speak of the same: in each row a centre has at most one fact, in
its own order, and a fact that an outcome was heard comes below votes of most of the centres on it, where the logs have them.
"""
import os
import re
from collections import deque
from typing import Deque, Dict, List, Set, Tuple

from . import logs
from .areas import Follower
from .parts import text_of_tx
from .picture_data import Kind, mark_of, text_of_fact, text_of_update

KINDS = (Kind("Joined", "#8a8a8a", "", "facts about one transaction, at two centres"),)
Fact = Tuple[int, tuple]
NOTE = ("Drawn from the logs alone. They have facts, in order for each centre; no times and no messages. That a fact stands above one of another "
        "centre says nothing: rows put together what speaks of one transaction, and lines join it.")


class NoLogs(Exception):
    """A folder has no logs."""


def centres_in(folder: str) -> List[int]:
    names = [re.fullmatch(r"mdcc-(\d+)\.log", name) for name in os.listdir(folder)]
    return sorted(int(name.group(1)) for name in names if name)


def read_facts(folder: str, centre: int, most: int) -> Tuple[List[Fact], int]:
    """The last facts of a centre, oldest first, and how many it has in all."""
    payloads: Deque[bytes] = deque(maxlen=most)
    follower = Follower(folder, centre)
    follower.read(payloads.append, payloads.clear)
    return [logs.decode_fact(payload) for payload in payloads], follower.position.facts


def named_in(fact: Fact) -> List[tuple]:
    """The transactions of which a fact speaks."""
    kind, body = fact
    if kind == logs.VOTED:
        return [tx for tx, _ in body[3]]
    if kind == logs.HEARD:
        return [body[0]]
    return [tx for tx, _ in body[3]] if kind == logs.ADOPTED else []


def rows_of(facts: Dict[int, List[Fact]]) -> List[Tuple[int, int, Fact]]:
    """Each fact with its row and centre, by row."""
    voters = voters_of(facts)
    placed: Dict[tuple, Set[int]] = {}
    at, found, row = {centre: 0 for centre in facts}, [], 0
    while any(at[centre] < len(facts[centre]) for centre in facts):
        heads = [(centre, facts[centre][at[centre]]) for centre in facts if at[centre] < len(facts[centre])]
        ready = [head for head in heads if is_ready(head[1], placed, voters, len(facts))] or heads
        for centre, fact in ready:
            found.append((row, centre, fact))
            at[centre] += 1
        for centre, fact in ready:
            for tx in named_in(fact) if fact[0] == logs.VOTED else ():
                placed.setdefault(tx, set()).add(centre)
        row += 1
    return found


def voters_of(facts: Dict[int, List[Fact]]) -> Dict[tuple, Set[int]]:
    voters: Dict[tuple, Set[int]] = {}
    for centre, own in facts.items():
        for fact in own:
            for tx in named_in(fact) if fact[0] == logs.VOTED else ():
                voters.setdefault(tx, set()).add(centre)
    return voters


def is_ready(fact: Fact, placed: Dict[tuple, Set[int]], voters: Dict[tuple, Set[int]], count: int) -> bool:
    """An outcome waits for votes of most of the centres, or of all that voted."""
    if fact[0] != logs.HEARD:
        return True
    tx = fact[1][0]
    return len(placed.get(tx, ())) >= min(count // 2 + 1, len(voters.get(tx, ())))


def outcomes_of(facts: Dict[int, List[Fact]]) -> Dict[tuple, str]:
    return {body[0]: "abort" if body[1] is None else "commit" for own in facts.values() for kind, body in own if kind == logs.HEARD}


def updates_of(facts: Dict[int, List[Fact]]) -> Dict[tuple, str]:
    """What each transaction changes, as far as the facts say."""
    found: Dict[tuple, Dict[bytes, str]] = {}
    for kind, body in (fact for own in facts.values() for fact in own):
        known = [mark for _, mark in body[3]] + [body[4]] if kind == logs.VOTED else body[1] if kind == logs.HEARD else None
        for choice in known or ():
            if choice is not None:
                found.setdefault(choice.tx, {})[choice.key] = f"{choice.key.decode()}@{choice.version} {text_of_update(choice.update)}"
    return {tx: "; ".join(text for _, text in sorted(updates.items())) for tx, updates in found.items()}


def label_of(fact: Fact) -> str:
    kind, body = fact
    if kind == logs.VOTED:
        return f"voted {body[0].decode()}@{body[1]} " + " ".join(text_of_tx(tx) for tx, _ in body[3][:3])
    return next(iter(text_of_fact(fact).split(";")))[:60]


def picture_of(folder: str, most: int) -> dict:
    """The data of a picture of the last facts of each centre, at most so many together."""
    centres = centres_in(folder)
    if not centres:
        raise NoLogs(folder)
    read = {centre: read_facts(folder, centre, max(1, most // len(centres))) for centre in centres}
    facts, total = {centre: own for centre, (own, _) in read.items()}, sum(count for _, count in read.values())
    numbers: Dict[tuple, int] = {}
    events, joins, last = [], [], {}
    for index, (row, centre, fact) in enumerate(rows_of(facts)):
        of = [numbers.setdefault(tx, len(numbers)) for tx in named_in(fact)]
        events.append({"row": row, "at": centre, "type": "fact", "mark": mark_of(fact), "fact": text_of_fact(fact), "label": label_of(fact),
                       "of": of})
        for tx in of:
            if tx in last and events[last[tx]]["at"] != centre:
                joins.append({"from": events[last[tx]]["at"], "to": centre, "kind": 0, "sent": last[tx], "came": [index], "of": [tx], "text": ""})
            last[tx] = index
    outcomes, updates, left = outcomes_of(facts), updates_of(facts), total - len(events)
    note = NOTE + (f" Of {total} facts the first {left} are left out." if left else "")
    return {"mode": "logs", "title": f"logs in {folder}", "note": note, "centres": max(facts), "header": f"{total} facts", "messages": joins,
            "kinds": [kind._asdict() for kind in KINDS], "schedule": [], "events": events,
            "transactions": [{"name": text_of_tx(tx), "outcome": outcomes.get(tx, "open"), "about": updates.get(tx, "")} for tx in numbers]}
