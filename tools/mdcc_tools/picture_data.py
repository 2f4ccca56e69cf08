"""What a picture of a replay shows, as data for its page: events in rows, messages between them, transactions, and what was derived how."""
from typing import Dict, List, NamedTuple, Optional, Sequence, Tuple

from . import logs, messages
from .model_facts import Tx
from .model_world import Event, Message, Replay, difference
from .parts import FAST, Write, text_of_tx
from .texts import lines_of, text_of_amounts, text_of_body, text_of_values


class Kind(NamedTuple):
    """A kind of message as it is drawn, with what it is for."""
    name: str
    colour: str
    dash: str
    about: str


KINDS = (
    Kind("Propose", "#0072b2", "", "a manager asks an acceptor for a vote on an option"),
    Kind("Voted accept", "#009e73", "", "an acceptor's vote for it"),
    Kind("Voted reject", "#d55e00", "", "an acceptor's vote against it"),
    Kind("Escalate", "#c77800", "6 2", "an acceptor gives no vote, and says why"),
    Kind("Lead", "#7b3fa0", "", "a manager asks a leader to decide"),
    Kind("Prepare", "#b5479c", "", "a leader asks for promises at a classic ballot"),
    Kind("Promise", "#b5479c", "5 3", "a promise, with the votes given below the ballot"),
    Kind("Accept", "#4a90d9", "7 2", "a leader asks for votes on its structure"),
    Kind("Refused", "#8c1c13", "2 2", "a higher ballot was promised"),
    Kind("Outcome commit", "#2f4b26", "", "the transaction has committed"),
    Kind("Outcome abort", "#7a1f1f", "", "the transaction has aborted"),
    Kind("Ask", "#6b6b6b", "4 3", "what is known of a dangling transaction?"),
    Kind("SyncAsk", "#0b8a8f", "4 3", "what is held of a key?"),
    Kind("SyncGive", "#0b8a8f", "", "version, base and adds of a key"),
)
NUMBER = {kind.name: number for number, kind in enumerate(KINDS)}
CAUSES = {messages.BEHIND: "its version is behind", messages.FULL: "the instance is full"}


def text_of_ballot(ballot: tuple) -> str:
    return "fast" if ballot == FAST else text_of_tx(ballot)


def text_of_update(update) -> str:
    if isinstance(update, Write):
        body, values = update.item
        return f"write {text_of_values(values)}" + (f" body {text_of_body(body)}" if body else "")
    return f"add {text_of_amounts(update.amounts)}"


def text_of_options(options: Sequence[tuple]) -> str:
    return ", ".join(f"{text_of_tx(tx)} {'accept' if mark else 'reject'}" for tx, mark in options) or "none"


def kind_of(message: Message) -> int:
    name = messages.KINDS[message.kind - 1]
    if message.kind == messages.VOTED:
        name += " reject" if message.body[4] is None else " accept"
    elif message.kind == messages.OUTCOME:
        name += " abort" if message.body[1] is None else " commit"
    return NUMBER[name]


def text_of_message(kind: int, body: tuple) -> str:
    """What a message carries, in words."""
    if kind in (messages.PROPOSE, messages.LEAD):
        return f"{body[0].key.decode()}@{body[0].version} {text_of_update(body[0].update)}"
    if kind == messages.OUTCOME:
        return " ".join(f"{choice.key.decode()}@{choice.version}" for choice in body[1] or ())
    if kind == messages.ASK:
        return f"{body[1].decode()}@{body[2]}"
    if kind == messages.SYNC_ASK:
        return body[0].decode()
    key, version, *rest = body
    place = f"{key.decode()}@{version}"
    if kind == messages.VOTED:
        return f"{place} at ballot {text_of_ballot(rest[0])}"
    if kind == messages.ESCALATE:
        cause = rest[1]
        return f"{place}: " + (CAUSES.get(cause[0]) or (
            f"ballot {text_of_ballot(cause[1])} is promised" if cause[0] == messages.CLASSIC else f"past its share of quantity {cause[1]}"))
    if kind == messages.PREPARE:
        return f"{place} to {rest[0]} at ballot {text_of_ballot(rest[1])}"
    if kind == messages.PROMISE:
        return f"{place} to {rest[0]} at ballot {text_of_ballot(rest[1])}; voted at {text_of_ballot(rest[2])}: {text_of_options(rest[3])}"
    if kind == messages.ACCEPT:
        return f"{place} at ballot {text_of_ballot(rest[0])}: {text_of_options(rest[1])}"
    if kind == messages.REFUSED:
        return f"{place}: ballot {text_of_ballot(rest[0])} is below {text_of_ballot(rest[1])}"
    item, deltas = rest
    return f"{place} base {text_of_values(item[1])}, adds {len(deltas)}"


def named_in(kind: int, body: tuple) -> List[Tx]:
    """The transactions that a message names."""
    if kind in (messages.PROPOSE, messages.LEAD):
        return [body[0].tx]
    if kind in (messages.OUTCOME, messages.ASK):
        return [body[0]]
    if kind in (messages.VOTED, messages.ESCALATE):
        return [body[3] if kind == messages.VOTED else body[2]]
    if kind in (messages.PROMISE, messages.ACCEPT):
        return [tx for tx, _ in body[5 if kind == messages.PROMISE else 3]]
    return []


def mark_of(fact: Optional[tuple]) -> str:
    """The mark that is drawn for a fact."""
    if fact is None:
        return ""
    kind, body = fact
    if kind == logs.VOTED:
        accepts = [mark is not None for _, mark in body[3]]
        return "accept" if all(accepts) else "both" if any(accepts) else "reject"
    if kind == logs.HEARD:
        return "abort" if body[1] is None else "commit"
    return {logs.BOOTED: "booted", logs.PROMISED: "promised", logs.ADOPTED: "adopted"}[kind]


def text_of_fact(fact: Optional[tuple]) -> str:
    return "" if fact is None else "; ".join(line.strip() for line in lines_of(*fact))


def text_of_read(note: str) -> str:
    """What a read shows, in short: its key with its values."""
    key, *words = note.split(": ", 1)[1].split(" ")
    return f"read {key}: " + (words[words.index("values") + 1] if "values" in words else "none")


class Picture:
    """The data of one picture of a replay."""

    def __init__(self, replayed: Replay):
        self.replayed, self.world = replayed, replayed.world
        self.numbers: Dict[Tx, int] = {tx: number for number, tx in enumerate(self.world.chosen.begun)}
        self.of_message: List[List[int]] = []

    def data(self, title: str, note: str) -> dict:
        world = self.world
        drawn = [self.message(number, message) for number, message in enumerate(world.messages, 1)]
        return {
            "mode": "replay", "title": title, "note": note, "centres": world.cluster.centres,
            "header": f"quorums {world.cluster.centres} {world.cluster.classic} {world.cluster.fast}",
            "kinds": [kind._asdict() for kind in KINDS], "schedule": self.replayed.schedule, "messages": drawn,
            "events": [self.event(row, event) for row, event in enumerate(world.events)],
            "transactions": [self.transaction(tx) for tx in self.numbers],
        }

    def message(self, number: int, message: Message) -> dict:
        """A message; one that names no transaction is of those of its cause."""
        named = [self.numbers[tx] for tx in named_in(message.kind, message.body) if tx in self.numbers]
        cause = self.world.events[message.sent].message
        named = named or (self.of_message[cause - 1] if cause else [])
        self.of_message.append(named)
        return {"from": message.sender, "to": message.to, "kind": kind_of(message), "sent": message.sent, "came": message.deliveries,
                "of": named, "text": text_of_message(message.kind, message.body)}

    def event(self, row: int, event: Event) -> dict:
        found = {"row": row, "at": event.centre, "type": event.kind, "line": event.line, "message": event.message, "first": event.first,
                 "count": event.count, "mark": mark_of(event.fact), "fact": text_of_fact(event.fact), "note": event.note,
                 "label": self.label(row, event), "of": self.of_event(event)}
        if event.chosen:
            found["chosen"] = [[self.numbers[tx], "commit" if commit else "abort"] for tx, commit in event.chosen]
        return {name: value for name, value in found.items() if value not in ("", 0, []) or name in ("row", "at")}

    def of_event(self, event: Event) -> List[int]:
        if event.tx is not None:
            return [self.numbers[event.tx]]
        if event.message:
            return self.of_message[event.message - 1]
        return sorted({tx for of in self.of_message[event.first - 1:event.first - 1 + event.count] for tx in of})

    def label(self, row: int, event: Event) -> str:
        """The words of an event beside its row."""
        if event.message:
            message = self.world.messages[event.message - 1]
            again = " again" if message.deliveries[0] != row else ""
            return f"{event.message} {KINDS[kind_of(message)].name}{again}"
        if event.kind == "begin":
            return f"begin {text_of_tx(event.tx)}" if event.tx else "begin refused"
        if event.kind == "read":
            return text_of_read(event.note)
        if event.kind == "settle":
            return self.replayed.schedule[event.line - 1]
        return f"{event.kind} {event.centre}"

    def transaction(self, tx: Tx) -> dict:
        outcome = self.world.chosen.outcomes.get(tx)
        choices = self.world.chosen.begun[tx]
        return {"name": text_of_tx(tx), "outcome": "open" if outcome is None else "commit" if outcome else "abort",
                "about": "; ".join(f"{choice.key.decode()}@{choice.version} {text_of_update(choice.update)}" for choice in choices)}


def note_of(replayed: Replay, report: Optional[List[str]], source: str) -> str:
    """What the picture stands on, in words."""
    derived = ("No report says what a message carries: kind, transaction, key, ballot and marks were derived from the schedule by a replay of "
               "the protocol's rules in Python, which is not proved. ")
    if report is None:
        return derived + "It was not held against a report of the program."
    line = difference(replayed.report, report)
    if line is None:
        return derived + f"It gives the very report that {source} has, in each of its {len(report)} lines."
    if line == len(report) + 1:
        return derived + f"ITS REPORT DIFFERS from that of {source}, which ends after line {line - 1}; what comes after that is the model's alone."
    return derived + f"ITS REPORT DIFFERS from that of {source} at line {line}; from there on this picture may be wrong."


def picture_of(replayed: Replay, title: str, report: Optional[List[str]], source: str) -> Tuple[dict, bool]:
    """The data, and whether the report is the same as that of the model, where there is one."""
    note = note_of(replayed, report, source) + (f" The replay ends early: {replayed.fault}." if replayed.fault else "")
    return Picture(replayed).data(title, note), report is None or difference(replayed.report, report) is None
