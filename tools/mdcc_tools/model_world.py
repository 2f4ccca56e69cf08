"""A schedule, replayed by the model of a node, with all that happened on the way: which event sent which message, and what each one carries.

After `mdcc_def_simulation` and `mdcc_def_language`. The report that it writes is held against the program's (`difference`), so what it says of messages
is only believed as far as both are the same.
"""
import struct
from typing import Dict, List, NamedTuple, Optional, Tuple

from . import logs
from .model_facts import Cluster, Fact, Tx
from .model_node import Node, NoRoom, Step
from .model_roles import Kept
from .parts import Add, Part, Write, text_of_tx

CHECKPOINT_EVERY, MOST_EVENTS = 1024, 100_000


class NotASchedule(Exception):
    """A line of a schedule is not understood, by its number."""

    def __init__(self, line: int, cause: str):
        super().__init__(line, cause)
        self.line, self.cause = line, cause


class Ended(Exception):
    """An event is refused, which ends a replay."""


class Message:
    """A message that was sent: at which event, and at which events it was delivered."""

    def __init__(self, sender: int, to: int, kind: int, body: tuple, sent: int):
        self.sender, self.to, self.kind, self.body, self.sent = sender, to, kind, body, sent
        self.deliveries: List[int] = []


class Event:
    """What happened at once: a line of the schedule, or one delivery of a line."""

    def __init__(self, line: int, kind: str, centre: int, message: int = 0):
        self.line, self.kind, self.centre, self.message = line, kind, centre, message
        self.first, self.count = 0, 0
        self.fact: Optional[Fact] = None
        self.chosen: List[Tuple[Tx, bool]] = []
        self.note = ""
        self.tx: Optional[Tx] = None


class Site:
    """A centre in the world: its node, whether it is up, an armed stop, and how many frames the tail of its log has."""

    def __init__(self, cluster: Cluster, me: int):
        self.node = Node(cluster, me)
        self.is_up, self.stop, self.tail = True, None, 1
        self.node.facts.add((logs.BOOTED, (1,)))


class Chosen:
    """Which marks are chosen, by all votes of all centres, and the outcomes that follow."""

    def __init__(self, cluster: Cluster):
        self.cluster = cluster
        self.begun: Dict[Tx, tuple] = {}
        self.voters: Dict[tuple, Dict[int, object]] = {}
        self.marks: Dict[tuple, object] = {}
        self.outcomes: Dict[Tx, bool] = {}

    def take(self, centre: int, body: tuple) -> List[Tuple[Tx, bool]]:
        """A vote of a centre; the outcomes that come by it."""
        key, version, ballot, options, _ = body
        for tx, mark in options:
            given = self.voters.setdefault((key, version, ballot, tx), {})
            given.setdefault(centre, mark)
            if sum(other == given[centre] for other in given.values()) >= self.cluster.quorum(ballot):
                self.marks.setdefault((key, version, tx), given[centre])
        return [(tx, self.outcomes[tx]) for tx, _ in options if self.is_new(tx)]

    def is_new(self, tx: Tx) -> bool:
        choices = self.begun.get(tx, ())
        if tx in self.outcomes or not choices:
            return False
        found = [self.marks.get((choice.key, choice.version, tx), False) for choice in choices]
        if None not in found and False in found:
            return False
        self.outcomes[tx] = None not in found
        return True


class World:
    """The nodes of a cluster, the messages between them, and all events so far."""

    def __init__(self, cluster: Cluster):
        self.cluster = cluster
        self.sites = {centre: Site(cluster, centre) for centre in cluster.all()}
        self.messages: List[Message] = []
        self.events: List[Event] = []
        self.reads: List[tuple] = []
        self.chosen = Chosen(cluster)
        self.lines: List[str] = []
        self.deliveries = 0
        self.waiting: Dict[int, List[int]] = {centre: [] for centre in cluster.all()}

    def up(self, centre: int) -> Site:
        site = self.sites.get(centre)
        if site is None or not site.is_up:
            raise Ended(f"centre {centre} is down")
        return site

    def happen(self, line: int, kind: str, centre: int, message: int = 0) -> Event:
        event = Event(line, kind, centre, message)
        event.first = len(self.messages) + 1
        self.events.append(event)
        return event

    def next_text(self) -> str:
        return f"next {len(self.messages) + 1}"

    # ---- steps

    def step(self, event: Event, site: Site, step: Step) -> List[str]:
        """What becomes of a step: the lines of its outcomes."""
        event.fact = step.fact
        stop = site.stop if step.fact is not None else None
        if stop is not None and (stop[0] <= 4 or site.tail + 1 >= CHECKPOINT_EVERY):
            return self.stopped(event, site, step, *stop)
        site.node.apply(step)
        if step.fact is not None:
            site.tail = 0 if site.tail + 1 >= CHECKPOINT_EVERY else site.tail + 1
        for to, kind, body in step.sends:
            self.messages.append(Message(event.centre, to, kind, body, len(self.events) - 1))
            self.waiting[to].append(len(self.messages))
        event.count = len(step.sends)
        return self.outcome_lines(event, step.fact) if step.fact else []

    def outcome_lines(self, event: Event, fact: Fact) -> List[str]:
        if fact[0] == logs.VOTED:
            event.chosen = self.chosen.take(event.centre, fact[1])
        lines = [f"chosen {text_of_tx(tx)} {word(commit)}" for tx, commit in event.chosen]
        if fact[0] == logs.HEARD and not event.note:
            lines.append(f"heard {event.centre} {text_of_tx(fact[1][0])} {word(fact[1][1] is not None)}")
        return lines

    def stopped(self, event: Event, site: Site, step: Step, call: int, image: str) -> List[str]:
        """The append, or the checkpoint after it, stops: nothing is sent, and the fact counts where its frame is in the image."""
        kept = call >= (3 if image == "kept" else 5)
        event.note = f"stopped inside call {call}, image {image}: its fact {'counts' if kept else 'is lost'}, nothing is sent"
        lines = [f"stopped {event.centre}"]
        if kept:
            site.node.facts.add(step.fact)
            lines += self.outcome_lines(event, step.fact)
        else:
            event.fact = None
        site.tail = 0 if image == "kept" and call >= 10 else site.tail + kept
        self.down(site)
        return lines

    def down(self, site: Site) -> None:
        site.is_up, site.stop, site.node.kept = False, None, Kept()

    # ---- events

    def deliver(self, line: int, number: int, kind: str) -> List[str]:
        """The lines after that of the delivery itself."""
        message = self.messages[number - 1]
        event = self.happen(line, kind, message.to, number)
        if not message.deliveries:
            self.waiting[message.to].remove(number)
        message.deliveries.append(len(self.events) - 1)
        self.deliveries += 1
        site = self.sites[message.to]
        try:
            step = site.node.take(message.sender, message.kind, message.body)
        except NoRoom as fault:
            event.note = f"dropped: needs {fault.args[0]} cells, {fault.args[1]} are spare"
            return [f"dropped {message.to} needs {fault.args[0]} spare {fault.args[1]}"]
        return self.step(event, site, step)

    def on_deliver(self, line: int, numbers: List[int]) -> None:
        for number in numbers:
            if not 1 <= number <= len(self.messages):
                raise Ended(f"no message {number}")
            self.up(self.messages[number - 1].to)
            rest = self.deliver(line, number, "deliver")
            self.lines += [f"deliver {number} {self.next_text()}"] + rest

    def first_waiting(self, listed: List[int]) -> Optional[int]:
        heads = [numbers[0] for centre, numbers in self.waiting.items()
                 if numbers and self.sites[centre].is_up and (not listed or centre in listed)]
        return min(heads) if heads else None

    def on_settle(self, line: int, listed: List[int]) -> None:
        self.happen(line, "settle", 0)
        self.lines.append(" ".join(["settle"] + list(map(str, listed))))
        count, number = 0, self.first_waiting(listed)
        while number is not None:
            if len(self.events) >= MOST_EVENTS:
                raise Ended("too many events")
            self.lines += self.deliver(line, number, "settled")
            count, number = count + 1, self.first_waiting(listed)
        self.lines.append(f"settled {count} {self.next_text()}")

    def on_read(self, line: int, centre: int, key: bytes) -> None:
        site = self.up(centre)
        token, item = site.node.facts.read(key)
        self.reads.append((key, token, item))
        shown = f"version {token[0]} none"
        if item is not None:
            shown = f"version {token[0]} seen {len(token[1])} values {','.join(map(str, item[1]))} body {item[0].hex() or '-'}"
        self.happen(line, "read", centre).note = f"read {len(self.reads)}: {key.decode()} {shown}"
        self.lines.append(f"read {len(self.reads)} at {centre} {key.decode()} {shown}")

    def on_begin(self, line: int, centre: int, words: List[str]) -> None:
        site = self.up(centre)
        event = self.happen(line, "begin", centre)
        parts = [self.part(word) for word in words]
        missing = next((part for part in parts if isinstance(part, bytes)), None)
        if missing is not None:
            fault: Optional[tuple] = ("noitem", missing, 0, 0)
        else:
            tx, fault, step = site.node.begin(tuple(sorted(parts)))
        if fault is not None:
            event.note = "refused " + refusal(*fault)
            self.lines.append("begin " + event.note)
            return
        event.tx = tx
        self.chosen.begun[tx] = tuple(send[2][0] for send in step.sends[::self.cluster.centres])
        self.step(event, site, step)
        self.lines.append(f"begin {text_of_tx(tx)} {self.next_text()}")

    def part(self, text: str) -> object:
        """The part of an update word, or the key where it needs an item and its read showed none."""
        kind, name, *rest = text.split(":")
        if kind == "new":
            return Part(name.encode(), 0, Write(item_of(*rest), ()))
        if int(name) > len(self.reads):
            raise Ended(f"no read {name}")
        key, (version, seen), item = self.reads[int(name) - 1]
        if kind == "set":
            return Part(key, version, Write(item_of(*rest), seen))
        if item is None:
            return key
        if kind == "keep":
            return Part(key, version, Write(item, seen))
        amounts = tuple(tuple(map(int, amount.split("="))) for amount in rest[0].split(","))
        return Part(key, version, Add(amounts))

    def on_tick(self, line: int, centre: int) -> None:
        site = self.up(centre)
        self.step(self.happen(line, "tick", centre), site, site.node.tick())
        self.lines.append(f"tick {centre} {self.next_text()}")

    def on_crash(self, line: int, centre: int) -> None:
        self.down(self.up(centre))
        self.happen(line, "crash", centre)
        self.lines.append(f"crash {centre}")

    def on_restart(self, line: int, centre: int) -> None:
        site = self.sites[centre]
        if site.is_up or site.node.facts.cells >= self.cluster.cells:
            raise Ended(f"centre {centre} cannot start")
        epoch = site.node.facts.epoch + 1
        event = self.happen(line, "restart", centre)
        event.fact = logs.BOOTED, (epoch,)
        site.node.facts.add(event.fact)
        site.is_up, site.tail = True, 0 if site.tail + 1 >= CHECKPOINT_EVERY else site.tail + 1
        self.lines.append(f"restart {centre} epoch {epoch}")

    def on_stop(self, line: int, centre: int, call: int, image: str) -> None:
        self.up(centre).stop = call, image
        self.happen(line, "stop", centre).note = f"armed: it stops inside call {call}, image {image}"
        self.lines.append(f"stop {centre} {call} {image}")

    def end_line(self) -> str:
        outcomes = list(self.chosen.outcomes.values())
        return (f"end events {len(self.events)} messages {len(self.messages)} commits {sum(outcomes)} "
                f"aborts {len(outcomes) - sum(outcomes)} open {len(self.chosen.begun) - len(outcomes)}")


def word(is_commit: bool) -> str:
    return "commit" if is_commit else "abort"


def refusal(cause: str, key: bytes, version: int, seen: int) -> str:
    rest = {"stale": f" version {version} seen {seen}", "unseen": f" version {version}"}
    return cause if cause == "busy" else f"{cause} {key.decode()}{rest.get(cause, '')}"


def item_of(body: str, values: str) -> tuple:
    return bytes.fromhex("" if body == "-" else body), tuple(map(int, values.split(",")))


# ---- schedules

class Replay(NamedTuple):
    """A world, its report, the lines of the schedule, and why it ends early, if it does."""
    world: World
    report: List[str]
    schedule: List[str]
    fault: str


def header_of(lines: List[str]) -> Tuple[Cluster, int]:
    """The cluster, and how many lines its header has."""
    found: Dict[str, List[List[str]]] = {}
    for number, line in enumerate(lines):
        if line == "start":
            break
        found.setdefault(line.split(" ")[0], []).append(line.split(" ")[1:])
    else:
        raise NotASchedule(len(lines), "there is no line `start`")
    try:
        quorums = list(map(int, found["quorums"][0]))
        cells, limit = found.get("cells", [["1048576"]])[0][0], found.get("limit", [["safe"]])[0][0]
        bounds = tuple((int(low), int(high)) for low, high in found["bound"])
        return Cluster(*quorums, int(found["gamma"][0][0]), int(cells), limit, bounds), number + 1
    except (KeyError, ValueError, IndexError, TypeError) as fault:
        raise NotASchedule(number + 1, f"its header is not understood: {fault!r}") from fault


def take_line(world: World, number: int, line: str) -> None:
    name, *words = line.split(" ")
    if name == "deliver":
        world.on_deliver(number, list(map(int, words)))
    elif name == "settle":
        world.on_settle(number, list(map(int, words)))
    elif name == "begin":
        world.on_begin(number, int(words[0]), words[1:])
    elif name == "read":
        world.on_read(number, int(words[0]), words[1].encode())
    elif name == "stop":
        world.on_stop(number, int(words[0]), int(words[1]), words[2])
    elif name in ("tick", "crash", "restart"):
        {"tick": world.on_tick, "crash": world.on_crash, "restart": world.on_restart}[name](number, int(words[0]))
    else:
        raise Ended(f"`{name}` is no event")


def replay(text: str, refused: Optional[Tuple[int, str]] = None) -> Replay:
    """Replays a schedule as far as its events happen, and no further than before a line that the program refused, with its cause."""
    lines = text.splitlines()
    cluster, first = header_of(lines)
    world, fault = World(cluster), ""
    for number, line in enumerate(lines[first:], first + 1):
        if refused is not None and number == refused[0]:
            fault = f"line {number}: {refused[1]}"
            break
        if line and not line.startswith("#"):
            try:
                take_line(world, number, line)
            except (Ended, ValueError, IndexError, KeyError, struct.error) as cause:
                fault = f"line {number}: {cause}"
                break
    report = ["mdcc-report 1"] + lines[1:first] + world.lines + [world.end_line()] * (not fault)
    return Replay(world, report, lines, fault)


def difference(mine: List[str], other: List[str]) -> Optional[int]:
    """The number of the first line at which two reports differ, or None where they are the same."""
    for number, (left, right) in enumerate(zip(mine, other), 1):
        if left != right:
            return number
    return None if len(mine) == len(other) else min(len(mine), len(other)) + 1
