"""The health of a cluster, from its logs: what `tools/status` shows, which of it is an alarm, and the same for Prometheus."""
import os
import struct
import time
from typing import Dict, List, NamedTuple, Optional, Set, Tuple

from . import notes
from .areas import LOG_LIMIT, Follower, has_facts, is_in_use, path_of
from .comparison import Comparison
from .configuration import Configuration
from .logs import NotALog
from .summary import Summary, summary_of
from .watching import lost_at

KINDS = ("", "booted", "promised", "voted", "heard", "adopted", "floor")
FULL = 0.8
SOON = 0.3
NOTE, LOOK, ALARM = range(3)
LEVELS = ("note", "look", "ALARM")
# What was read is kept anew after so many facts, or so many seconds.
KEEP_FACTS, KEEP_SECONDS = 5000, 60
# What a node asks for at each socket, and what the system gives at most.
BUFFER = 4 << 20
MOST_BUFFER = "/proc/sys/net/core/rmem_max"


def buffer_given() -> int:
    """The most bytes that this system gives a socket for what comes; what is wanted, where it does not say."""
    try:
        with open(MOST_BUFFER) as file:
            return int(file.read())
    except (OSError, ValueError):
        return BUFFER


class Finding(NamedTuple):
    """Something to know, to look at, or an alarm. `about` is a heading of docs/OPERATING.md."""
    level: int
    text: str
    about: str


class Centre:
    """What is known of one centre, look after look. One that is local has its log in the folder; of another a kept summary will do."""

    def __init__(self, folder: str, number: int, kept_in: Optional[str] = None, is_local: bool = False):
        self.folder, self.number, self.is_local = folder, number, is_local
        self.kept = kept_in and os.path.join(kept_in, f"status-{number}.json")
        self.summary = self.kept_summary() or Summary(number)
        self.kept_at = self.summary.facts, self.summary.looked
        self.follower = Follower(folder, number, self.summary.position)
        self.fault: Optional[str] = None
        self.is_here = True
        self.free = 0

    def kept_summary(self) -> Optional[Summary]:
        try:
            with open(self.kept or "") as file:
                return summary_of(file.read())
        except (OSError, ValueError, KeyError, TypeError):
            return None

    def look(self) -> None:
        """Reads what is new. A centre whose log stands elsewhere is as its summary says, where one was kept."""
        self.fault, self.is_here = None, has_facts(self.folder, self.number)
        if not self.is_here:
            if self.is_local or not self.summary.facts:
                self.fault = "no log"
            return
        running = is_in_use(self.folder, self.number)
        try:
            end = self.follower.read(self.summary.take, self.summary.begin_anew)
        except NotALog as damage:
            self.fault = f"damaged from byte {damage.args[0]} on"
            return
        except (IndexError, struct.error, UnicodeDecodeError):
            self.fault = f"damaged at fact {self.follower.position.facts + 1} or after"
            self.summary.begin_anew()
            self.follower = Follower(self.folder, self.number)
            return
        except OSError as fault:
            self.fault = f"not readable: {fault}"
            return
        self.summary.position = self.follower.position
        self.summary.note_end(end, running, time.time())
        self.summary.configuration = self.sum_in_note()
        room = os.statvfs(self.folder)
        self.free = room.f_bavail * room.f_frsize

    def sum_in_note(self) -> str:
        try:
            note = notes.read_note(self.folder, self.number)
        except (OSError, notes.NoNote):
            return "unreadable"
        return note.sum() if note else ""

    def keep(self) -> None:
        if not self.kept or not self.is_here or self.fault is not None:
            return
        facts, looked = self.kept_at
        if 0 <= self.summary.facts - facts < KEEP_FACTS and self.summary.looked - looked < KEEP_SECONDS:
            return
        with open(self.kept + ".new", "w") as file:
            file.write(self.summary.text())
        os.replace(self.kept + ".new", self.kept)
        self.kept_at = self.summary.facts, self.summary.looked


class Lasting(NamedTuple):
    """What was so at two looks, by centre."""
    open: Dict[int, Set[int]]
    missed: Dict[int, Set[int]]
    older: Dict[int, Set[str]]

    def both(self, other: "Lasting") -> "Lasting":
        return Lasting(*({centre: own & then.get(centre, set()) for centre, own in now.items()} for now, then in zip(self, other)))


class Health:
    """The centres of a cluster. `settle` looks once more at what was open, missed or older a moment before."""

    def __init__(self, configuration: Configuration, folder: str, centres: List[int], kept_in: Optional[str] = None, are_local: bool = False):
        self.configuration, self.cells = configuration, notes.cells_in(configuration)
        self.centres = [Centre(folder, number, kept_in, are_local) for number in centres]
        self.lasting: Optional[Lasting] = None
        self.comparison: Optional[Comparison] = None

    def read(self) -> None:
        """Reads all logs, and once more what came while that took long, so that they are of about one moment."""
        for _ in range(3):
            began = time.monotonic()
            for centre in self.centres:
                centre.look()
            if time.monotonic() - began < SOON:
                return

    def look(self) -> None:
        self.read()
        known = [centre.summary for centre in self.centres if centre.fault is None]
        self.comparison = Comparison(known) if known else None
        now = Lasting({one.centre: set(one.open) for one in known}, dict(self.comparison.missed) if self.comparison else {},
                      {one.centre: set(self.comparison.older_at(one.centre)) for one in known})
        self.lasting, self.seen = (now if self.lasting is None else now.both(self.seen)), now

    def keep(self) -> None:
        for centre in self.centres:
            centre.keep()

    # ---- what is wrong

    def findings(self, must_run: bool, oldest: float) -> List[Finding]:
        found: List[Finding] = []
        for centre in self.centres:
            found += self.of_centre(centre, must_run, oldest)
        sums = {centre.summary.configuration for centre in self.centres if centre.fault is None} - {""}
        if len(sums) > 1:
            found.append(Finding(ALARM, "the centres have different configurations", "Drift of configurations"))
        if self.comparison and self.comparison.both:
            found.append(Finding(ALARM, f"{len(self.comparison.both)} transactions were heard committed and aborted", "A damaged log"))
        return found

    def of_centre(self, centre: Centre, must_run: bool, oldest: float) -> List[Finding]:
        name, summary = f"centre {centre.number}", centre.summary
        if centre.fault == "no log":
            return [Finding(ALARM, f"{name} has no log here", "A lost disk")]
        if centre.fault is not None:
            about = "A disk that failed" if centre.fault.startswith("not readable") else "A damaged log"
            return [Finding(ALARM, f"{name}: {centre.fault}", about)]
        found = []
        if summary.is_running and centre.is_here and buffer_given() < BUFFER:
            found.append(Finding(NOTE, f"{name} has buffers of {buffer_given()} bytes where it asks for {BUFFER}", "Network"))
        if must_run and not summary.is_running:
            found.append(Finding(ALARM, f"{name} does not run", "What a supervisor does at each status"))
        if not centre.is_here and time.time() - summary.looked > oldest:
            found.append(Finding(ALARM, f"{name} was looked at {time.time() - summary.looked:.0f} seconds ago", "Monitoring"))
        if summary.cells >= FULL * self.cells:
            found.append(Finding(ALARM, f"{name} uses {summary.cells} of {self.cells} cells", "Cells full"))
        if summary.bytes >= FULL * LOG_LIMIT:
            found.append(Finding(ALARM, f"{name} has a log of {summary.bytes} of {LOG_LIMIT} bytes", "Log full"))
        if centre.is_here and centre.free < summary.bytes:
            found.append(Finding(ALARM, f"{name} has {centre.free} bytes free for a copy of {summary.bytes}", "A full disk"))
        if summary.configuration not in ("", notes.note_of(self.configuration, centre.number).sum()):
            found.append(Finding(ALARM, f"{name} has another configuration than the one given", "Drift of configurations"))
        for what, numbers, about in ((f"items that {name} holds older than others", self.lasting.older, "After a centre was away"),
                                     (f"transactions that stay open at {name}", self.lasting.open, "Open transactions")):
            if numbers.get(centre.number):
                found.append(Finding(LOOK, f"{len(numbers[centre.number])} {what}", about))
        return found

    # ---- texts

    def lost(self, number: int) -> int:
        return sum(lost_at(port) for _, port in (self.configuration.own(number), self.configuration.asked(number)))

    def row(self, centre: Centre) -> Tuple[str, ...]:
        summary = centre.summary
        if centre.fault is not None:
            return (str(centre.number), centre.fault) + ("-",) * 8
        number = centre.number
        state = ("runs" if summary.is_running else "ended") if centre.is_here else "kept"
        return (str(number), state, str(summary.epoch), str(summary.facts), str(summary.bytes), f"{summary.cells}/{self.cells}",
                str(len(self.lasting.open[number])), str(len(self.lasting.missed[number])), str(len(self.lasting.older[number])),
                summary.configuration or "-")

    def table(self) -> str:
        rows = [("centre", "state", "epoch", "facts", "bytes", "cells", "open", "missed", "older", "configuration")]
        rows += [self.row(centre) for centre in self.centres]
        widths = [max(len(row[column]) for row in rows) for column in range(len(rows[0]))]
        return "\n".join("  ".join(word.ljust(width) for word, width in zip(row, widths)).rstrip() for row in rows)

    def prometheus(self, findings: List[Finding]) -> str:
        lines: List[str] = []

        def metric(name: str, about: str, values) -> None:
            lines.extend([f"# HELP mdcc_{name} {about}", f"# TYPE mdcc_{name} gauge"])
            lines.extend(f"mdcc_{name}{labels} {value}" for labels, value in values)

        known = [centre for centre in self.centres if centre.fault is None]

        def each(value):
            return [(f'{{centre="{centre.number}"}}', value(centre)) for centre in known]

        metric("log_readable", "1 where the log of the centre can be read", [
            (f'{{centre="{one.number}"}}', int(one.fault is None)) for one in self.centres])
        metric("running", "1 where a node has the log", each(lambda one: int(one.summary.is_running)))
        metric("epoch", "starts over this log", each(lambda one: one.summary.epoch))
        metric("facts", "facts in the log", [(f'{{centre="{one.number}",kind="{KINDS[kind]}"}}', one.summary.kinds[kind])
                                             for one in known for kind in range(1, len(KINDS))])
        metric("log_bytes", "bytes of the area in use", each(lambda one: one.summary.bytes))
        metric("log_limit_bytes", "the most bytes of an area", [("", LOG_LIMIT)])
        metric("cells_used", "cells that the facts take", each(lambda one: one.summary.cells))
        metric("cells", "cells that the configuration gives", [("", self.cells)])
        metric("disk_free_bytes", "bytes free where the log stands", [
            (f'{{centre="{one.number}"}}', one.free) for one in known if one.is_here])
        metric("datagrams_lost", "datagrams that the system dropped at the node's sockets, which were full", [
            (f'{{centre="{one.number}"}}', self.lost(one.number)) for one in known if one.is_here and one.summary.is_running])
        metric("open_transactions", "transactions voted on and not heard of, at two looks", each(lambda one: len(self.lasting.open[one.number])))
        metric("missed_outcomes", "outcomes that others heard, at two looks", each(lambda one: len(self.lasting.missed[one.number])))
        metric("older_items", "items held older than at others, at two looks", each(lambda one: len(self.lasting.older[one.number])))
        metric("configuration", "the sum of the configuration in the folder's note",
               [(f'{{centre="{one.number}",sum="{one.summary.configuration}"}}', 1) for one in known if one.summary.configuration])
        metric("looked_seconds", "when the log was read, in seconds since 1970", each(lambda one: f"{one.summary.looked:.3f}"))
        metric("findings", "how much there is to look at, and how many alarms", [
            ('{level="look"}', sum(one.level == LOOK for one in findings)), ('{level="alarm"}', sum(one.level == ALARM for one in findings))])
        return "\n".join(lines) + "\n"
