"""Orders for a load: inserts of new items, or sales of several items at once, and what came of them.

A sale adds a small negative amount to each of its items, at the version that the client knows. A version has room for 64 adds, so
after some the client rewrites the item: it reads it where all of them were heard and writes what it read, which begins a version.
"""
import random
import time
from collections import Counter
from itertools import cycle

from . import messages
from .parts import Add, Part, Write, text_of_tx

ADDS = 28


class Tally:
    """What came of orders: counts, and when each commit was reported and how long it took, in seconds: until the client had read that,
    and until it came to the client's socket."""

    def __init__(self):
        self.counts, self.commits, self.reported = Counter(), [], []

    def note(self, name):
        self.counts[name] += 1

    def commit(self, began, now, at_socket):
        self.counts["commits"] += 1
        self.commits.append((now, now - began, at_socket))

    def times(self, since=float("-inf"), until=float("inf")):
        """How long each commit took that was reported in this span, ascending."""
        return sorted(took for at, took, _ in self.commits if since <= at < until)

    def times_at_socket(self, since=float("-inf"), until=float("inf")):
        """The same until that came to the client's socket."""
        return sorted(took for at, _, took in self.commits if since <= at < until)


def percentile(ascending, share):
    if not ascending:
        return float("nan")
    return ascending[min(len(ascending) - 1, int(share * len(ascending)))]


def values_of(configuration, first):
    """The values of an item: the first as given, every other at its upper bound."""
    return (first,) + tuple(upper for _, upper in configuration.bounds[1:])


class Inserts:
    """Each order inserts a new item."""

    def __init__(self, configuration, prefix):
        self.prefix, self.number = prefix, 0
        self.values = values_of(configuration, configuration.bounds[0][1])

    def next_order(self):
        self.number += 1
        key = f"{self.prefix}/{self.number}".encode()
        return (Part(key, 0, Write((b"", self.values), ())),), None

    def ended(self, context, name, detail):
        pass


class Item:
    __slots__ = ("key", "version", "adds", "open", "is_free", "is_doubtful")

    def __init__(self, key):
        self.key, self.version, self.adds, self.open, self.is_free, self.is_doubtful = key, 0, 0, 0, False, False


class Sales:
    """Each order takes a few pieces of several items, which were inserted before."""

    def __init__(self, client, configuration, count, each, seed, prefix="item", settles=0.01):
        """`settles` says after how many seconds the other centres have heard of an item that was rewritten."""
        self.client, self.configuration, self.each, self.settles = client, configuration, each, settles
        self.random = random.Random(seed)
        self.items = [Item(f"{prefix}/{number}".encode()) for number in range(1, count + 1)]
        self.stock = configuration.bounds[0][1]
        self.low = configuration.bounds[0][0] + 1000
        self.centres = cycle(configuration.numbers())
        self.rewrites = Counter()

    # ---- the items

    def insert(self, seconds=120.0, most_open=64):
        """Inserts the items that are not there, and learns the versions of those that are. Says whether it knows all."""
        missing, state = list(reversed(self.items)), {"open": 0}

        def begin(item):
            state["open"] += 1
            part = Part(item.key, 0, Write((b"", values_of(self.configuration, self.stock)), ()))
            self.client.begin(next(self.centres), (part,), lambda request, answer: end(item, answer))

        def end(item, answer):
            if answer is not None and answer[0] == messages.BEGUN:
                return False
            state["open"] -= 1
            if answer is not None and answer[0] == messages.HEARD and answer[2]:
                item.version, item.is_free = 1, True
            elif answer is not None and answer[0] == messages.BEGIN_REFUSED and answer[2] == 1:
                item.version, item.adds, item.is_free = answer[3], len(answer[4]), True
                self.close_if_full(item)
            else:
                self.client.after(0.05, lambda: missing.append(item))
            return True

        def is_done():
            while missing and state["open"] < most_open:
                begin(missing.pop())
            return all(item.version > 0 for item in self.items)

        return self.client.run_until(is_done, seconds)

    def close_if_full(self, item):
        if item.is_free and (item.adds + item.open >= ADDS or item.is_doubtful):
            item.is_free = False
        if not item.is_free and item.open == 0:
            self.client.read(next(self.centres), item.key, lambda request, answer: self.has_read(item, request.centre, answer))

    def retry(self, item):
        self.rewrites["again"] += 1
        self.client.after(0.05, lambda: self.close_if_full(item))
        return True

    def has_read(self, item, centre, answer):
        if answer is None or answer[0] != messages.READ or answer[3] is None:
            return self.retry(item)
        _, key, version, (body, values), seen, _ = answer
        if version < item.version or (version == item.version and len(seen) < item.adds):
            return self.retry(item)
        item.version, item.adds = version, len(seen)
        first = values[0] if values[0] >= self.low else self.stock
        part = Part(key, version, Write((body, (first,) + values[1:]), seen))
        self.client.begin(centre, (part,), lambda request, answer: self.has_written(item, answer))
        return True

    def has_written(self, item, answer):
        if answer is not None and answer[0] == messages.BEGUN:
            return False
        if answer is None or answer[0] != messages.HEARD or not answer[2]:
            return self.retry(item)
        self.rewrites["done"] += 1
        item.version, item.adds, item.is_doubtful = item.version + 1, 0, False
        # The other centres hear of it a moment later.
        self.client.after(self.settles, lambda: setattr(item, "is_free", True))
        return True

    # ---- orders

    def pick(self):
        """Items of which each is free; fewer than wanted where they are hard to find."""
        picked = {}
        for _ in range(20 * self.each):
            item = self.items[self.random.randrange(len(self.items))]
            if item.is_free:
                picked[item.key] = item
            if len(picked) == self.each:
                break
        return [picked[key] for key in sorted(picked)]

    def next_order(self):
        items = self.pick()
        if not items:
            return None
        parts = tuple(Part(item.key, item.version, Add(((1, -self.random.randint(1, 3)),))) for item in items)
        for item in items:
            item.open += 1
            if item.adds + item.open >= ADDS:
                item.is_free = False
        return parts, items

    def ended(self, items, name, detail):
        for item in items:
            item.open -= 1
            if name == "commits":
                item.adds += 1
            elif name in ("timeouts", "Stale", "Unseen", "NoItem") and (detail is None or detail[0] == item.key):
                self.doubt(item, name, detail)
            if not item.is_free or item.adds + item.open >= ADDS:
                item.is_free = False
                if item.open == 0:
                    self.close_if_full(item)

    def doubt(self, item, name, detail):
        """What the client knows of the item may be old: it is read before it is sold again. A centre that is late is no such sign."""
        if name == "Unseen" and detail[1] <= item.version:
            return
        item.is_doubtful, item.is_free = True, False


class Load:
    """Keeps so many orders open, and tallies what comes of them."""

    def __init__(self, client, workload, tally, centres):
        self.client, self.workload, self.tally = client, workload, tally
        self.centres, self.open = cycle(centres), 0

    def fill(self, most_open):
        while self.open < most_open:
            order = self.workload.next_order()
            if order is None:
                return
            self.begin(*order)

    def begin(self, parts, context):
        self.open += 1
        begun = []

        def answered(request, answer):
            if answer is not None and answer[0] == messages.BEGUN:
                if begun and begun[-1] != answer[1]:
                    self.tally.note("begun anew")
                begun.append(answer[1])
                return False
            self.open -= 1
            self.end(request, answer, parts, context)
            return True

        self.client.begin(next(self.centres), parts, answered)

    def end(self, request, answer, parts, context):
        detail = None
        if answer is None:
            name = "timeouts"
            self.tally.note(name)
            if request.refused is not None:
                self.tally.note("refused in doubt")
        elif answer[0] == messages.HEARD:
            name = "commits" if answer[2] else "aborts"
            if answer[2]:
                self.tally.commit(request.began, time.monotonic(), self.client.came - request.sent)
            else:
                self.tally.note(name)
            self.tally.reported.append((answer[1], bool(answer[2]), tuple((part.key, part.version) for part in parts)))
        elif answer[0] == messages.BEGIN_REFUSED:
            name, detail = messages.BEGIN_FAULTS[answer[2] - 1], (answer[1],) + answer[3:]
            self.tally.note("refusals")
            self.tally.note("refused " + name)
        else:
            name = messages.DRAFT_FAULTS[answer[1] - 1] if answer[0] == messages.DRAFT else "other answers"
            self.tally.note("refusals")
            self.tally.note("refused " + name)
        self.workload.ended(context, name, detail)

    def run(self, most_open, seconds=float("inf"), orders=None, each_step=None):
        """Keeps orders open for so many seconds, or until so many ended, and gives when it began and ended."""
        began = time.monotonic()
        end = began + seconds
        target = None if orders is None else self.ended_orders() + orders
        while time.monotonic() < end and (target is None or self.ended_orders() + self.open < target):
            self.fill(most_open if target is None else min(most_open, target - self.ended_orders()))
            self.client.step(0.02)
            if each_step is not None:
                each_step()
        if target is not None:
            self.drain()
        return began, time.monotonic()

    def ended_orders(self):
        counts = self.tally.counts
        return counts["commits"] + counts["aborts"] + counts["refusals"] + counts["timeouts"]

    def drain(self, seconds=30.0):
        """Waits for what is open. Says whether all ended."""
        return self.client.run_until(lambda: self.open == 0, seconds)


def text_of_times(times):
    return f"p50 {percentile(times, 0.5) * 1000:.2f} ms, p99 {percentile(times, 0.99) * 1000:.2f} ms, longest {(times or [float('nan')])[-1] * 1000:.2f} ms"


def write_reported(path, reported):
    """One line for each outcome that was reported: the transaction, commit or abort, and its keys with their versions."""
    with open(path, "w") as file:
        for tx, commit, keys in reported:
            pairs = " ".join(f"{key.decode()}@{version}" for key, version in keys)
            file.write(f"{text_of_tx(tx)} {'commit' if commit else 'abort'} {pairs}\n")
