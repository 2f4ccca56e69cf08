"""How a transaction is committed: attempts at several centres, what each comes to, and what is done about it.

An attempt reads what it adds to, begins at the same centre, and waits for the end. An attempt without an end is in doubt: it may still happen.
With an order's record no two attempts can both happen, so others follow, until one commits or that record shows what was.
"""
from __future__ import annotations

import asyncio
import random
from dataclasses import dataclass
from typing import Awaitable, Callable, Dict, List, NoReturn, Optional, Sequence
from weakref import WeakValueDictionary

from . import orders, wire
from .configuration import Configuration
from .connection import Connection, Ending
from .draft import Draft
from .records import MOST_SEEN, Item, Part, Record, Write
from .results import Aborted, Committed, Refused, Result, Unanswered, Unknown, Why

# Seconds between two attempts: at least, and at most.
SHORT, LONG = 0.01, 0.4


@dataclass
class Settings:
    """How long and how often a client tries, in seconds and counts.

    `wait` is how long a centre may take for an answer before another is asked, and three times as long for the end of what it began; `again`
    after what time a request is sent again, and up to eight times as long when that is not the first time; `patience` how long attempts go
    on, and as long again for a second look where one is in doubt. A record is re-based once it has `rebase` adds."""

    wait: float = 1.0
    again: float = 0.2
    patience: float = 10.0
    attempts: int = 30
    rebase: int = 24


@dataclass
class Course:
    """Attempts so far: at which centre the next one is, whether one is in doubt, and for what cause nothing came of the last one."""

    end: float
    centre: int
    attempts: int = 0
    in_doubt: bool = False
    was_begun: bool = False
    why: Why = Why.CONTENTION
    key: Optional[str] = None

    def failed(self) -> Result:
        """What to report where nothing happened."""
        return (Aborted if self.was_begun else Refused)(self.why, self.key, self.attempts)


class Again(Exception):
    """Nothing came of an attempt, and another one may do better."""


class Ended(Exception):
    """There is a result."""

    def __init__(self, result: Result):
        super().__init__(result)
        self.result = result


Found = Dict[int, Record]
Drafting = Callable[[int], Awaitable[Draft]]


def whole_of(found: Found) -> Optional[Record]:
    """What was read at a centre that knows all adds of the newest version that any shows; None where there is no such centre."""
    version = max((record.version for record in found.values()), default=0)
    records = [record for record in found.values() if record and record.version == version]
    all_seen = {tx for record in records for tx in record.seen}
    return next((record for record in records if len(record.seen) == len(all_seen)), None)


class Engine:
    def __init__(self, configuration: Configuration, connection: Connection, settings: Settings):
        self.configuration, self.connection, self.settings = configuration, connection, settings
        self.locks: "WeakValueDictionary[str, asyncio.Lock]" = WeakValueDictionary()
        self.preferred = 0
        self.random = random.Random()

    # ---- centres

    @property
    def centres(self) -> List[int]:
        return list(self.connection.endpoints)

    def first(self, centre: Optional[int]) -> int:
        """The centre that is asked first: the one that is named, or the one that answered last."""
        if centre is not None and centre not in self.connection.endpoints:
            raise ValueError(f"centre {centre} answers to another machine")
        return centre if centre is not None else self.preferred or self.centres[0]

    def after(self, centre: int) -> int:
        """The next centre in turn."""
        centres = self.centres
        return centres[(centres.index(centre) + 1) % len(centres)]

    def turn(self, centre: int) -> List[int]:
        centres = self.centres
        at = centres.index(centre)
        return centres[at:] + centres[:at]

    def now(self) -> float:
        return asyncio.get_running_loop().time()

    # ---- reads

    async def read(self, keys: Sequence[str], centre: Optional[int]) -> Dict[str, Record]:
        """What a centre shows of these keys, each centre asked in turn until one answers for all."""
        for at in self.turn(self.first(centre)):
            shown = await self.connection.read_all(at, keys, self.settings.wait)
            if len(shown) == len(set(keys)):
                if centre is None:
                    self.preferred = at
                return shown
        raise Unanswered(f"no centre answered for {', '.join(keys)}")

    async def everywhere(self, key: str) -> Found:
        """What each centre that answers shows of a key. Once most have, the others are not waited for as long."""
        reads = [asyncio.ensure_future(self.connection.read(centre, key, self.settings.wait)) for centre in self.centres]
        done, late = await asyncio.wait(reads, timeout=min(2 * self.settings.again, self.settings.wait))
        if late and 2 * len(done) <= len(reads):
            done, late = await asyncio.wait(reads)
        for read in late:
            read.cancel()
        shown = [read.result() for read in done]
        return {record.centre: record for record in shown if record is not None}

    async def newest(self, key: str) -> Optional[Record]:
        """The newest that any centre shows of a key; None where none answers."""
        return max((await self.everywhere(key)).values(), key=lambda record: record.age, default=None)

    # ---- re-basing

    def lock(self, key: str) -> asyncio.Lock:
        found = self.locks.get(key)
        if found is None:
            found = self.locks[key] = asyncio.Lock()
        return found

    async def rebase(self, known: Record, end: float) -> bool:
        """Writes a record over itself, where all of its adds are known, so that it takes 64 more. Says whether a newer version is there."""
        async with self.lock(known.key):
            pause = SHORT
            for _ in range(5):
                found = await self.everywhere(known.key)
                newest = max(found.values(), key=lambda record: record.age, default=None)
                if newest is not None and newest.version > known.version:
                    return True
                whole = whole_of(found)
                if whole is not None and await self.keep(whole, end):
                    return True
                if self.now() > end:
                    break
                await self.pause(pause)
                pause *= 3
        return False

    async def keep(self, record: Record, end: float) -> bool:
        part = Part(record.key, record.version, Write(Item(record.body, record.values), record.seen))
        seconds = min(2 * self.settings.wait, max(end - self.now(), 0.1))
        ending = await self.connection.begin(record.centre, (part,), seconds, True)
        return isinstance(ending.answer, wire.Heard) and ending.answer.is_commit

    async def pause(self, seconds: float) -> None:
        await asyncio.sleep(seconds * (0.5 + self.random.random()))

    async def fresh(self, key: str) -> Record:
        """What a record is at a moment of this call: what was read, once a write of it over itself has committed."""
        end, pause = self.now() + self.settings.patience, SHORT
        while self.now() < end:
            found = await self.everywhere(key)
            whole = whole_of(found)
            if whole is not None and await self.keep(whole, end):
                return Record(key, whole.version + 1, whole.item, (), False, whole.centre)
            if found and not any(found.values()):
                return next(iter(found.values()))
            await self.pause(pause)
            pause = min(2 * pause, LONG)
        raise Unanswered(f"no fresh read of {key} was had in time")

    # ---- attempts

    async def commit(self, drafting: Drafting, order: Optional[str], centre: Optional[int], again: bool = False) -> Result:
        """Attempts until one commits, or a cause is found for which none can, or the time is over. `again` says that the order was sent before
        and had no answer: then it is not reported as not committed before that sending cannot happen any more either."""
        course = Course(self.now() + self.settings.patience, self.first(centre), in_doubt=again and order is not None)
        pause = SHORT
        while course.attempts < self.settings.attempts and self.now() < course.end:
            course.attempts += 1
            try:
                await self.attempt(drafting, course)
            except Ended as ended:
                if centre is None and ended.result.is_committed:
                    self.preferred = course.centre
                return ended.result
            except Again:
                if course.in_doubt and order is None:
                    break
            await self.pause(pause)
            pause = min(2 * pause, LONG)
        return await self.no_commit(order, course)

    async def no_commit(self, order: Optional[str], course: Course) -> Result:
        """What to report where no attempt is known to have committed, and none shall follow."""
        if not course.in_doubt:
            return course.failed()
        return Unknown(None, course.attempts) if order is None else await self.second_look(order, course, orders.VOID)

    async def attempt(self, drafting: Drafting, course: Course) -> NoReturn:
        """One attempt at the course's centre."""
        try:
            draft = await drafting(course.centre)
        except Unanswered:
            self.move(course)
        course.centre = draft.centre or course.centre
        shown = await self.shown_for(draft, course)
        self.heed_order(draft, shown, course)
        await self.make_room(draft, shown, course)
        parts = draft.parts(shown)
        if draft.order is not None:
            parts.append(orders.part_for(self.configuration, draft.order, shown.get(draft.order), orders.DONE, draft.note))
        if not parts:
            raise Ended(Committed(None, course.attempts))
        seconds = min(3 * self.settings.wait, max(course.end - self.now(), 0.2))
        ending = await self.connection.begin(course.centre, parts, seconds, draft.may_repeat)
        await self.weigh(draft, shown, ending, course)

    def move(self, course: Course, centre: Optional[int] = None) -> NoReturn:
        """The next attempt is at another centre."""
        course.centre = centre or self.after(course.centre)
        raise Again

    async def shown_for(self, draft: Draft, course: Course) -> Dict[str, Record]:
        """What the course's centre shows of all that is added to, and from the second attempt on of the order's record."""
        known = {key: record for key, record in draft.reads.items() if record.centre == course.centre}
        wanted = [key for key in draft.adds if key not in known]
        if draft.order is not None and course.attempts > 1:
            wanted.append(draft.order)
        shown = await self.connection.read_all(course.centre, wanted, self.settings.wait)
        if len(shown) < len(wanted):
            self.move(course)
        return {**known, **shown}

    def heed_order(self, draft: Draft, shown: Dict[str, Record], course: Course) -> None:
        """Ends where the order's record says that it happened, or never shall."""
        mark = orders.mark_of(shown.get(draft.order)) if draft.order is not None else b""
        if mark == orders.DONE:
            raise Ended(Committed(None, course.attempts))
        if mark == orders.CANCELLED:
            raise Ended(Refused(Why.CANCELLED, draft.order, course.attempts))

    async def make_room(self, draft: Draft, shown: Dict[str, Record], course: Course) -> None:
        """Has each record that is added to, and has many adds already, re-based before."""
        for key in draft.adds:
            record = shown[key]
            if not record:
                await self.missing(draft, key, course)
            if self.lock(key).locked():
                async with self.lock(key):
                    raise Again
            if len(record.seen) >= self.settings.rebase:
                if await self.rebase(record, course.end):
                    raise Again
                if len(record.seen) >= MOST_SEEN:
                    course.why, course.key = Why.BEHIND, key
                    self.move(course)

    async def missing(self, draft: Draft, key: str, course: Course) -> NoReturn:
        """A record to be added to is not there, at this centre or at all."""
        newest = await self.newest(key)
        if newest:
            self.move(course, newest.centre)
        await self.fail(draft, Why.MISSING, key, course)

    # ---- what an attempt comes to

    async def weigh(self, draft: Draft, shown: Dict[str, Record], ending: Ending, course: Course) -> NoReturn:
        """What to make of the end of an attempt."""
        answer = ending.answer
        if isinstance(answer, wire.Heard) and answer.is_commit:
            raise Ended(Committed(answer.tx, course.attempts))
        course.in_doubt = course.in_doubt or not ending.is_alone
        course.was_begun = course.was_begun or ending.begun is not None
        if isinstance(answer, wire.Heard):
            await self.weigh_abort(draft, shown, course)
        if isinstance(answer, wire.BeginRefused):
            await self.weigh_refusal(draft, answer, course)
        if isinstance(answer, wire.DraftRefused):
            await self.fail(draft, Why.DRAFT, None, course)
        self.move(course)

    async def fail(self, draft: Draft, why: Why, key: Optional[str], course: Course) -> NoReturn:
        """Ends for a cause for which no attempt can commit, unless the order happened before."""
        course.why, course.key = why, key
        if draft.order is not None:
            found = await self.everywhere(draft.order)
            for record in found.values():
                self.heed_order(draft, {draft.order: record}, course)
            # What this centre showed may be the order's own doing, so this centre has to show that it is not.
            if course.centre not in found:
                self.move(course)
        if why is Why.MOVED and draft.is_made_anew:
            raise Again
        raise Ended(await self.no_commit(draft.order, course))

    async def weigh_refusal(self, draft: Draft, refused: wire.BeginRefused, course: Course) -> NoReturn:
        key = refused.key
        if refused.fault in (wire.SEQUENCE, wire.BUSY):
            course.why, course.key = Why.BUSY, None
            self.move(course)
        if key in draft.inserts:
            await self.fail(draft, Why.THERE, key, course)
        if key in draft.writes:
            record, _ = draft.writes[key]
            if (refused.version or 0, len(refused.seen)) > record.age:
                await self.fail(draft, Why.MOVED, key, course)
            course.why, course.key = Why.BEHIND, key
            self.move(course)
        # A version that was read moved on, or is not yet known here; or the order's record is there, which the next attempt reads.
        raise Again

    async def weigh_abort(self, draft: Draft, shown: Dict[str, Record], course: Course) -> NoReturn:
        """Looks for the cause of an abort, which the store does not tell, at all centres."""
        for key in draft.keys:
            newest = await self.newest(key)
            if newest is None:
                self.move(course)
            if key in draft.inserts and newest:
                await self.fail(draft, Why.THERE, key, course)
            if key in draft.writes and newest.age > draft.writes[key][0].age:
                await self.fail(draft, Why.MOVED, key, course)
            if key in draft.adds:
                await self.weigh_add(draft, shown[key], newest, course)
        course.why, course.key = Why.CONTENTION, None
        raise Again

    async def weigh_add(self, draft: Draft, used: Record, newest: Record, course: Course) -> None:
        """Whether an add may have been the cause of an abort."""
        key = newest.key
        for number, amount in draft.adds[key].items():
            low, high = self.configuration.bounds[number - 1]
            if newest and amount and not low <= newest.values[number - 1] + amount <= high:
                await self.fail(draft, Why.BOUNDS, key, course)
        if newest.version > used.version:
            self.move(course, newest.centre)
        # What was added gives no room for the opposite, and a version takes 64 adds.
        if newest.seen and not await self.rebase(newest, course.end):
            course.why, course.key = Why.BEHIND, key
            self.move(course)

    # ---- a second look

    async def second_look(self, order: str, course: Course, mark: bytes) -> Result:
        """Finds out what came of an order, by a mark in its record: once that is written, no attempt of before can happen any more."""
        end, pause, centre = self.now() + self.settings.patience, SHORT, course.centre
        while self.now() < end:
            record = await self.connection.read(centre, order, self.settings.wait)
            if record is not None:
                if orders.mark_of(record) == orders.DONE:
                    return Committed(None, course.attempts)
                if orders.mark_of(record) == orders.CANCELLED:
                    return Aborted(Why.CANCELLED, order, course.attempts)
                part = orders.part_for(self.configuration, order, record, mark)
                ending = await self.connection.begin(centre, (part,), 2 * self.settings.wait, True)
                if isinstance(ending.answer, wire.Heard) and ending.answer.is_commit:
                    return Aborted(course.why, course.key, course.attempts)
            await self.pause(pause)
            pause, centre = min(2 * pause, LONG), self.after(centre)
        return Unknown(order, course.attempts)

    async def cancel(self, order: str) -> Result:
        """Has an order never happen, unless it did."""
        course = Course(self.now(), self.first(None), why=Why.CANCELLED, key=order)
        return await self.second_look(order, course, orders.CANCELLED)
