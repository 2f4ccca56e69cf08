"""Requests to centres over datagrams: serials, sending again, and which answer belongs to which request.

It runs in one asyncio loop. A centre answers to one address, which only one process can own, so many transactions of one process are open at
once over one socket for each centre.
"""
from __future__ import annotations

import asyncio
import errno
import os
import socket
from dataclasses import dataclass, field
from typing import Dict, Iterable, List, Optional, Sequence, Tuple

from . import wire
from .configuration import Configuration
from .records import Add, Part, Record, Tx
from .results import PortTaken

# No more reads than this wait for their answers at one centre, whose socket may have room for a few hundred datagrams.
MOST_READS = 64
BUFFER = 4 << 20
# So many answers are taken before others in the program have their turn.
MOST_AT_ONCE = 64
# More than any number of a record may change by, since bounds are at most 10^15 in magnitude.
NO_AMOUNT = 2 ** 62


@dataclass
class Ending:
    """What became of a request to begin. Where `answer` is None, no end was told in time, and `begun` has the transaction if one was told.

    `is_alone` says that nothing else can come of the request. A transaction that ended is alone where the request was sent once, or the centre
    did not start anew between the first sending and the begin. A centre that refuses to begin notes nothing, so a later copy of the request may
    still be begun: a refusal is alone where each copy was refused, or where the centre, not started anew, has passed what was asked for."""

    answer: Optional[wire.Answer] = None
    begun: Optional[Tx] = None
    is_alone: bool = True


@dataclass
class Waiting:
    """A request that waits for answers."""

    serial: int
    datagrams: List[bytes]
    epoch: Optional[int]
    newest: Tuple[int, int]
    # of a begin, the version that each part rests on
    versions: Dict[str, int] = field(default_factory=dict)
    sends: int = 0
    begun: Optional[Tx] = None
    # how many copies were refused, and the last refusal
    refusals: int = 0
    refused: Optional[wire.BeginRefused] = None
    # done once an answer came, or the time is over
    told: Optional["asyncio.Future[None]"] = None
    # each with the epoch in which the centre gave it
    answers: List[Tuple[int, wire.Answer]] = field(default_factory=list)

    def tell(self) -> None:
        """Has whoever waits for an answer go on."""
        if self.told is not None and not self.told.done():
            self.told.set_result(None)

    def has_passed(self, refused: wire.BeginRefused) -> bool:
        """Whether the centre holds a later version than the part rests on. Versions only rise, so no later copy is begun there."""
        return refused.version is not None and refused.version > self.versions.get(refused.key, refused.version)

    def ending(self, epoch: int, answer: wire.Answer) -> Optional[Ending]:
        """The end that an answer tells; None where it tells none that stays."""
        if isinstance(answer, wire.BeginRefused):
            return self.refusal(epoch, answer)
        if isinstance(answer, wire.Heard):
            return Ending(answer, self.begun, self.sends <= 1 or epoch == self.epoch)
        return Ending(answer, self.begun, True) if isinstance(answer, wire.DraftRefused) else None

    def refusal(self, epoch: int, refused: wire.BeginRefused) -> Optional[Ending]:
        """What a refusal of one copy tells of all."""
        self.refusals, self.refused = self.refusals + 1, refused
        if self.begun is not None:
            # A centre that was started anew has forgotten what it began; else the refused copy came before the one that was begun.
            return None if epoch == self.begun.epoch else self.in_doubt()
        if self.refusals >= self.sends or (epoch == self.epoch and self.has_passed(refused)):
            return Ending(refused, None, True)
        return None

    def in_doubt(self) -> Ending:
        """What is known where no end was told."""
        return Ending(None if self.begun else self.refused, self.begun, False)


class Endpoint:
    """The one socket at which the answers of a centre come."""

    def __init__(self, centre: int, to: Tuple[str, int], bound: socket.socket):
        self.centre, self.to, self.bound = centre, to, bound
        # Serials of other processes lie elsewhere, as far as chance goes; `Connection.begin` notices where they do not.
        self.serial = int.from_bytes(os.urandom(4), "little")
        self.waiting: Dict[int, Waiting] = {}
        # the epoch of the centre's last answer, and the newest transaction that it began for this process, by epoch and sequence
        self.epoch: Optional[int] = None
        self.newest: Optional[Tuple[int, int]] = None
        # when the centre answered last, by the clock of the loop
        self.heard: Optional[float] = None
        self.reads = asyncio.Semaphore(MOST_READS)
        self.loop = asyncio.get_running_loop()
        self.loop.add_reader(bound.fileno(), self.receive)

    def close(self) -> None:
        """Gives the port free."""
        if self.bound.fileno() >= 0:
            self.loop.remove_reader(self.bound.fileno())
            self.bound.close()

    def receive(self) -> None:
        """Takes the answers that are there, but not so many at once that all else would wait."""
        for _ in range(MOST_AT_ONCE):
            try:
                data = self.bound.recv(wire.MOST_DATAGRAM + 1)
            except BlockingIOError:
                return
            except OSError:
                # A centre that does not run refuses datagrams; they are lost, as others may be.
                continue
            self.take(data)

    def take(self, data: bytes) -> None:
        """Gives an answer to the request that it belongs to."""
        try:
            serial, epoch, answer = wire.read_answer(data, self.centre)
        except wire.NoAnswer:
            return
        self.epoch, self.heard = epoch, self.loop.time()
        waiting = self.waiting.get(serial)
        if waiting is not None:
            waiting.answers.append((epoch, answer))
            waiting.tell()

    def next_serial(self) -> int:
        self.serial = (self.serial + 1) & 0xFFFFFFFF
        return self.serial

    def open(self, serial: int, message: bytes, parts: Sequence[Part] = ()) -> Waiting:
        datagrams = wire.datagrams(message, 16 + self.centre, serial, 1)
        waiting = Waiting(serial, datagrams, self.epoch, self.newest or (0, 0), {part.key: part.version for part in parts})
        self.waiting[serial] = waiting
        return waiting

    def send(self, waiting: Waiting) -> None:
        waiting.sends += 1
        for datagram in waiting.datagrams:
            try:
                self.bound.sendto(datagram, self.to)
            except OSError:
                # There is no room at the moment, or no way: it is lost, as others may be.
                pass


async def told(waiting: Waiting, seconds: float) -> bool:
    """Waits for an answer, and says whether one came."""
    if not waiting.answers:
        loop = asyncio.get_running_loop()
        waiting.told = loop.create_future()
        late = loop.call_later(max(seconds, 0.0), waiting.tell)
        try:
            await waiting.told
        finally:
            late.cancel()
    return bool(waiting.answers)


def bound_socket(configuration: Configuration, centre: int) -> socket.socket:
    bound = socket.socket(socket.AF_INET, socket.SOCK_DGRAM)
    try:
        bound.setsockopt(socket.SOL_SOCKET, socket.SO_RCVBUF, BUFFER)
        bound.bind(configuration.answered(centre))
        bound.setblocking(False)
    except OSError:
        bound.close()
        raise
    return bound


class Connection:
    """One socket for each centre whose answers come to this machine."""

    def __init__(self, configuration: Configuration, again: float, wait: float):
        self.configuration, self.again, self.wait = configuration, again, wait
        self.endpoints: Dict[int, Endpoint] = {}

    async def open(self, centres: Optional[Iterable[int]]) -> None:
        """Binds the addresses of the clients of these centres; of all whose host is this machine, where none are named."""
        for centre in centres if centres is not None else self.configuration.centres:
            try:
                bound = bound_socket(self.configuration, centre)
            except OSError as error:
                if error.errno == errno.EADDRINUSE:
                    await self.close()
                    raise PortTaken(error.errno, f"another process is the client of centre {centre}") from error
                if centres is None and error.errno == errno.EADDRNOTAVAIL:
                    continue
                await self.close()
                raise
            self.endpoints[centre] = Endpoint(centre, self.configuration.asked(centre), bound)
        if not self.endpoints:
            raise OSError(errno.EADDRNOTAVAIL, "no centre of the configuration has its host at this machine")

    async def close(self) -> None:
        """Gives the ports free. Nothing can be asked any more."""
        for endpoint in self.endpoints.values():
            endpoint.close()

    def pause(self, waiting: Waiting) -> float:
        """For how long to wait until a request is sent again: longer each time, since a centre that is late may have too much to do."""
        return self.again * min(2 ** (waiting.sends - 1), 8)

    # ---- reads

    async def read(self, centre: int, key: str, seconds: float) -> Optional[Record]:
        """What a centre shows of a key; None where it does not answer in time."""
        endpoint = self.endpoints[centre]
        async with endpoint.reads:
            serial = endpoint.next_serial()
            waiting = endpoint.open(serial, wire.read_request(centre, serial, key))
            try:
                return await self.shown(endpoint, waiting, key, seconds)
            finally:
                del endpoint.waiting[serial]

    async def shown(self, endpoint: Endpoint, waiting: Waiting, key: str, seconds: float) -> Optional[Record]:
        loop = asyncio.get_running_loop()
        end = loop.time() + seconds
        while loop.time() < end:
            endpoint.send(waiting)
            if await told(waiting, min(self.pause(waiting), end - loop.time())):
                for _, answer in waiting.answers:
                    if isinstance(answer, Record) and answer.key == key:
                        return answer
                waiting.answers.clear()
        return None

    async def read_all(self, centre: int, keys: Sequence[str], seconds: float) -> Dict[str, Record]:
        """What a centre shows of keys, each asked by a datagram of its own, all at once. Those without an answer in time are not there."""
        if len(keys) == 1:
            shown = [await self.read(centre, keys[0], seconds)]
        else:
            shown = await asyncio.gather(*(self.read(centre, key, seconds) for key in keys))
        return {record.key: record for record in shown if record is not None}

    # ---- begins

    async def begin(self, centre: int, parts: Sequence[Part], seconds: float, may_repeat: bool) -> Ending:
        """Begins a transaction, and waits for its end. It is sent again only where it may be begun a second time, as it is by a centre
        that starts anew in between."""
        endpoint = self.endpoints[centre]
        loop = asyncio.get_running_loop()
        end = loop.time() + seconds
        while True:
            serial = await self.free_serial(endpoint, end)
            if serial is None:
                return Ending()
            waiting = endpoint.open(serial, wire.begin_request(centre, serial, parts), parts)
            try:
                ending = await self.ended(endpoint, waiting, end, may_repeat)
            finally:
                del endpoint.waiting[serial]
            if ending is not None:
                return ending

    async def free_serial(self, endpoint: Endpoint, end: float) -> Optional[int]:
        """A serial for a begin; None where the centre is silent.

        A centre answers to the serial of an earlier begin with what came of that. Once a transaction of this process is known, an older one
        gives it away. Before, the serial is tried with parts that can be no transaction: to these, a centre says so if it is free. Each
        serial is tried once, so that no second such answer comes when it is in use."""
        loop = asyncio.get_running_loop()
        wait = self.again
        while endpoint.newest is None and loop.time() < end:
            serial = endpoint.next_serial()
            nothing = Part("probe", 1, Add(((len(self.configuration.bounds), NO_AMOUNT),)))
            waiting = endpoint.open(serial, wire.begin_request(endpoint.centre, serial, (nothing,)))
            try:
                endpoint.send(waiting)
                if await told(waiting, min(wait, end - loop.time())) and isinstance(waiting.answers[0][1], wire.DraftRefused):
                    return serial
            finally:
                del endpoint.waiting[serial]
            wait *= 2
        return endpoint.next_serial() if endpoint.newest is not None else None

    async def ended(self, endpoint: Endpoint, waiting: Waiting, end: float, may_repeat: bool) -> Optional[Ending]:
        """How a request to begin ends; None where its serial was one of another process, and nothing was begun. A centre that does not say that it
        began is given up before. Once a copy is refused no more are sent; the answers to those that were sent are waited for, since one of
        them may be begun."""
        loop = asyncio.get_running_loop()
        silent = min(end, loop.time() + self.wait)
        while loop.time() < (end if waiting.begun else silent):
            if waiting.sends == 0 or (may_repeat and (waiting.begun or not waiting.refusals)):
                endpoint.send(waiting)
            if not await told(waiting, min(self.pause(waiting), end - loop.time())):
                if waiting.refusals and not waiting.begun:
                    break
                continue
            for epoch, answer in waiting.answers:
                if isinstance(answer, (wire.Begun, wire.Heard)):
                    begun = (answer.tx.epoch, answer.tx.sequence)
                    if begun <= waiting.newest:
                        return None
                    waiting.begun = answer.tx
                    endpoint.newest = max(endpoint.newest or (0, 0), begun)
                ending = waiting.ending(epoch, answer)
                if ending is not None:
                    return ending
            waiting.answers.clear()
        return waiting.in_doubt()
