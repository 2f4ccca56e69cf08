"""Connections of HTTP/1.1, and what one of them may cost: how many there are, how long each may take, how much each may hold.

A connection is idle, amid a request, under way with one, or stuck with an answer that is not taken. Those that are idle give way where there are
too many; each of the other states has a time after which it ends.
"""
from __future__ import annotations

import asyncio
import json
from collections import OrderedDict
from dataclasses import dataclass
from email.utils import formatdate
from http.client import responses
from typing import Awaitable, Callable, Optional, Set, Tuple

from .faults import Fault
from .heads import MOST_BODY, MOST_HEAD, Reader, Request

JSON = "application/json"
ENCODER = json.JSONEncoder(ensure_ascii=False, separators=(",", ":"))
# What may wait in a connection that is under way: a whole request.
MOST_WAITING = MOST_HEAD + MOST_BODY
GO = b"HTTP/1.1 100 Continue\r\n\r\n"


@dataclass
class Limits:
    """At most so many connections; seconds for which one may be idle, and for which a request or an answer may be on its way."""

    connections: int = 2000
    idle: float = 60.0
    slow: float = 10.0


@dataclass
class Response:
    """What is answered."""

    status: int
    body: bytes
    type: str = JSON
    headers: Tuple[Tuple[str, str], ...] = ()


def response_of(status: int, document: object, headers: Tuple[Tuple[str, str], ...] = ()) -> Response:
    """An answer with a document of JSON."""
    return Response(status, (ENCODER.encode(document) + "\n").encode("utf-8", "backslashreplace"), JSON, headers)


def response_to(fault: Fault) -> Response:
    """The answer to what is at fault before anything of it was done."""
    return response_of(fault.status, {"error": fault.document()}, headers_of(fault))


def headers_of(fault: Fault) -> Tuple[Tuple[str, str], ...]:
    """The headers that go with an error."""
    if fault.allow is not None:
        return (("Allow", fault.allow),)
    return (("Retry-After", "1"),) if fault.status == 503 else ()


class Connection(asyncio.Protocol):
    """One connection. Its requests are answered in their order, one at a time."""

    __slots__ = ("server", "transport", "reader", "task", "is_paused", "is_stuck", "is_ending")

    def __init__(self, server: "Server"):
        self.server = server
        self.transport: asyncio.Transport
        self.reader = Reader()
        self.task: Optional[asyncio.Task] = None
        self.is_paused = self.is_stuck = self.is_ending = False

    # ---- what asyncio calls

    def connection_made(self, transport: asyncio.BaseTransport) -> None:
        self.transport = transport  # type: ignore[assignment]
        self.server.take(self)

    def connection_lost(self, exc: Optional[Exception]) -> None:
        self.server.forget(self)

    def data_received(self, data: bytes) -> None:
        if self.is_ending:
            return
        self.reader.data += data
        if self.task is not None or self.is_stuck:
            if len(self.reader.data) > MOST_WAITING and not self.is_paused:
                self.is_paused = True
                self.transport.pause_reading()
            return
        self.advance()

    def eof_received(self) -> bool:
        """A client that sends no more may still wait for its answer."""
        self.is_ending = True
        return self.task is not None

    def pause_writing(self) -> None:
        self.is_stuck = True
        self.server.stuck[self] = self.server.now()

    def resume_writing(self) -> None:
        self.is_stuck = False
        self.server.stuck.pop(self, None)
        if self.task is None and not self.transport.is_closing():
            self.advance()

    # ---- requests

    def advance(self) -> None:
        """Goes on with what came."""
        try:
            request = self.reader.next()
        except Fault as fault:
            self.server.refused(fault)
            self.end(response_to(fault))
            return
        if request is not None:
            self.server.note(self, None)
            self.task = self.server.loop.create_task(self.run(request))
        elif self.is_ending:
            self.transport.close()
        else:
            self.server.note(self, self.server.amid if self.reader.is_amid else self.server.idle)
            if self.reader.wants_go:
                self.reader.wants_go = False
                self.transport.write(GO)

    async def run(self, request: Request) -> None:
        """Answers a request, also where its client is gone: what it began shall come to its end."""
        response = await self.server.answer(request)
        self.task = None
        if self.transport.is_closing():
            return
        is_last = request.is_last or self.server.is_ending
        self.write(response, is_last, request.method != "HEAD")
        if is_last:
            self.transport.close()
            return
        if self.is_paused:
            self.is_paused = False
            self.transport.resume_reading()
        if not self.is_stuck:
            self.advance()

    def write(self, response: Response, is_last: bool, has_body: bool = True) -> None:
        extra = "".join(f"{name}: {value}\r\n" for name, value in response.headers) if response.headers else ""
        last = "Connection: close\r\n" if is_last else ""
        head = (f"HTTP/1.1 {response.status} {responses[response.status]}\r\nDate: {self.server.date}\r\nContent-Type: {response.type}\r\n"
                f"Content-Length: {len(response.body)}\r\nCache-Control: no-store\r\n{extra}{last}\r\n")
        self.transport.write(head.encode("latin-1") + response.body if has_body else head.encode("latin-1"))

    def end(self, response: Optional[Response] = None) -> None:
        """Ends the connection, with an answer that nobody asked for where there is one."""
        if not self.transport.is_closing():
            self.is_ending = True
            if response is not None:
                self.write(response, True)
            self.transport.close()


class Server:
    """All connections of a listening socket."""

    def __init__(self, handle: Callable[[Request], Awaitable[Response]], refused: Callable[[Fault], None], limits: Limits):
        self.handle, self.refused, self.limits = handle, refused, limits
        self.loop = asyncio.get_running_loop()
        self.connections: Set[Connection] = set()
        # those in a state that may not last, each with the time since when, the oldest first
        self.idle: "OrderedDict[Connection, float]" = OrderedDict()
        self.amid: "OrderedDict[Connection, float]" = OrderedDict()
        self.stuck: "OrderedDict[Connection, float]" = OrderedDict()
        self.is_ending = False
        self.given_way = 0
        self.date = formatdate(usegmt=True)
        self.listening: Optional[asyncio.AbstractServer] = None
        self.sweeping: Optional[asyncio.Task] = None

    async def listen(self, host: str, port: int) -> Tuple[str, int]:
        """Begins to take connections, and says where."""
        self.listening = await self.loop.create_server(lambda: Connection(self), host, port, backlog=1024)
        self.sweeping = self.loop.create_task(self.sweep())
        return self.listening.sockets[0].getsockname()[:2]

    def now(self) -> float:
        return self.loop.time()

    async def answer(self, request: Request) -> Response:
        if self.is_ending:
            fault = Fault("ending")
            self.refused(fault)
            return response_to(fault)
        return await self.handle(request)

    # ---- connections

    def take(self, connection: Connection) -> None:
        """A new connection. Where there are too many the one that was idle longest gives way, else the one longest amid a request."""
        self.connections.add(connection)
        self.idle[connection] = self.now()
        if len(self.connections) <= self.limits.connections:
            return
        self.given_way += 1
        oldest, fault = next(iter(self.idle)), None
        if oldest is connection and self.amid:
            oldest, fault = next(iter(self.amid)), Fault("slow", "the request was not whole, and others wait for its connection")
        elif oldest is connection:
            fault = Fault("connections")
        if fault is not None:
            self.refused(fault)
        oldest.end(None if fault is None else response_to(fault))
        self.forget(oldest)

    def forget(self, connection: Connection) -> None:
        self.connections.discard(connection)
        for state in (self.idle, self.amid, self.stuck):
            state.pop(connection, None)

    def note(self, connection: Connection, state: "Optional[OrderedDict[Connection, float]]") -> None:
        """In which state a connection is now; since when, where it was in none or another."""
        for other in (self.idle, self.amid):
            if other is not state:
                other.pop(connection, None)
        if state is not None and connection not in state and connection in self.connections:
            state[connection] = self.now()

    async def sweep(self) -> None:
        """Ends what takes too long, each second."""
        while True:
            await asyncio.sleep(1)
            self.date = formatdate(usegmt=True)
            for connection in self.older(self.idle, self.limits.idle):
                connection.end()
            for connection in self.older(self.amid, self.limits.slow):
                fault = Fault("slow", f"the request was not whole after {self.limits.slow:g} seconds")
                self.refused(fault)
                connection.end(response_to(fault))
            for connection in self.older(self.stuck, self.limits.slow):
                connection.transport.abort()

    def older(self, state: "OrderedDict[Connection, float]", seconds: float) -> list:
        """Those that are in a state for longer than this, which are taken out of it."""
        past, found = self.now() - seconds, []
        while state and next(iter(state.values())) <= past:
            found.append(state.popitem(last=False)[0])
        return found

    # ---- the end

    async def end(self, seconds: float) -> None:
        """Takes no more connections and requests, and waits so long for those that are under way."""
        self.is_ending = True
        if self.listening is not None:
            self.listening.close()
        for connection in [*self.idle, *self.amid]:
            connection.end()
        until = self.now() + seconds
        while any(connection.task is not None for connection in self.connections) and self.now() < until:
            await asyncio.sleep(0.02)
        for connection in list(self.connections):
            connection.end()
        if self.sweeping is not None:
            self.sweeping.cancel()
