"""Room for so many transactions at once, and for some more that wait a while."""
from __future__ import annotations

import asyncio
from collections import deque
from types import TracebackType
from typing import Deque, Optional, Type

from .faults import Fault


class Room:
    """At most `most` are inside, and `waiting` wait for at most `seconds`; who comes beyond these is told that it is busy."""

    def __init__(self, most: int, waiting: int, seconds: float):
        self.most, self.waiting, self.seconds = most, waiting, seconds
        self.inside = 0
        self.queue: "Deque[asyncio.Future[bool]]" = deque()

    async def __aenter__(self) -> None:
        if self.inside < self.most:
            self.inside += 1
            return
        if len(self.queue) >= self.waiting:
            raise Fault("busy")
        loop = asyncio.get_running_loop()
        place: "asyncio.Future[bool]" = loop.create_future()
        self.queue.append(place)
        late = loop.call_later(self.seconds, self.give_up, place)
        try:
            if not await place:
                raise Fault("busy")
        finally:
            late.cancel()

    def give_up(self, place: "asyncio.Future[bool]") -> None:
        if not place.done():
            self.queue.remove(place)
            place.set_result(False)

    async def __aexit__(self, kind: Optional[Type[BaseException]], error: Optional[BaseException], trace: Optional[TracebackType]) -> None:
        """Gives the room to who waited longest."""
        while self.queue:
            place = self.queue.popleft()
            if not place.done():
                place.set_result(True)
                return
        self.inside -= 1
