"""Orders of `applications` by gateways: one beside each centre, as processes that may be killed, and a client that asks another one then."""
from __future__ import annotations

import asyncio
import base64
import random
import signal
from collections import Counter, defaultdict
from typing import Any, Callable, DefaultDict, Dict, List, Optional, Sequence, Tuple

from mdcc import Aborted, Committed, Refused, Result, Tx, Unknown, Why

from .calls import NAMES
from .client import Client, Lost
from .process import Process

WHYS: Dict[str, Why] = {name: why for why, name in NAMES.items()}
# Errors after which another gateway may do better, since nothing was begun.
ELSEWHERE = ("centre_away", "busy", "ending", "connections", "slow", "order_in_use")


class Collected:
    """The updates of an order, as a transaction of clients/python takes them, for JSON."""

    def __init__(self, order: Optional[str]):
        self.order, self.updates = order, []  # type: Optional[str], List[Dict[str, Any]]

    def insert(self, key: str, value: int, body: bytes = b"") -> None:
        self.updates.append({"insert": key, "values": [value], "body": {"base64": base64.b64encode(body).decode("ascii")}})

    def add(self, key: str, amount: int) -> None:
        self.updates.append({"add": key, "amounts": [amount]})


def result_of(status: int, answer: Dict[str, Any]) -> Result:
    """What an answer says of a transaction."""
    attempts = answer.get("attempts", 0)
    if status == 200:
        tx = answer["transaction"]
        return Committed(None if tx is None else Tx(*map(int, tx.split("."))), attempts)
    error = answer["error"]
    if answer.get("outcome") not in ("aborted", "refused"):
        return Unknown(answer.get("order"), attempts)
    return (Aborted if answer["outcome"] == "aborted" else Refused)(WHYS.get(error["name"], Why.DRAFT), error.get("key"), attempts)


class Gateways:
    """A gateway beside each centre. Ends them all where it is left."""

    def __init__(self, configuration: str, centres: Sequence[int], patience: float):
        self.gateways = {centre: Process(configuration, centre, "--patience", patience / 2) for centre in centres}
        self.patience = patience
        self.clients: DefaultDict[int, List[Client]] = defaultdict(list)
        # how often an order was sent again since a connection broke, since it was unknown, since nothing was begun
        self.counts: "Counter[str]" = Counter()

    def __enter__(self) -> "Gateways":
        for gateway in self.gateways.values():
            gateway.begin()
        for gateway in self.gateways.values():
            gateway.wait_until_up()
        return self

    def __exit__(self, *_: object) -> None:
        for gateway in self.gateways.values():
            gateway.end(signal.SIGKILL)

    async def kill(self, every: float, down: float, source: random.Random) -> int:
        """Kills one and starts it again, all the time, and says how often; its end leaves all of them running."""
        kills, loop = 0, asyncio.get_running_loop()
        try:
            while True:
                await asyncio.sleep(every)
                gateway = source.choice(list(self.gateways.values()))
                await loop.run_in_executor(None, gateway.end, signal.SIGKILL)
                kills += 1
                await asyncio.sleep(down)
                gateway.begin()
        except asyncio.CancelledError:
            return kills
        finally:
            for gateway in self.gateways.values():
                if gateway.process is None or gateway.process.poll() is not None:
                    gateway.begin()

    # ---- orders

    async def ask(self, centre: int, method: str, path: str, document: object = None) -> Tuple[int, Dict[str, Any]]:
        """One request to a gateway, over a connection of those that are free."""
        free = self.clients[centre]
        client = free.pop() if free else Client("127.0.0.1", self.gateways[centre].port)
        answer = await client.ask(method, path, document)
        free.append(client)
        return answer

    async def resolve(self, order: Optional[str], centre: int, send: Callable[[int, bool], Any]) -> Result:
        """Sends a request, at one gateway after another, until an answer says what came of it."""
        centres, again, loop = list(self.gateways), False, asyncio.get_running_loop()
        end = loop.time() + self.patience
        while loop.time() < end:
            try:
                status, answer = await send(centre, again)
                result = result_of(status, answer)
                if status != 200 and answer["error"]["name"] in ELSEWHERE:
                    self.counts[answer["error"]["name"]] += 1
                elif not isinstance(result, Unknown):
                    return result
                else:
                    again = True
                    self.counts["unknown"] += 1
            except ConnectionRefusedError:
                self.counts["nobody there"] += 1
            except Lost:
                again = True
                self.counts["connection broke"] += 1
            centre = centres[(centres.index(centre) + 1) % len(centres)]
            await asyncio.sleep(0.05)
        return Unknown(order, 0)

    async def commit(self, collected: Collected, order: Optional[str], centre: int) -> Result:
        """Has an order happen: sent again where that is to be."""
        document: Dict[str, Any] = {"updates": collected.updates}

        async def send(at: int, again: bool) -> Tuple[int, Dict[str, Any]]:
            named = {} if order is None else {"order": order, "again": again}
            return await self.ask(at, "POST", "/v1/transactions", {**document, **named})

        return await self.resolve(order, centre, send)

    async def cancel(self, order: str) -> Result:
        """Has an order never happen, unless it did."""
        async def send(at: int, _: bool) -> Tuple[int, Dict[str, Any]]:
            status, answer = await self.ask(at, "DELETE", f"/v1/transactions/{order}")
            if status == 200 and answer["outcome"] == "committed":
                return 200, {"transaction": None}
            return (409, {"outcome": "aborted", "error": {"name": "cancelled"}}) if status == 200 else (status, answer)

        return await self.resolve(order, next(iter(self.gateways)), send)
