"""What the gateway does for each request: reads and transactions at its centre, and what is said of itself."""
from __future__ import annotations

import asyncio
import os
import sys
import traceback
from dataclasses import dataclass
from typing import Any, Awaitable, Callable, Dict, List, Optional, Tuple

from mdcc import Aborted, AsyncStore, AsyncTransaction, Committed, Item, Record, Refused, Result, Unanswered, Unknown, Why, orders

from .connections import JSON, Response, headers_of, response_of
from .documents import MOST_KEYS, Order, Update, body_shown, key_of, order_in, order_name, record_shown
from .faults import Fault, unknown
from .heads import Request
from .metrics import TYPE, Metrics
from .room import Room

PAGE = os.path.normpath(os.path.join(os.path.dirname(os.path.abspath(__file__)), "..", "gateway_openapi.json"))
ITEMS, TRANSACTIONS = "/v1/items", "/v1/transactions"
# An answer of the centre that is younger than this says that it is there.
YOUNG = 1.0
# The key that is asked for to see whether the centre answers; whether there is a record does not matter.
PROBE = "probe"
NAMES: Dict[Why, str] = {Why.BOUNDS: "bounds", Why.MOVED: "moved", Why.MISSING: "absent", Why.THERE: "there", Why.BEHIND: "behind",
                         Why.CANCELLED: "cancelled", Why.DRAFT: "draft", Why.BUSY: "busy", Why.CONTENTION: "contention"}
MARKS = {orders.DONE: "committed", orders.CANCELLED: "cancelled", orders.VOID: "void"}


@dataclass
class Running:
    """An order that is under way, with what was sent."""

    sent: Order
    end: "asyncio.Future[Response]"


class Centre:
    """Whether the gateway's centre answers."""

    def __init__(self, store: AsyncStore, number: int):
        self.store, self.number = store, number
        self.endpoint = store.engine.connection.endpoints[number]
        self.asking: "Optional[asyncio.Task[Optional[Record]]]" = None
        self.was_away = False

    @property
    def age(self) -> Optional[float]:
        """Seconds since its last answer."""
        return None if self.endpoint.heard is None else self.store.engine.now() - self.endpoint.heard

    async def answers(self) -> bool:
        """Whether it answers, by its last answer, or by one that is asked for. All who ask at once wait for one answer."""
        age = self.age
        if age is not None and age < YOUNG:
            return True
        if self.asking is None:
            engine = self.store.engine
            self.asking = asyncio.ensure_future(engine.connection.read(self.number, PROBE, engine.settings.wait))
            self.asking.add_done_callback(self.asked)
        return await asyncio.shield(self.asking) is not None

    def asked(self, asking: "asyncio.Task[Optional[Record]]") -> None:
        self.asking = None
        is_away = asking.cancelled() or asking.result() is None
        if is_away != self.was_away:
            self.was_away = is_away
            print(f"gateway: centre {self.number} {'does not answer' if is_away else 'answers'}", file=sys.stderr, flush=True)

    async def wanted(self) -> None:
        """Raises where it does not answer."""
        if not await self.answers():
            raise self.away()

    def away(self) -> Fault:
        host, port = self.store.engine.configuration.asked(self.number)
        return Fault("centre_away", f"centre {self.number} does not answer at {host}:{port}")


class Calls:
    """The gateway of one centre. `handle` answers a request, whatever it is."""

    # which method answers what, by the path, or by its beginning where that ends in a slash
    ROUTES: Dict[str, Dict[str, str]] = {
        "/healthz": {"GET": "health"}, "/metrics": {"GET": "counts"}, "/openapi.json": {"GET": "page"},
        ITEMS: {"GET": "items"}, ITEMS + "/": {"GET": "item"}, TRANSACTIONS: {"POST": "transact"},
        TRANSACTIONS + "/": {"GET": "order", "DELETE": "cancel"}}

    def __init__(self, store: AsyncStore, centre: int, room: Room):
        self.store, self.centre, self.room = store, Centre(store, centre), room
        self.metrics = Metrics(centre)
        self.running: Dict[str, Running] = {}
        self.told_at = float("-inf")
        with open(PAGE, "rb") as file:
            self.described = file.read()
        self.gauges: Callable[[], Dict[str, Tuple[str, float]]] = dict

    # ---- requests

    async def handle(self, request: Request) -> Response:
        route, response = "other", None
        try:
            route, call = self.call_for(request)
            response = await call(request)
        except Fault as fault:
            response = self.failed(fault)
        except Unanswered:
            response = self.failed(self.centre.away())
        except Exception:
            # Of a transaction it is not known whether it was begun.
            self.tell()
            response = self.failed(Fault("internal"), **({"outcome": "unknown"} if route == TRANSACTIONS else {}))
        self.metrics.answered(route, request.method if route != "other" else "-", response.status)
        return response

    def call_for(self, request: Request) -> Tuple[str, Callable[[Request], Awaitable[Response]]]:
        """The route of a request, and what answers it."""
        path = request.path
        for prefix in (ITEMS, TRANSACTIONS):
            if path.startswith(prefix + "/"):
                path = prefix + "/"
        calls = self.ROUTES.get(path)
        if calls is None:
            raise Fault("no_such_path")
        call = calls.get("GET" if request.method == "HEAD" else request.method)
        if call is None:
            fault = Fault("wrong_method")
            fault.allow = ", ".join([*calls, "HEAD"] if "GET" in calls else calls)
            raise fault
        if request.query and path != ITEMS:
            raise Fault("unknown_query")
        return path.rstrip("/"), getattr(self, call)

    def tell(self) -> None:
        """Prints where the gateway has a fault, at most once in ten seconds: an error stream that nobody reads must not fill."""
        if self.store.engine.now() > self.told_at + 10:
            self.told_at = self.store.engine.now()
            traceback.print_exc()

    def failed(self, fault: Fault, **members: object) -> Response:
        """The answer to an error, with other members beside it."""
        self.metrics.errors[fault.name] += 1
        return response_of(fault.status, {**members, "error": fault.document()}, headers_of(fault))

    def refused(self, fault: Fault) -> None:
        """Counts an error that a connection answered by itself."""
        self.metrics.errors[fault.name] += 1
        self.metrics.answered("other", "-", fault.status)

    # ---- of itself

    async def health(self, _: Request) -> Response:
        await self.centre.wanted()
        return response_of(200, {"centre": self.centre.number, "answers": True, "epoch": self.centre.endpoint.epoch})

    async def counts(self, _: Request) -> Response:
        age = self.centre.age
        gauges = {"mdcc_gateway_transactions_open": ("Transactions that are under way.", self.room.inside),
                  "mdcc_gateway_transactions_waiting": ("Transactions that wait for others to end.", len(self.room.queue)),
                  "mdcc_gateway_answer_age_seconds": ("Seconds since the last answer of the centre; -1 before the first.",
                                                      -1 if age is None else age),
                  **self.gauges()}
        return Response(200, self.metrics.text(gauges).encode(), TYPE)

    async def page(self, _: Request) -> Response:
        return Response(200, self.described, JSON)

    # ---- reads

    async def read(self, keys: List[str]) -> List[Record]:
        await self.centre.wanted()
        began = self.store.engine.now()
        records = await self.store.read_many(keys, self.centre.number)
        self.metrics.times["read"].add(self.store.engine.now() - began)
        return records

    async def item(self, request: Request) -> Response:
        key = key_of(request.below(ITEMS + "/"), "the path")
        record, = await self.read([key])
        if not record:
            raise Fault("missing", key=key)
        return response_of(200, record_shown(record))

    async def items(self, request: Request) -> Response:
        keys = []
        for name, value in request.pairs():
            if name != "key":
                raise Fault("unknown_query", f"the query has {name[:40]!r}: key is taken, any number of times", at=name[:40])
            keys.append(key_of(value, "key"))
        if not 1 <= len(keys) <= MOST_KEYS:
            raise Fault("unknown_query", f"1 to {MOST_KEYS} keys are wanted, as in ?key=cup&key=plate")
        return response_of(200, {"items": [record_shown(record) for record in await self.read(keys)]})

    # ---- transactions

    async def transact(self, request: Request) -> Response:
        if request.headers.get(b"content-type", b"").partition(b";")[0].strip().lower() != JSON.encode() or b"content-encoding" in request.headers:
            raise Fault("wrong_type")
        sent = order_in(request.body, self.store.prefix)
        if sent.order is None:
            return await self.commit(sent)
        while sent.order in self.running:
            running = self.running[sent.order]
            if running.sent.updates != sent.updates or running.sent.reads != sent.reads:
                raise Fault("order_in_use")
            if running.sent.again or not sent.again:
                return await asyncio.shield(running.end)
            # What comes of that one says nothing of sendings before it.
            await asyncio.wait({running.end})
        end: "asyncio.Future[Response]" = asyncio.get_running_loop().create_future()
        self.running[sent.order] = Running(sent, end)
        try:
            response = await self.commit(sent)
        except BaseException as error:
            end.set_exception(error if isinstance(error, Fault) else Fault("internal"))
            # Perhaps nobody else waits for it.
            end.exception()
            raise
        finally:
            del self.running[sent.order]
        end.set_result(response)
        return response

    async def commit(self, sent: Order) -> Response:
        """Has a transaction happen, and says what came of it."""
        drafting = Drafting(self.store, sent, self.centre.number)
        try:
            drafting.check()
            await self.centre.wanted()
            async with self.room:
                # Whoever waited does not know any more.
                await self.centre.wanted()
                began = self.store.engine.now()
                result = await self.store.engine.commit(drafting.draft, self.store.key_of(sent.order), self.centre.number, sent.again)
                self.metrics.times["transaction"].add(self.store.engine.now() - began)
        except Fault as fault:
            # Nothing was begun.
            return self.ended(fault, "refused", sent, drafting)
        return self.told(result, sent, drafting)

    def told(self, result: Result, sent: Order, drafting: "Drafting") -> Response:
        """The answer to a transaction."""
        if isinstance(result, Committed):
            self.metrics.outcomes["committed"] += 1
            members: Dict[str, Any] = {"outcome": "committed", "transaction": None if result.tx is None else str(result.tx)}
            members.update(self.beside(sent, result, drafting))
            return response_of(200, members)
        if isinstance(result, Unknown):
            return self.ended(unknown(sent.order), "unknown", sent, drafting, result)
        # Where the centre went away before anything was begun, that is the cause.
        age = self.centre.age
        if isinstance(result, Refused) and result.why is Why.CONTENTION and (age is None or age > self.store.engine.settings.wait):
            return self.ended(self.centre.away(), "refused", sent, drafting, result)
        outcome = "aborted" if isinstance(result, Aborted) else "refused"
        return self.ended(Fault(NAMES[result.why], key=result.key), outcome, sent, drafting, result)

    def ended(self, fault: Fault, outcome: str, sent: Order, drafting: "Drafting", result: Optional[Result] = None) -> Response:
        """The answer to a transaction that is not known to have happened."""
        self.metrics.outcomes[outcome] += 1
        return self.failed(fault, outcome=outcome, **self.beside(sent, result, drafting))

    @staticmethod
    def beside(sent: Order, result: Optional[Result], drafting: "Drafting") -> Dict[str, object]:
        """What stands beside an outcome."""
        members: Dict[str, object] = {} if sent.order is None else {"order": sent.order}
        if result is not None:
            members["attempts"] = result.attempts
        if drafting.read:
            members["reads"] = [record_shown(record) for record in drafting.read]
        return members

    # ---- orders

    def name_in(self, request: Request) -> str:
        return order_name(request.below(TRANSACTIONS + "/"), self.store.prefix, "the path")

    async def order(self, request: Request) -> Response:
        order = self.name_in(request)
        if order in self.running:
            return response_of(200, {"order": order, "outcome": "open"})
        record, = await self.read([self.store.prefix + order])
        outcome = MARKS.get(orders.mark_of(record))
        if outcome is None:
            return self.failed(Fault("no_order"), order=order, outcome="unknown")
        return response_of(200, {"order": order, "outcome": outcome, "note": body_shown(record.body[1:]), "centre": record.centre})

    async def cancel(self, request: Request) -> Response:
        order = self.name_in(request)
        await self.centre.wanted()
        async with self.room:
            result = await self.store.cancel(order)
        if isinstance(result, Unknown):
            return self.failed(unknown(order), order=order, outcome="unknown")
        return response_of(200, {"order": order, "outcome": "committed" if isinstance(result, Committed) else "cancelled"})


class Drafting:
    """Makes the transaction of an order, at each attempt anew."""

    def __init__(self, store: AsyncStore, sent: Order, centre: int):
        self.store, self.sent, self.centre = store, sent, centre
        self.read: List[Record] = []
        self.attempts = 0
        # what is the same at each attempt, where nothing is to be read for it
        self.steady: Optional[AsyncTransaction] = None

    def made(self) -> AsyncTransaction:
        transaction = self.store.transaction(self.sent.order, self.sent.note, self.centre)
        # What was read before cannot be read anew: whoever sent it decides.
        transaction.is_made_anew = bool(self.sent.keys) and not self.sent.shown
        return transaction

    def check(self) -> None:
        """Raises where the updates can be no transaction, before anything is asked for."""
        transaction = self.made()
        some = Item(b"", transaction.configuration.nearest_to_zero)
        for update in self.sent.updates:
            self.put(transaction, update, self.sent.shown.get(update.key) or Record(update.key, 1, some, (), False, 0))
        if not self.sent.reads:
            self.steady = transaction

    async def draft(self, _: int) -> AsyncTransaction:
        """The transaction of an attempt."""
        self.attempts += 1
        if self.steady is not None:
            self.steady.reads = {}
            return self.steady
        transaction = self.made()
        if self.sent.keys:
            self.read = await transaction.read_many(self.sent.keys)
        found = {**self.sent.shown, **{record.key: record for record in self.read}}
        for update in self.sent.updates:
            record = found.get(update.key)
            if update.kind == "keep" and not record:
                # What was sent before may have been begun where the record is known.
                if self.attempts > 1 or self.sent.again:
                    raise Unanswered(update.key)
                raise Fault("absent", key=update.key)
            self.put(transaction, update, record)
        return transaction

    @staticmethod
    def put(transaction: AsyncTransaction, update: Update, record: Optional[Record]) -> None:
        """Puts an update into a transaction. Raises Fault where it may not stand there."""
        try:
            if update.kind == "insert":
                transaction.insert(update.key, update.values or (), update.body or b"")
            elif update.kind == "add":
                transaction.add(update.key, dict(enumerate(update.amounts, 1)))
            elif record is not None:
                transaction.set(record, update.values, update.body)
        except ValueError as error:
            raise Fault("wrong_value", str(error), at=update.at) from None
