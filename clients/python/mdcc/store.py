"""The store for plain programs, with threads or without: an asyncio loop in a thread of its own does the work."""
from __future__ import annotations

import asyncio
import threading
from types import TracebackType
from typing import Any, Callable, Coroutine, Dict, Iterable, List, Optional, Sequence, Type, TypeVar

from . import orders
from .aio import AsyncStore, AsyncTransaction, Source
from .draft import Amounts, Values
from .records import Record
from .results import NotCommitted, Result

T = TypeVar("T")


class Transaction:
    """A transaction that is begun at the end of its block:

        with store.transaction(order="77") as t:
            cup = t.read("cup")
            t.add(cup, -1)

    Where the block ends with an error, nothing is begun. Where nothing was committed, NotCommitted is raised at its end. `result` has what
    came of it."""

    def __init__(self, store: "Store", inner: AsyncTransaction):
        self.store, self.inner = store, inner

    @property
    def result(self) -> Optional[Result]:
        """What came of it; None before its end."""
        return self.inner.result

    def read(self, key: str) -> Record:
        """What a centre shows of a key; later reads of this transaction ask the same centre."""
        return self.store.wait(self.inner.read(key))

    def read_many(self, keys: Sequence[str]) -> List[Record]:
        """The same of several keys at once."""
        return self.store.wait(self.inner.read_many(keys))

    def insert(self, key: str, values: Values, body: bytes = b"") -> None:
        """A new record, where there is none under this key."""
        self.inner.insert(key, values, body)

    def add(self, record: "Record | str", amounts: Amounts) -> None:
        """Adds to the first number of a record, or to several: `{1: -1, 2: 5}`. Other adds of the same moment do not hinder it."""
        self.inner.add(record, amounts)

    def set(self, record: Record, values: Optional[Values] = None, body: Optional[bytes] = None) -> None:
        """Writes over the very record that was read; what is not given stays. It fails where another wrote or added in between."""
        self.inner.set(record, values, body)

    def keep(self, record: Record) -> None:
        """Writes what was read over itself: the transaction happens only if nothing of the record changed."""
        self.inner.keep(record)

    def commit(self) -> Result:
        """Begins it, again where another was faster, and gives what came of it. The end of a block does so too."""
        return self.store.wait(self.inner.commit())

    def __enter__(self) -> "Transaction":
        return self

    def __exit__(self, kind: Optional[Type[BaseException]], error: Optional[BaseException], trace: Optional[TracebackType]) -> None:
        if kind is None:
            result = self.commit()
            if not result.is_committed:
                raise NotCommitted(result)


class Store:
    """A cluster, as its client. Any number of threads may use it at once. Make one by `connect`."""

    def __init__(self, loop: asyncio.AbstractEventLoop, thread: threading.Thread):
        self.loop, self.thread = loop, thread
        self.inner: AsyncStore

    @classmethod
    def connect(cls, configuration: Source, centres: Optional[Iterable[int]] = None, prefix: str = orders.PREFIX,
                **settings: float) -> "Store":
        """The store of this configuration, a path or its members. It takes the client's port of each centre of `centres`, or of all whose host
        is this machine. `settings` are those of `Settings`. Records of orders stand under `prefix`."""
        loop = asyncio.new_event_loop()
        thread = threading.Thread(target=loop.run_forever, name="mdcc", daemon=True)
        thread.start()
        store = cls(loop, thread)
        try:
            store.inner = store.wait(AsyncStore.connect(configuration, centres, prefix, **settings))
        except BaseException:
            store.stop()
            raise
        return store

    def wait(self, work: Coroutine[Any, Any, T]) -> T:
        """Has the loop do this, and waits for it."""
        return asyncio.run_coroutine_threadsafe(work, self.loop).result()

    def stop(self) -> None:
        self.loop.call_soon_threadsafe(self.loop.stop)
        self.thread.join()
        self.loop.close()

    def close(self) -> None:
        """Gives the ports free. What is open stays open at the centres."""
        self.wait(self.inner.close())
        self.stop()

    def __enter__(self) -> "Store":
        return self

    def __exit__(self, *_: object) -> None:
        self.close()

    # ---- reads

    def read(self, key: str, centre: Optional[int] = None) -> Record:
        """What a centre shows of a key. It may be old: another centre may know more. Raises Unanswered."""
        return self.wait(self.inner.read(key, centre))

    def read_many(self, keys: Sequence[str], centre: Optional[int] = None) -> List[Record]:
        """What one centre shows of several keys, which are asked at once. Two of them may show half of an order."""
        return self.wait(self.inner.read_many(keys, centre))

    def read_fresh(self, key: str) -> Record:
        """What a record is now, at some moment of this call. It costs a write. A record that is nowhere is shown as not there, without such a
        promise."""
        return self.wait(self.inner.read_fresh(key))

    def read_everywhere(self, key: str) -> Dict[int, Record]:
        """What each centre that answers shows of a key."""
        return self.wait(self.inner.read_everywhere(key))

    # ---- transactions

    def transaction(self, order: Optional[str] = None, note: bytes = b"", centre: Optional[int] = None, again: bool = False) -> Transaction:
        """A transaction, to be used as a context. With an order it happens once, however often and wherever it is sent; `note` stands in the
        order's record. Without one it happens at most once too, but may end as Unknown and stay so. `again` says that this order was sent
        before, by a program that ended or at another machine, and what came of that is not known: where it is then reported as not committed,
        that holds of the earlier sending too."""
        return Transaction(self, self.inner.transaction(order, note, centre, again))

    def run(self, function: Callable[[Transaction], object], order: Optional[str] = None, note: bytes = b"",
            centre: Optional[int] = None, again: bool = False) -> Result:
        """Runs a function that makes a transaction, and commits that; both again, with new reads, where another was faster."""
        def made(inner: AsyncTransaction) -> None:
            function(Transaction(self, inner))

        async def drafting(inner: AsyncTransaction) -> None:
            # The function waits for its reads, so it runs beside the loop that does them.
            await self.loop.run_in_executor(None, made, inner)

        return self.wait(self.inner.run(drafting, order, note, centre, again))

    # ---- orders, and upkeep

    def happened(self, order: str) -> bool:
        """Whether any centre shows that an order happened. Where none does, it may still happen: `cancel` ends that."""
        return self.wait(self.inner.happened(order))

    def cancel(self, order: str) -> Result:
        """Has an order never happen. Committed says that it had happened before."""
        return self.wait(self.inner.cancel(order))

    def rebase(self, key: str) -> bool:
        """Writes a record over itself, so that it takes 64 more adds and may give back what was added. Says whether it has a new version."""
        return self.wait(self.inner.rebase(key))
