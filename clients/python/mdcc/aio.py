"""The store for programs that use asyncio."""
from __future__ import annotations

import os
from types import TracebackType
from typing import Awaitable, Callable, Dict, Iterable, List, Mapping, Optional, Sequence, Type, Union

from . import orders
from .configuration import Configuration, read_configuration
from .connection import Connection
from .draft import Draft
from .engine import Engine, Settings
from .records import Record, checked_key
from .results import NotCommitted, Result

Source = Union[str, os.PathLike, Mapping[str, object], Configuration]


class AsyncTransaction(Draft):
    """A transaction that is begun at the end of its block:

        async with store.transaction(order="77") as t:
            cup = await t.read("cup")
            t.add(cup, -1)

    Where the block ends with an error, nothing is begun. Where nothing was committed, NotCommitted is raised at its end. `result` has what
    came of it."""

    def __init__(self, engine: Engine, order: Optional[str], note: bytes, centre: Optional[int], prefix: str, again: bool = False):
        super().__init__(engine.configuration, order, note, prefix)
        self.engine, self.centre, self.again = engine, centre, again
        self.result: Optional[Result] = None

    async def read(self, key: str) -> Record:
        """What a centre shows of a key; later reads of this transaction ask the same centre."""
        return (await self.read_many((key,)))[0]

    async def read_many(self, keys: Sequence[str]) -> List[Record]:
        """The same of several keys at once."""
        shown = await self.engine.read([checked_key(key) for key in keys], self.centre)
        for record in shown.values():
            self.centre = record.centre
            self.reads[record.key] = record
        return [shown[key] for key in keys]

    async def commit(self) -> Result:
        """Begins it, again where another was faster, and gives what came of it."""
        is_first = True

        async def drafting(centre: int) -> Draft:
            nonlocal is_first
            if not is_first:
                self.reads = {}
            self.centre, is_first = centre, False
            return self

        self.result = await self.engine.commit(drafting, self.order, self.centre, self.again)
        return self.result

    async def __aenter__(self) -> "AsyncTransaction":
        return self

    async def __aexit__(self, kind: Optional[Type[BaseException]], error: Optional[BaseException],
                        trace: Optional[TracebackType]) -> None:
        if kind is None:
            result = await self.commit()
            if not result.is_committed:
                raise NotCommitted(result)


class AsyncStore:
    """A cluster, as its client in an asyncio loop. Make one by `connect`."""

    def __init__(self, engine: Engine, prefix: str):
        self.engine, self.prefix = engine, prefix

    @classmethod
    async def connect(cls, configuration: Source, centres: Optional[Iterable[int]] = None, prefix: str = orders.PREFIX,
                      **settings: float) -> "AsyncStore":
        """The store of this configuration, a path or its members. It takes the client's port of each centre of `centres`, or of all whose host
        is this machine. `settings` are those of `Settings`. Records of orders stand under `prefix`."""
        read = read_configuration(configuration)
        chosen = Settings(**settings)  # type: ignore[arg-type]
        connection = Connection(read, chosen.again, chosen.wait)
        await connection.open(centres)
        return cls(Engine(read, connection, chosen), prefix)

    async def __aenter__(self) -> "AsyncStore":
        return self

    async def __aexit__(self, *_: object) -> None:
        await self.close()

    async def close(self) -> None:
        """Gives the ports free. What is open stays open at the centres."""
        await self.engine.connection.close()

    # ---- reads

    async def read(self, key: str, centre: Optional[int] = None) -> Record:
        """What a centre shows of a key. It may be old: another centre may know more. Raises Unanswered."""
        return (await self.read_many((key,), centre))[0]

    async def read_many(self, keys: Sequence[str], centre: Optional[int] = None) -> List[Record]:
        """What one centre shows of several keys, which are asked at once. Two of them may show half of an order."""
        shown = await self.engine.read([checked_key(key) for key in keys], centre)
        return [shown[key] for key in keys]

    async def read_fresh(self, key: str) -> Record:
        """What a record is now, at some moment of this call. It costs a write. A record that is nowhere is shown as not there, without such a
        promise."""
        return await self.engine.fresh(checked_key(key))

    async def read_everywhere(self, key: str) -> Dict[int, Record]:
        """What each centre that answers shows of a key."""
        return await self.engine.everywhere(checked_key(key))

    # ---- transactions

    def transaction(self, order: Optional[str] = None, note: bytes = b"", centre: Optional[int] = None,
                    again: bool = False) -> AsyncTransaction:
        """A transaction, to be used as a context. With an order it happens once, however often and wherever it is sent; `note` stands in the
        order's record. Without one it happens at most once too, but may end as Unknown and stay so. `again` says that this order was sent
        before, by a program that ended or at another machine, and what came of that is not known: where it is then reported as not committed,
        that holds of the earlier sending too."""
        return AsyncTransaction(self.engine, order, note, centre, self.prefix, again)

    async def run(self, function: Callable[[AsyncTransaction], Awaitable[object]], order: Optional[str] = None, note: bytes = b"",
                  centre: Optional[int] = None, again: bool = False) -> Result:
        """Runs a function that makes a transaction, and commits that; both again, with new reads, where another was faster."""
        async def drafting(at: int) -> Draft:
            transaction = self.transaction(order, note, at)
            transaction.is_made_anew = True
            await function(transaction)
            return transaction

        return await self.engine.commit(drafting, self.key_of(order), centre, again)

    def key_of(self, order: Optional[str]) -> Optional[str]:
        """Under which key an order's record stands."""
        return None if order is None else checked_key(self.prefix + order)

    # ---- orders, and upkeep

    async def happened(self, order: str) -> bool:
        """Whether any centre shows that an order happened. Where none does, it may still happen: `cancel` ends that."""
        found = await self.engine.everywhere(checked_key(self.prefix + order))
        return any(orders.mark_of(record) == orders.DONE for record in found.values())

    async def cancel(self, order: str) -> Result:
        """Has an order never happen. Committed says that it had happened before."""
        return await self.engine.cancel(checked_key(self.prefix + order))

    async def rebase(self, key: str) -> bool:
        """Writes a record over itself, so that it takes 64 more adds and may give back what was added. Says whether it has a new version."""
        record = await self.read(key)
        return await self.engine.rebase(record, self.engine.now() + self.engine.settings.patience)
