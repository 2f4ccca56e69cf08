"""A client of mdcc, a store of records that is replicated in several data centres.

    from mdcc import Store

    with Store.connect("cluster.json") as store:
        with store.transaction(order="77") as t:
            cup = t.read("cup")
            t.add(cup, -1)

`Store` has plain calls, for one thread or many; `AsyncStore` has the same for asyncio. docs/APPLICATIONS.md of the repository has the
patterns, docs/CLIENTS.md the bytes.
"""
from .aio import AsyncStore, AsyncTransaction
from .configuration import Configuration, ConfigurationError, read_configuration
from .engine import Settings
from .records import Item, Record, Tx
from .results import Aborted, Committed, NotCommitted, PortTaken, Refused, Result, Unanswered, Unknown, Why
from .store import Store, Transaction

__all__ = ["Aborted", "AsyncStore", "AsyncTransaction", "Committed", "Configuration", "ConfigurationError", "Item", "NotCommitted",
           "PortTaken", "Record", "Refused", "Result", "Settings", "Store", "Transaction", "Tx", "Unanswered", "Unknown", "Why",
           "read_configuration"]
