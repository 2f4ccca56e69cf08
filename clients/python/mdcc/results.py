"""What comes of a transaction: committed, aborted, refused or unknown, and the errors that go with them."""
from __future__ import annotations

from dataclasses import dataclass
from enum import Enum
from typing import Optional, Union

from .records import Tx


class Why(Enum):
    """Why nothing came of a transaction, as far as a look at its records afterwards tells. The store itself gives no cause of an abort."""

    BOUNDS = "a number would leave its bounds, as when nothing is left to sell"
    MOVED = "a record was written by another since it was read"
    MISSING = "a record is not there"
    THERE = "a record that was to be inserted is there"
    BEHIND = "the centres know different adds of a record, and no one of them knows all"
    CANCELLED = "the order is cancelled"
    DRAFT = "the updates are no transaction, as with more than eight records"
    BUSY = "the centre has too many open transactions"
    CONTENTION = "others were faster, each time"


@dataclass(frozen=True)
class Committed:
    """It happened, whole, and stays so. `tx` is the transaction; None where the order's record shows that it happened before."""

    tx: Optional[Tx]
    attempts: int

    is_committed = True


@dataclass(frozen=True)
class Aborted:
    """It was begun, perhaps several times, and none of these transactions happened or can happen any more. It may be tried again. Of an order that
    others send too, it says that no centre that answered shows that it happened."""

    why: Why
    key: Optional[str]
    attempts: int

    is_committed = False


@dataclass(frozen=True)
class Refused:
    """Nothing was begun, and nothing will be, so nothing happened. It may be tried again, where `why` says that something else may come of it."""

    why: Why
    key: Optional[str]
    attempts: int

    is_committed = False


@dataclass(frozen=True)
class Unknown:
    """It happened or may still happen, or it did not: no answer came in time, or only the refusal of one sending of several, of which another may
    still be begun. With an order, `happened`, the same transaction again, or `cancel` finds out."""

    order: Optional[str]
    attempts: int

    is_committed = False


Result = Union[Committed, Aborted, Refused, Unknown]


class NotCommitted(Exception):
    """A transaction did not commit, or it is not known whether it did: `result` says which."""

    def __init__(self, result: Result):
        super().__init__(str(result))
        self.result = result


class Unanswered(Exception):
    """No centre answered a read in time."""


class PortTaken(OSError):
    """The port of a centre's client has another process: each centre has one client process."""
