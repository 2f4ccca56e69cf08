"""The words of a command, and what they ask for."""
from __future__ import annotations

import os
import re
from dataclasses import dataclass
from typing import Dict, List, Optional, Sequence, Tuple, Union

from mdcc.records import MOST_PARTS, checked_body, checked_key

NUMBERS = re.compile(r"-?\d{1,19}(,-?\d{1,19}){0,3}", re.ASCII)
MOST_VALUE = 2 ** 63 - 1
# A gateway shows no more at once.
MOST_KEYS = 64

Numbers = Tuple[int, ...]


class WrongWords(ValueError):
    """What was typed is no command."""


@dataclass(frozen=True)
class Get:
    """Items to be read at once."""

    keys: Tuple[str, ...]


@dataclass(frozen=True)
class Put:
    """An item to be written over what is there, or inserted; only inserted, where it `is_new`. A body of None stays as it is."""

    key: str
    values: Numbers
    body: Optional[bytes]
    is_new: bool


@dataclass(frozen=True)
class Adds:
    """Amounts to be added to items, all or none; under the name of an order they happen once."""

    order: Optional[str]
    amounts: Dict[str, Numbers]


@dataclass(frozen=True)
class Status:
    """Whether the centre, or the gateway, answers."""


@dataclass(frozen=True)
class Listing:
    """The items of a log whose keys begin so, once or each time they change."""

    prefix: str
    is_watched: bool


Command = Union[Get, Put, Adds, Status, Listing]


def numbers_of(text: str) -> Numbers:
    """Values or amounts, such as `10,-3`: one to four whole numbers."""
    if not NUMBERS.fullmatch(text):
        raise WrongWords(f"{text!r} are no numbers: one to four whole ones are wanted, such as 10,-3")
    numbers = tuple(map(int, text.split(",")))
    if any(abs(number) > MOST_VALUE for number in numbers):
        raise WrongWords(f"{text}: a number has at most 63 bits")
    return numbers


def amounts_of(text: str) -> Numbers:
    """Amounts of which one at least is not 0."""
    amounts = numbers_of(text)
    if not any(amounts):
        raise WrongWords(f"{text} adds nothing")
    return amounts


def key_of(text: str) -> str:
    """A key. Raises WrongWords where it is none."""
    try:
        return checked_key(text)
    except ValueError as error:
        raise WrongWords(str(error)) from None


def get_of(words: Sequence[str]) -> Get:
    if not 1 <= len(words) <= MOST_KEYS:
        raise WrongWords(f"get: 1 to {MOST_KEYS} keys are wanted")
    return Get(tuple(map(key_of, words)))


def put_of(words: Sequence[str]) -> Put:
    left = list(words)
    is_new = "--new" in left
    if is_new:
        left.remove("--new")
    if not 2 <= len(left) <= 3:
        raise WrongWords("put: KEY VALUES [BODY] [--new] is wanted")
    try:
        body = checked_body(os.fsencode(left[2])) if len(left) == 3 else None
    except ValueError as error:
        raise WrongWords(str(error)) from None
    return Put(key_of(left[0]), numbers_of(left[1]), body, is_new)


def add_of(words: Sequence[str]) -> Adds:
    if len(words) != 2:
        raise WrongWords("add: KEY AMOUNTS is wanted")
    return Adds(None, {key_of(words[0]): amounts_of(words[1])})


def order_of(words: Sequence[str]) -> Adds:
    if not 2 <= len(words) <= MOST_PARTS:
        raise WrongWords(f"order: NAME and 1 to {MOST_PARTS - 1} of KEY=AMOUNTS are wanted")
    amounts: Dict[str, Numbers] = {}
    for word in words[1:]:
        key, equals, text = word.partition("=")
        if not equals:
            raise WrongWords(f"order: {word!r} is not KEY=AMOUNTS")
        if key in amounts:
            raise WrongWords(f"order: {key} stands there twice")
        amounts[key_of(key)] = amounts_of(text)
    return Adds(key_of(words[0]), amounts)


def status_of(words: Sequence[str]) -> Status:
    if words:
        raise WrongWords("status: nothing follows")
    return Status()


def listing_of(words: Sequence[str], is_watched: bool = False) -> Listing:
    if len(words) > 1:
        raise WrongWords("list, watch: one PREFIX at most is wanted")
    return Listing(key_of(words[0]) if words and words[0] else "", is_watched)


COMMANDS = {"get": get_of, "put": put_of, "add": add_of, "order": order_of, "status": status_of, "list": listing_of,
            "watch": lambda words: listing_of(words, True)}


def command_of(name: str, words: List[str]) -> Command:
    """What these words ask for. Raises WrongWords."""
    return COMMANDS[name](words)
