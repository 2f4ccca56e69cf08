"""What a command is answered with: a status, and lines that say the same to people."""
from __future__ import annotations

import json
from typing import NamedTuple, Optional, Tuple

from .words import Adds, Command, Put

# It happened or was found; it was begun and did not happen, or is not there; wrong words; nothing was begun; not known.
DONE, NOT, WORDS, REFUSED, UNKNOWN = range(5)


class Answer(NamedTuple):
    """The status of the program, lines for its output, and lines for its error stream."""

    status: int
    lines: Tuple[str, ...] = ()
    said: Tuple[str, ...] = ()


def text_of_body(body: bytes) -> str:
    """A body as a text in quotation marks; `-` where it is empty, hexadecimal where it is no text."""
    if not body:
        return "-"
    try:
        text = body.decode("utf-8")
    except UnicodeDecodeError:
        return "0x" + body.hex()
    return json.dumps(text, ensure_ascii=not text.isprintable())


def line_of_item(key: str, version: int, values: Tuple[int, ...], body: bytes) -> str:
    """An item as a line."""
    return f"{key} version {version} values {','.join(map(str, values))} body {text_of_body(body)}"


def committed(tx: Optional[str]) -> Answer:
    """It happened, as this transaction; None where the order's record shows that it did before."""
    return Answer(DONE, (f"committed {tx}" if tx else "committed before, under the name of this order",))


def not_done(status: int, cause: str, key: Optional[str] = None, advice: str = "") -> Answer:
    """Nothing happened: it was begun and aborted, or refused."""
    name = "aborted" if status == NOT else "refused"
    said = f"{name}: {f'{key}: ' if key else ''}{cause}"
    return Answer(status, (), (said, advice) if advice else (said,))


def unknown(command: Command, cause: str) -> Answer:
    """It happened, or may still happen, or it did not; with how to find out."""
    return Answer(UNKNOWN, (), (f"unknown: {cause}; it happened, or may still happen, or it did not", advice_for(command)))


def advice_for(command: Command) -> str:
    """How to find out what came of a command."""
    if isinstance(command, Adds) and command.order is not None:
        return (f"give the same `order {command.order} ..` again, here or at another centre, until it is committed or aborted: it happens at most "
                "once, and that holds of all its sendings")
    if isinstance(command, Adds):
        return (f"`get {' '.join(command.amounts)}` shows an add once the centre has heard of it; do not give it again, it may happen twice: "
                "what is to be repeated safely is an `order`")
    if isinstance(command, Put):
        return f"`get {command.key}` shows it once the centre has heard of it; given again it is written over whatever stands there then"
    return "ask again"
