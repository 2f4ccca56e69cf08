"""Facts as lines, with all values: what `mdcc dump` prints, and behind it what it leaves out."""
from typing import Iterator, Optional

from . import logs
from .parts import Choice, Write, text_of_tx


def text_of_body(body: bytes) -> str:
    return body.hex() or "-"


def text_of_values(values: tuple) -> str:
    return ",".join(map(str, values))


def text_of_amounts(amounts: tuple) -> str:
    return ",".join(f"{attribute}={amount}" for attribute, amount in amounts)


def text_of_update(update) -> str:
    if isinstance(update, Write):
        body, values = update.item
        seen = ",".join(map(text_of_tx, update.seen)) or "-"
        return f"write body {text_of_body(body)} values {text_of_values(values)} seen {seen}"
    return f"add {text_of_amounts(update.amounts)}"


def text_of_write_set(choice: Choice) -> str:
    return " ".join(f"{key.decode()}@{version}" for key, version in choice.write_set)


def lines_of(kind: int, body: tuple, values: bool = True) -> Iterator[str]:
    """The lines of a fact without its number. With `values` those of a commit have a line for each of its records."""
    if kind == logs.BOOTED:
        yield f"booted {body[0]}"
    elif kind == logs.PROMISED:
        key, low, high, ballot = body
        yield f"promised {key.decode()} {low} {high} {text_of_tx(ballot)}"
    elif kind == logs.VOTED:
        yield from lines_of_vote(body, values)
    elif kind == logs.HEARD:
        tx, choices = body
        yield f"heard {text_of_tx(tx)} {'abort' if choices is None else 'commit'}"
        for choice in (choices or ()) if values else ():
            yield f"    {choice.key.decode()} {choice.version} {text_of_update(choice.update)}"
    elif kind == logs.FLOOR:
        yield "floor " + " ".join(map(str, body))
    else:
        key, version, (item, numbers), deltas = body
        rest = f" body {text_of_body(item)} values {text_of_values(numbers)}" if values else ""
        yield f"adopted {key.decode()} {version} adds {len(deltas)}{rest}"
        for tx, amounts in deltas if values else ():
            yield f"    {text_of_tx(tx)} add {text_of_amounts(amounts)}"


def lines_of_vote(body: tuple, values: bool) -> Iterator[str]:
    key, version, ballot, options, offered = body
    for tx, choice in options:
        line = f"voted {key.decode()} {version} {text_of_tx(ballot)} {text_of_tx(tx)} {'reject' if choice is None else 'accept'}"
        shown: Optional[Choice] = choice or offered
        if values and shown is not None:
            line += f" {text_of_update(shown.update)} of {text_of_write_set(shown)}"
        yield line
