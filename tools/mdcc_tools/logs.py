"""Facts, and the log of a centre: two areas, each a file, of which the one with the greater generation counts.

A fact is (kind, body), the body a tuple in the order of its bytes.
"""
import os

from .messages import MOST_BYTES, read_give, read_outcome, write_give, write_outcome
from .parts import (
    U8, U32, U64, Refused, read_ballot, read_choice_of, read_number, read_numbers, read_options, read_u8_within, read_versioned,
    write_ballot, write_choice, write_options, write_tx, write_versioned)

BOOTED, PROMISED, VOTED, HEARD, ADOPTED, FLOOR = range(1, 7)
FIRST, SECOND = b"MDCCLOG1", b"MDCCLOG2"


class NotALog(Exception):
    """The bytes are no log, at an offset."""


def read_booted(data, at):
    epoch, after = read_number(U32, data, at)
    if epoch == 0:
        raise Refused("Range", at)
    return (epoch,), after


def read_promised(data, at):
    (key, low), at = read_versioned(data, at)
    high, at = read_number(U64, data, at)
    ballot, at = read_ballot(data, at)
    return (key, low, high, ballot), at


def read_vote(data, at):
    (key, version), at = read_versioned(data, at)
    ballot, at = read_ballot(data, at)
    options, at = read_options(key, version, data, at)
    tag, at = read_u8_within(at, 0, 1, data, at)
    offered = None
    if tag == 1:
        offered, at = read_choice_of(key, version, data, at)
    return (key, version, ballot, options, offered), at


READERS = (read_booted, read_promised, read_vote, read_outcome, read_give, read_numbers)


def write_vote(body):
    key, version, ballot, options, offered = body
    end = b"\0" if offered is None else b"\1" + write_choice(offered)
    return write_versioned((key, version)) + write_ballot(ballot) + write_options(options) + end


WRITERS = (
    lambda body: U32.pack(body[0]),
    lambda body: write_versioned(body[:2]) + U64.pack(body[2]) + write_ballot(body[3]),
    write_vote,
    write_outcome,
    write_give,
    write_tx,
)


def encode_fact(kind, body):
    return U8.pack(kind) + WRITERS[kind - 1](body)


def decode_fact(data):
    kind, at = read_u8_within(0, 1, 6, data, 0)
    body, after = READERS[kind - 1](data, at)
    if after != len(data):
        raise Refused("Trailing", after)
    return kind, body


# ---- logs

def write_log(payloads):
    """A log of one area of the first format, with a frame for each payload and a closed gate."""
    return FIRST + b"".join(b"\1" + U32.pack(len(payload)) + payload for payload in payloads) + b"\0"


def write_area(generation, records, payloads):
    """An area of the second format, as a checkpoint leaves it with these records, and a frame for each payload behind it."""
    body = b"".join(U32.pack(len(record)) + record for record in records)
    frames = b"".join(b"\1" + U32.pack(len(payload)) + payload for payload in payloads)
    return SECOND + b"\1" + U64.pack(generation) + U64.pack(len(records)) + body + frames + b"\0"


def read_frames(data, at):
    """The payloads of the frames from the first gate on, up to a gate that is not open."""
    payloads = []
    while data[at] == 1:
        if at + 5 > len(data):
            raise NotALog(at)
        length = U32.unpack_from(data, at + 1)[0]
        after = at + 5 + length
        if length > MOST_BYTES or after >= len(data):
            raise NotALog(at)
        payloads.append(data[at + 5:after])
        at = after
    return payloads


def read_records(data):
    """The payloads of an area of the second format."""
    if len(data) < 25:
        raise NotALog(len(data))
    count, at = U64.unpack_from(data, 17)[0], 25
    payloads = []
    for _ in range(count):
        if at + 4 > len(data):
            raise NotALog(at)
        length = U32.unpack_from(data, at)[0]
        after = at + 4 + length
        if length > MOST_BYTES or after > len(data):
            raise NotALog(at)
        payloads.append(data[at + 4:after])
        at = after
    if at >= len(data):
        raise NotALog(at)
    return payloads + read_frames(data, at)


def generation_of(data, area):
    """The generation of an area that is whole, else None."""
    if len(data) > 9 and area == 0 and data[:8] == FIRST:
        return 0
    if len(data) > 9 and data[:8] == SECOND and data[8] == 1:
        return U64.unpack_from(data, 9)[0] if len(data) >= 17 else 0
    return None


def read_areas(first, second):
    """The payloads of a log whose two areas have these bytes."""
    generations = generation_of(first, 0), generation_of(second, 1)
    if generations == (None, None):
        if len(first) > 9:
            raise NotALog(0)
        return []
    if None not in generations and generations[0] == generations[1]:
        raise NotALog(9)
    data = first if generations[1] is None or (generations[0] is not None and generations[0] > generations[1]) else second
    return read_frames(data, 8) if data[:8] == FIRST else read_records(data)


def read_file(path):
    try:
        with open(path, "rb") as file:
            return file.read()
    except FileNotFoundError:
        return b""


def read_payloads(folder, centre):
    """The payloads of the log of a centre, oldest first."""
    return read_areas(*(read_file(os.path.join(folder, f"mdcc-{centre}.{end}")) for end in ("log", "alt")))


def read_log(folder, centre):
    """The facts of the log of a centre, oldest first."""
    return [decode_fact(payload) for payload in read_payloads(folder, centre)]


def cells_of(payload):
    """How many cells a node keeps a fact in."""
    return -(-len(payload) // 60)
