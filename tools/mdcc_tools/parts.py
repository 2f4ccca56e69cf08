"""The parts of messages and facts, as bytes.

Numbers are little-endian and of fixed width. Values: a key is bytes; a transaction is (centre, epoch, sequence), a ballot
(round, epoch, centre), an item (body, values); an update is Write(item, seen) or Add(amounts); a marked transaction is
(transaction, choice), where the choice is None for a rejection. Each reader takes the bytes and an offset and gives the value
and the offset after it, or raises Refused with the cause and the offset of the first fault. A number is asked for its range once it is
read, and an order, or an equality with what stands around it, once the identifier or number of which it speaks is read: `check` of a
reader is called with that at once.
"""
import struct
from typing import NamedTuple, Optional

KEY_BYTES = frozenset(b"abcdefghijklmnopqrstuvwxyzABCDEFGHIJKLMNOPQRSTUVWXYZ0123456789_./-")
FAST = (0, 0, 0)
MOST_BODY, MOST_VALUES, MOST_SEEN, MOST_PARTS = 128, 4, 64, 8

U16, U32, U64, I64 = struct.Struct("<H"), struct.Struct("<I"), struct.Struct("<Q"), struct.Struct("<q")
TX, BALLOT = struct.Struct("<BII"), struct.Struct("<IIB")


class Refused(Exception):
    """The bytes are not of the grammar: Truncated, Trailing, Kind, Range or NotCanonical, at an offset (None for Kind)."""

    def __init__(self, cause, offset=None):
        super().__init__(cause, offset)
        self.cause, self.offset = cause, offset


class Write(NamedTuple):
    item: tuple
    seen: tuple


class Add(NamedTuple):
    amounts: tuple


class Choice(NamedTuple):
    tx: tuple
    key: bytes
    version: int
    update: object
    write_set: tuple


class Part(NamedTuple):
    key: bytes
    version: int
    update: object


# ---- reading

def read_number(form, data, at):
    after = at + form.size
    if after > len(data):
        raise Refused("Truncated", len(data))
    return form.unpack_from(data, at)[0], after


def read_u8(data, at):
    if at >= len(data):
        raise Refused("Truncated", len(data))
    return data[at], at + 1


def read_u8_within(part, low, high, data, at):
    value, after = read_u8(data, at)
    if not low <= value <= high:
        raise Refused("Range", part)
    return value, after


def read_run(count, data, at):
    after = at + count
    if after > len(data):
        raise Refused("Truncated", len(data))
    return data[at:after], after


def is_free(_):
    """What is asked where nothing is asked."""


def same(part, expected):
    """Asks that it is the one which the part at this offset must have."""
    def check(value):
        if value != expected:
            raise Refused("NotCanonical", part)
    return check


def read_key(data, at, check=is_free):
    part = at
    count, at = read_u8_within(part, 1, 32, data, at)
    # Of bytes that end too early, one that no key has comes first.
    for byte in data[at:at + count]:
        if byte not in KEY_BYTES:
            raise Refused("Range", part)
    key, at = read_run(count, data, at)
    key = bytes(key)
    check(key)
    return key, at


def read_numbers(data, at):
    """A centre, an epoch and a number of a transaction: as an identifier has them, but each is refused at its own place."""
    centre, epoch_at = read_u8_within(at, 1, 9, data, at)
    epoch, sequence_at = read_number(U32, data, epoch_at)
    if epoch == 0:
        raise Refused("Range", epoch_at)
    sequence, after = read_number(U32, data, sequence_at)
    if sequence == 0:
        raise Refused("Range", sequence_at)
    return (centre, epoch, sequence), after


def read_tx(data, at, check=is_free):
    part = at
    centre, at = read_u8_within(part, 1, 9, data, at)
    epoch, at = read_number(U32, data, at)
    if epoch == 0:
        raise Refused("Range", part)
    sequence, at = read_number(U32, data, at)
    if sequence == 0:
        raise Refused("Range", part)
    tx = (centre, epoch, sequence)
    check(tx)
    return tx, at


def read_ballot(data, at, least=0):
    """Where the round is 0 so are epoch and centre, elsewhere neither is."""
    part = at
    round_, at = read_number(U32, data, at)
    if round_ < least:
        raise Refused("Range", part)
    epoch, at = read_number(U32, data, at)
    if (epoch == 0) != (round_ == 0):
        raise Refused("Range", part)
    centre, at = read_u8(data, at)
    if centre > 9 or (centre == 0) != (round_ == 0):
        raise Refused("Range", part)
    return (round_, epoch, centre), at


def read_classic(data, at):
    return read_ballot(data, at, 1)


def read_ascending(count, part, read, data, at):
    """So many values of which each one's name is above the last's, of the list that begins at `part`."""
    values, last = [], [None]

    def check(name):
        if last[0] is not None and name <= last[0]:
            raise Refused("NotCanonical", part)
        last[0] = name

    for _ in range(count):
        value, at = read(data, at, check)
        values.append(value)
    return tuple(values), at


def read_item(data, at):
    part = at
    count, at = read_u8_within(part, 0, MOST_BODY, data, at)
    body, at = read_run(count, data, at)
    count, at = read_u8_within(part, 1, MOST_VALUES, data, at)
    values = []
    for _ in range(count):
        value, at = read_number(I64, data, at)
        values.append(value)
    return (bytes(body), tuple(values)), at


def read_seen(data, at):
    count, after = read_u8_within(at, 0, MOST_SEEN, data, at)
    return read_ascending(count, at, read_tx, data, after)


def read_amounts(data, at):
    part = at

    def read_amount(data, at, check):
        attribute, at = read_u8_within(part, 1, 4, data, at)
        check(attribute)
        amount, at = read_number(I64, data, at)
        if amount == 0:
            raise Refused("Range", part)
        return (attribute, amount), at

    count, at = read_u8_within(part, 1, 4, data, at)
    return read_ascending(count, part, read_amount, data, at)


def read_update(data, at):
    tag, after = read_u8_within(at, 1, 2, data, at)
    if tag == 1:
        item, after = read_item(data, after)
        seen, after = read_seen(data, after)
        return Write(item, seen), after
    amounts, after = read_amounts(data, after)
    return Add(amounts), after


def read_versioned(data, at, check=is_free, check_version=is_free):
    key, at = read_key(data, at, check)
    version, at = read_number(U64, data, at)
    check_version(version)
    return (key, version), at


def read_write_set(data, at):
    count, after = read_u8_within(at, 1, MOST_PARTS, data, at)
    return read_ascending(count, at, read_versioned, data, after)


def read_choice(data, at, check_tx=is_free, check_key=is_free, check_version=is_free):
    tx, at = read_tx(data, at, check_tx)
    (key, version), at = read_versioned(data, at, check_key, check_version)
    update, at = read_update(data, at)
    part = at
    write_set, at = read_write_set(data, at)
    if (key, version) not in write_set:
        raise Refused("NotCanonical", part)
    return Choice(tx, key, version, update, write_set), at


def read_choice_of(key, version, data, at, check_tx=is_free):
    """A choice of this instance."""
    return read_choice(data, at, check_tx, same(at, key), same(at, version))


def read_entry(key, version, data, at, check=is_free):
    tag, after = read_u8_within(at, 0, 1, data, at)
    if tag == 0:
        tx, after = read_tx(data, after, check)
        return (tx, None), after
    choice, after = read_choice_of(key, version, data, after, check)
    return (choice.tx, choice), after


def read_options(key, version, data, at):
    count, after = read_number(U32, data, at)
    return read_ascending(count, at, lambda data, at, check: read_entry(key, version, data, at, check), data, after)


def read_delta(data, at, check=is_free):
    tx, at = read_tx(data, at, check)
    amounts, at = read_amounts(data, at)
    return (tx, amounts), at


def read_part(data, at, check=is_free):
    (key, version), at = read_versioned(data, at, check)
    update, at = read_update(data, at)
    return Part(key, version, update), at


# ---- writing

def write_key(key):
    return bytes((len(key),)) + key


def write_tx(tx):
    return TX.pack(*tx)


def write_ballot(ballot):
    return BALLOT.pack(*ballot)


def write_item(item):
    body, values = item
    return bytes((len(body),)) + body + bytes((len(values),)) + struct.pack(f"<{len(values)}q", *values)


def write_list(count_form, values, write):
    return count_form.pack(len(values)) + b"".join(map(write, values))


U8 = struct.Struct("<B")


def write_seen(seen):
    return write_list(U8, seen, write_tx)


def write_amounts(amounts):
    return write_list(U8, amounts, lambda amount: struct.pack("<Bq", *amount))


def write_update(update):
    if isinstance(update, Write):
        return b"\1" + write_item(update.item) + write_seen(update.seen)
    return b"\2" + write_amounts(update.amounts)


def write_versioned(entry):
    return write_key(entry[0]) + U64.pack(entry[1])


def write_write_set(write_set):
    return write_list(U8, write_set, write_versioned)


def write_choice(choice):
    return (write_tx(choice.tx) + write_versioned((choice.key, choice.version)) + write_update(choice.update)
            + write_write_set(choice.write_set))


def write_entry(entry):
    tx, choice = entry
    return b"\0" + write_tx(tx) if choice is None else b"\1" + write_choice(choice)


def write_options(options):
    return write_list(U32, options, write_entry)


def write_delta(delta):
    return write_tx(delta[0]) + write_amounts(delta[1])


def write_part(part):
    return write_versioned((part.key, part.version)) + write_update(part.update)


def text_of_tx(tx: Optional[tuple]):
    return ".".join(map(str, tx))
