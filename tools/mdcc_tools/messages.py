"""Messages: an envelope with one of seventeen kinds, as bytes. The first format has those from 1 to 15, the second one 16 and 17.

A message is (from, to, kind, body), the body a tuple of what the kind has, in the order of its bytes.
"""
from .parts import (
    MOST_PARTS, U8, U32, U64, Refused, read_ascending, read_ballot, read_choice, read_classic, read_delta, read_entry, read_item,
    read_key, read_number, read_numbers, read_options, read_part, read_seen, read_tx, read_u8_within, read_versioned, same, write_ballot,
    write_choice, write_delta, write_entry, write_item, write_key, write_list, write_options, write_part, write_seen, write_tx,
    write_versioned)

MOST_BYTES = 2_097_152
(PROPOSE, VOTED, ESCALATE, LEAD, PREPARE, PROMISE, ACCEPT, REFUSED, OUTCOME, ASK, SYNC_ASK, SYNC_GIVE, CLIENT_READ, CLIENT_BEGIN,
 CLIENT_ANSWER, MARK, FINISHED) = range(1, 18)
KINDS = ("Propose", "Voted", "Escalate", "Lead", "Prepare", "Promise", "Accept", "Refused", "Outcome", "Ask", "SyncAsk", "SyncGive",
         "ClientRead", "ClientBegin", "ClientAnswer", "Mark", "Finished")
# The kinds of each format.
FORMATS = {1: range(PROPOSE, CLIENT_ANSWER + 1), 2: range(MARK, FINISHED + 1)}
# causes of an escalation
BEHIND, CLASSIC, LIMIT, FULL = 1, 2, 3, 4
# answers to a client
READ, BEGUN, BEGIN_REFUSED, HEARD, DRAFT = 1, 2, 3, 4, 5
BEGIN_FAULTS = ("Stale", "Unseen", "NoItem", "Sequence", "Busy")
DRAFT_FAULTS = ("Empty", "TooMany", "RepeatedKey", "BadAttribute", "ZeroAmount", "OutOfBounds")


def is_endpoint(number):
    return 1 <= number <= 9 or 17 <= number <= 25


# ---- what several kinds and facts have

def read_through(version, data, at):
    through, after = read_number(U64, data, at)
    if through < version:
        raise Refused("Range", at)
    return through, after


def read_cause(data, at):
    tag, after = read_u8_within(at, 1, 4, data, at)
    if tag == CLASSIC:
        ballot, after = read_classic(data, after)
        return (CLASSIC, ballot), after
    if tag == LIMIT:
        quantity, after = read_u8_within(after, 0, 4, data, after)
        return (LIMIT, quantity), after
    return (tag,), after


def write_cause(cause):
    rest = {CLASSIC: write_ballot, LIMIT: U8.pack}
    return U8.pack(cause[0]) + b"".join(rest[cause[0]](value) for value in cause[1:])


def read_outcome(data, at):
    """A transaction, and its choices in order of keys, or None where it aborts."""
    tx, at = read_tx(data, at)
    tag, after = read_u8_within(at, 0, 1, data, at)
    if tag == 0:
        return (tx, None), after
    part = after
    count, after = read_u8_within(part, 1, MOST_PARTS, data, part)

    choices, after = read_ascending(count, part, lambda data, at, check: read_choice(data, at, same(at, tx), check), data, after)
    return (tx, choices), after


def write_outcome(body):
    tx, choices = body
    return write_tx(tx) + (b"\0" if choices is None else b"\1" + write_list(U8, choices, write_choice))


def read_give(data, at):
    key, at = read_key(data, at)
    version, after = read_number(U64, data, at)
    if version == 0:
        raise Refused("Range", at)
    item, after = read_item(data, after)
    part = after
    count, after = read_u8_within(part, 0, 64, data, part)
    deltas, after = read_ascending(count, part, read_delta, data, after)
    return (key, version, item, deltas), after


def write_give(body):
    key, version, item, deltas = body
    return write_versioned((key, version)) + write_item(item) + write_list(U8, deltas, write_delta)


# ---- bodies

def read_only_choice(data, at):
    choice, at = read_choice(data, at)
    return (choice,), at


def read_voted(data, at):
    (key, version), at = read_versioned(data, at)
    ballot, at = read_ballot(data, at)
    (tx, choice), at = read_entry(key, version, data, at)
    return (key, version, ballot, tx, choice), at


def read_escalate(data, at):
    (key, version), at = read_versioned(data, at)
    tx, at = read_tx(data, at)
    cause, at = read_cause(data, at)
    return (key, version, tx, cause), at


def read_prepare(data, at):
    (key, version), at = read_versioned(data, at)
    through, at = read_through(version, data, at)
    ballot, at = read_classic(data, at)
    return (key, version, through, ballot), at


def read_promise(data, at):
    (key, version, through, ballot), at = read_prepare(data, at)
    reported, at = read_ballot(data, at)
    votes, at = read_options(key, version, data, at)
    return (key, version, through, ballot, reported, votes), at


def read_accept(data, at):
    (key, version), at = read_versioned(data, at)
    ballot, at = read_classic(data, at)
    options, at = read_options(key, version, data, at)
    return (key, version, ballot, options), at


def read_refused(data, at):
    (key, version), at = read_versioned(data, at)
    ballot, at = read_classic(data, at)
    promised, at = read_ballot(data, at)
    return (key, version, ballot, promised), at


def read_ask(data, at):
    tx, at = read_tx(data, at)
    (key, version), at = read_versioned(data, at)
    return (tx, key, version), at


def read_sync_ask(data, at):
    key, at = read_key(data, at)
    return (key,), at


def read_client_read(data, at):
    serial, at = read_number(U32, data, at)
    key, at = read_key(data, at)
    return (serial, key), at


def read_client_begin(data, at):
    serial, at = read_number(U32, data, at)
    part = at
    count, at = read_u8_within(part, 1, MOST_PARTS, data, part)
    parts, at = read_ascending(count, part, read_part, data, at)
    return (serial, parts), at


def read_begin_fault(data, at):
    fault, after = read_u8_within(at, 1, 5, data, at)
    if fault == 1:
        version, after = read_number(U64, data, after)
        seen, after = read_seen(data, after)
        return (fault, version, seen), after
    if fault == 2:
        version, after = read_number(U64, data, after)
        return (fault, version), after
    return (fault,), after


def read_shown(data, at):
    key, at = read_key(data, at)
    version, at = read_number(U64, data, at)
    tag, after = read_u8_within(at, 0, 1, data, at)
    item = None
    if tag == 1:
        item, after = read_item(data, after)
    seen, at = read_seen(data, after)
    due, at = read_u8_within(at, 0, 1, data, at)
    return (READ, key, version, item, seen, due), at


def read_client_answer(data, at):
    serial, at = read_number(U32, data, at)
    tag, after = read_u8_within(at, 1, 5, data, at)
    if tag == READ:
        answer, after = read_shown(data, after)
    elif tag == BEGUN:
        tx, after = read_tx(data, after)
        answer = (BEGUN, tx)
    elif tag == BEGIN_REFUSED:
        key, after = read_key(data, after)
        fault, after = read_begin_fault(data, after)
        answer = (BEGIN_REFUSED, key) + fault
    elif tag == HEARD:
        tx, after = read_tx(data, after)
        commit, after = read_u8_within(after, 0, 1, data, after)
        answer = (HEARD, tx, commit)
    else:
        fault, after = read_u8_within(after, 1, 6, data, after)
        answer = (DRAFT, fault)
    return (serial, answer), after


def read_finished(data, at):
    tx, at = read_tx(data, at)
    return (tx,), at


def write_begin_fault(fault):
    rest = {1: lambda version, seen: U64.pack(version) + write_seen(seen), 2: U64.pack}
    return U8.pack(fault[0]) + rest.get(fault[0], lambda: b"")(*fault[1:])


def write_answer(answer):
    tag, rest = answer[0], answer[1:]
    if tag == READ:
        key, version, item, seen, due = rest
        shown = b"\0" if item is None else b"\1" + write_item(item)
        body = write_versioned((key, version)) + shown + write_seen(seen) + U8.pack(due)
    elif tag == BEGUN:
        body = write_tx(rest[0])
    elif tag == BEGIN_REFUSED:
        body = write_key(rest[0]) + write_begin_fault(rest[1:])
    elif tag == HEARD:
        body = write_tx(rest[0]) + U8.pack(rest[1])
    else:
        body = U8.pack(rest[0])
    return U8.pack(tag) + body


READERS = (read_only_choice, read_voted, read_escalate, read_only_choice, read_prepare, read_promise, read_accept, read_refused,
           read_outcome, read_ask, read_sync_ask, read_give, read_client_read, read_client_begin, read_client_answer, read_numbers,
           read_finished)

WRITERS = (
    lambda body: write_choice(body[0]),
    lambda body: write_versioned(body[:2]) + write_ballot(body[2]) + write_entry(body[3:]),
    lambda body: write_versioned(body[:2]) + write_tx(body[2]) + write_cause(body[3]),
    lambda body: write_choice(body[0]),
    lambda body: write_versioned(body[:2]) + U64.pack(body[2]) + write_ballot(body[3]),
    lambda body: write_versioned(body[:2]) + U64.pack(body[2]) + write_ballot(body[3]) + write_ballot(body[4]) + write_options(body[5]),
    lambda body: write_versioned(body[:2]) + write_ballot(body[2]) + write_options(body[3]),
    lambda body: write_versioned(body[:2]) + write_ballot(body[2]) + write_ballot(body[3]),
    write_outcome,
    lambda body: write_tx(body[0]) + write_versioned(body[1:]),
    lambda body: write_key(body[0]),
    write_give,
    lambda body: U32.pack(body[0]) + write_key(body[1]),
    lambda body: U32.pack(body[0]) + write_list(U8, body[1], write_part),
    lambda body: U32.pack(body[0]) + write_answer(body[1]),
    write_tx,
    lambda body: write_tx(body[0]),
)


def format_of(kind):
    return 1 if kind in FORMATS[1] else 2


def encode(sender, to, kind, body):
    return bytes((format_of(kind), kind, sender, to)) + WRITERS[kind - 1](body)


def decode(data):
    """The message (from, to, kind, body) that the bytes are; raises Refused where they are none."""
    for place in (0, 1):
        if place >= len(data):
            raise Refused("Truncated", len(data))
        if data[place] not in (FORMATS if place == 0 else FORMATS[data[0]]):
            raise Refused("Kind")
    for place in (2, 3):
        if place >= len(data):
            raise Refused("Truncated", len(data))
        if not is_endpoint(data[place]):
            raise Refused("Range", place)
    body, after = READERS[data[1] - 1](data, 4)
    if after != len(data):
        raise Refused("Trailing", after)
    return data[2], data[3], data[1], body
