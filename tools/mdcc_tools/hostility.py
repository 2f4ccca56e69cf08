"""Datagrams that are sent to do harm: such as no node may take for a message, and well-formed ones that say what is not so. And how
many of them a node counts as dropped."""
from collections import Counter

from . import messages
from .datagrams import DROPPED, HEAD, PIECE, WHOLE, Joiner, piece_in, pieces_of, split
from .parts import Refused

RANDOM, CUT, LENGTHENED, CHANGED, PARTIAL = "random bytes", "cut", "lengthened", "with a byte changed", "pieces of unfinished messages"


# A piece of a message whose other piece is never sent: a node takes it as often as it comes, and neither drops it nor does anything.
IDLE_PIECE = HEAD.pack(1, 1, 0, PIECE + 1, 1, 2) + b"\0"


class Drops:
    """How many of the datagrams that were sent a node counts as dropped: `certain` of them at least, where none is lost on the way, and
    `possible` more at most, which are messages for it that its step may refuse."""

    def __init__(self):
        self.joiners = Joiner(), Joiner()
        self.certain = self.possible = 0

    def note(self, datagram, is_asked):
        joined = self.joiners[is_asked].join(datagram)
        if joined[0] == DROPPED:
            self.certain += 1
        elif joined[0] == WHOLE:
            if self.is_for_step(joined[1], is_asked):
                self.possible += 1
            else:
                self.certain += 1

    def is_for_step(self, message, is_asked):
        """Whether it is a message of a kind that comes to this endpoint."""
        try:
            _, _, kind, _ = messages.decode(message)
        except Refused:
            return False
        return (kind in (messages.CLIENT_READ, messages.CLIENT_BEGIN)) if is_asked else kind < messages.CLIENT_READ

    def agree(self, dropped, lost):
        """Whether a node may have dropped so many, where so many datagrams were lost on the way to it."""
        return self.certain - lost <= dropped <= self.certain + self.possible


class Unfinished:
    """The pieces that were sent of messages of several pieces. Says whether one more could make a message whole, whatever was lost."""

    def __init__(self):
        self.sent = {}

    def would_be_whole(self, head, total, index):
        pieces = self.sent.get((head, total), 0) | 1 << index
        return pieces == (1 << pieces_of(total)) - 1

    def note(self, head, total, index):
        self.sent[head, total] = self.sent.get((head, total), 0) | 1 << index


class Garbage:
    """Datagrams of which none makes a whole message that a decoder accepts, alone or with those before it."""

    def __init__(self, random, forger, centre):
        self.random, self.forger, self.centre = random, forger, centre
        self.unfinished, self.kinds = Unfinished(), Counter()
        self.passed_over = 0
        self.makers = ((RANDOM, self.random_bytes), (CUT, self.cut), (LENGTHENED, self.lengthened), (CHANGED, self.changed), (PARTIAL, self.partial))

    def is_harmless(self, datagram):
        """Whether no node takes it for a message, or for the last piece of one."""
        found = piece_in(datagram)
        if isinstance(found, str):
            return True
        head, total, index, piece = found
        if total <= PIECE:
            try:
                messages.decode(piece)
            except Refused:
                return True
            return False
        if self.unfinished.would_be_whole(head, total, index):
            return False
        self.unfinished.note(head, total, index)
        return True

    def next_datagram(self, is_asked):
        """A datagram for the centre's own endpoint, or for that of its client."""
        while True:
            name, make = self.random.choice(self.makers)
            datagram = make(is_asked)
            if len(datagram) <= 1500 and self.is_harmless(datagram):
                self.kinds[name] += 1
                return datagram
            self.passed_over += 1

    # ---- what they are made of

    def real(self, is_asked):
        """A message as a node or a client sends it, and the head of its datagrams."""
        kind = self.random.choice((messages.CLIENT_READ, messages.CLIENT_BEGIN)) if is_asked else self.random.randint(1, 12)
        message = self.forger.message(kind, self.centre)
        return messages.encode(*message), message[0], self.random.randint(1, 3), self.random.getrandbits(32)

    def real_datagram(self, is_asked):
        return self.random.choice(split(*self.real(is_asked)))

    def head_of(self, message, sender, epoch, serial):
        return HEAD.pack(sender, epoch, serial, len(message), 0, 1) + message

    def random_bytes(self, is_asked):
        size = self.random.choice((0, 1, 16, 17, 1400, 1401, 1500, self.random.randint(0, 200), self.random.randint(0, 1400)))
        data = self.random.randbytes(size)
        if self.random.random() < 0.5:
            return data
        message = data[:PIECE] or b"\0"
        # Some of them begin as a message does.
        if self.random.random() < 0.5:
            message = (bytes((1, self.random.randint(1, 15), self.random.randint(1, 9), self.centre)) + message)[:PIECE]
        return self.head_of(message, self.random.randint(1, 9) + (16 if is_asked else 0), self.random.randint(1, 3), self.random.getrandbits(32))

    def cut(self, is_asked):
        if self.random.random() < 0.5:
            datagram = self.real_datagram(is_asked)
            return datagram[:self.random.randrange(len(datagram))]
        message, *head = self.real(is_asked)
        message = message[:min(PIECE, self.random.randint(1, len(message) - 1))]
        return self.head_of(message, *head)

    def lengthened(self, is_asked):
        more = self.random.randbytes(self.random.randint(1, 60))
        if self.random.random() < 0.5:
            return self.real_datagram(is_asked) + more
        message, *head = self.real(is_asked)
        return self.head_of((message + more)[:PIECE], *head)

    def changed(self, is_asked):
        datagram = bytearray(self.real_datagram(is_asked))
        datagram[self.random.randrange(len(datagram))] = self.random.randrange(256)
        return bytes(datagram)

    def partial(self, is_asked):
        """A piece of a message of several, of which one is never sent."""
        # Most say that their message is as long as one may be, so that the table of pieces is soon as large as it gets.
        total = self.random.choice((1384, self.random.randint(1384, messages.MOST_BYTES)) + 4 * (messages.MOST_BYTES,))
        count = pieces_of(total)
        index = self.random.randrange(count - 1)
        sender = self.random.randint(1, 9) + (16 if is_asked else 0)
        head = HEAD.pack(sender, self.random.randint(1, 3), self.random.getrandbits(32), total, index, count)
        return head + self.random.randbytes(8) * (PIECE // 8) + self.random.randbytes(PIECE % 8)


class Forged:
    """Well-formed messages of every kind, that no node and no client sent."""

    def __init__(self, random, forger, centre):
        self.random, self.forger, self.centre, self.kinds, self.passed_over = random, forger, centre, Counter(), 0

    def next_datagram(self, is_asked):
        kind = self.random.choice((messages.CLIENT_READ, messages.CLIENT_BEGIN)) if is_asked else self.random.randint(1, len(messages.KINDS))
        message = self.forger.message(kind, self.centre)
        datagrams = split(messages.encode(*message), message[0], self.random.randint(1, 3), self.random.getrandbits(32))
        if len(datagrams) > 1:
            return self.next_datagram(is_asked)
        self.kinds[messages.KINDS[kind - 1]] += 1
        return datagrams[0]
