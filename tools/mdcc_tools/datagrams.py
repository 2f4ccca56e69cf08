"""Messages in datagrams of at most 1,400 bytes, and the table in which pieces wait for the rest of their message."""
import struct
from collections import OrderedDict

from .messages import MOST_BYTES, is_endpoint

HEAD = struct.Struct("<BIIIHH")
PIECE = 1383
ENTRIES = 64
HEADER, COUNT, DISAGREES = "Header", "Count", "Disagrees"
WHOLE, KEPT, REPEATED, DROPPED = "Whole", "Kept", "Repeated", "Dropped"


def pieces_of(total):
    return -(-total // PIECE)


def split(message, sender, epoch, serial):
    """The datagrams of a message."""
    total = len(message)
    count = pieces_of(total)
    return [HEAD.pack(sender, epoch, serial, total, index, count) + message[index * PIECE:(index + 1) * PIECE] for index in range(count)]


def piece_in(datagram):
    """Whose piece it is ((sender, epoch, serial), total, index, bytes), or why it is dropped."""
    if len(datagram) < HEAD.size:
        return HEADER
    sender, epoch, serial, total, index, count = HEAD.unpack_from(datagram)
    if not is_endpoint(sender):
        return HEADER
    if not 1 <= total <= MOST_BYTES or count != pieces_of(total) or index >= count:
        return COUNT
    piece = datagram[HEAD.size:]
    if len(piece) != (PIECE if index + 1 < count else total - PIECE * (count - 1)):
        return COUNT
    return (sender, epoch, serial), total, index, piece


class Joiner:
    """Messages of which some pieces have come, at most 64: one more takes the place of the least recently used."""

    def __init__(self, entries=ENTRIES):
        self.entries, self.partial = entries, OrderedDict()

    def join(self, datagram):
        """(Whole, message), (Kept,), (Repeated,) or (Dropped, cause)."""
        found = piece_in(datagram)
        if isinstance(found, str):
            return DROPPED, found
        head, total, index, piece = found
        if head not in self.partial:
            if total <= PIECE:
                return WHOLE, piece
            self.partial[head] = (total, {index: piece})
            if len(self.partial) > self.entries:
                self.partial.popitem(last=False)
            return (KEPT,)
        known, pieces = self.partial[head]
        if known != total:
            return DROPPED, DISAGREES
        self.partial.move_to_end(head)
        if index in pieces:
            return (REPEATED,)
        pieces[index] = piece
        if len(pieces) < pieces_of(total):
            return (KEPT,)
        del self.partial[head]
        return WHOLE, b"".join(pieces[index] for index in sorted(pieces))
