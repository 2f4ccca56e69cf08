"""What answers clients as the nodes of a cluster would, in one thread and over one state, so that a test decides what goes wrong.

Its bytes are read and written by tools/mdcc_tools, which shares no code with the client.
"""
import os
import select
import socket
import sys
import threading

TOP = os.path.normpath(os.path.join(os.path.dirname(os.path.abspath(__file__)), "..", "..", ".."))
sys.path.insert(1, os.path.join(TOP, "tools"))
from mdcc_tools import datagrams, messages
from mdcc_tools.parts import Refused, Write


def free_port():
    """A port from which on those of a small cluster are free, as far as one look tells."""
    for port in range(21000 + os.getpid() % 400 * 50, 60000, 50):
        try:
            for number in (17, 18, 19, 20, 21, 33, 34, 35, 36, 37):
                with socket.socket(socket.AF_INET, socket.SOCK_DGRAM) as tried:
                    tried.bind(("127.0.0.1", port + number))
        except OSError:
            continue
        return port
    raise OSError("no free ports")


class StandIn(threading.Thread):
    """One state, asked at the ports of several centres.

    `silent` has the centres that take nothing, `mute` those that take and do not answer. `lose` loses every so manieth request. `aborts` is
    how many transactions abort next. A record takes 64 adds a version.

    `gather` has the copies of the next begin lie at the centre until so many have come. Then the first `busy` of them are refused as busy, and the
    others are taken; of all answers to them `told` are sent."""

    def __init__(self, centres=3, bounds=((0, 1000),)):
        super().__init__(daemon=True)
        self.members = {"centres": centres, "hosts": ["127.0.0.1"] * centres, "port": free_port(), "bounds": [list(pair) for pair in bounds],
                        "classic": centres // 2 + 1, "fast": centres, "gamma": 100, "wait": 20}
        self.items, self.begun, self.taken = {}, {}, 0
        self.silent, self.mute, self.lose, self.aborts = set(), set(), 0, 0
        self.gather, self.busy, self.told, self.lying = 0, 1, 99, []
        self.epochs, self.sequence, self.sent = {}, {}, 0
        self.sockets, self.ending = {}, threading.Event()
        self.joiner = datagrams.Joiner()
        for centre in range(1, centres + 1):
            bound = socket.socket(socket.AF_INET, socket.SOCK_DGRAM)
            bound.bind(("127.0.0.1", self.members["port"] + 16 + centre))
            self.sockets[bound.fileno()] = bound, centre

    def __enter__(self):
        self.start()
        return self

    def __exit__(self, *_):
        self.ending.set()
        self.join()

    def restart(self, centre):
        """The centre knows no serials of before."""
        self.epochs[centre] = self.epochs.get(centre, 1) + 1
        self.sequence[centre] = 0
        self.begun = {asked: tx for asked, tx in self.begun.items() if asked[0] != centre}

    def run(self):
        poll = select.poll()
        for descriptor in self.sockets:
            poll.register(descriptor, select.POLLIN)
        while not self.ending.is_set():
            for descriptor, _ in poll.poll(20):
                bound, centre = self.sockets[descriptor]
                self.take(bound, centre, bound.recv(2048))
        for bound, _ in self.sockets.values():
            bound.close()

    def take(self, bound, centre, datagram):
        self.taken += 1
        joined = self.joiner.join(datagram)
        if centre in self.silent or (self.lose and self.taken % self.lose == 0) or joined[0] != datagrams.WHOLE:
            return
        try:
            _, _, kind, (serial, rest) = messages.decode(joined[1])
        except Refused as refused:
            raise AssertionError(f"{joined[1].hex()} is no message: {refused}") from refused
        answers = [self.shown(rest)] if kind == messages.CLIENT_READ else self.begins(centre, serial, rest)
        for answer in answers:
            self.sent += 1
            message = messages.encode(centre, 16 + centre, messages.CLIENT_ANSWER, (serial, answer))
            if centre not in self.mute:
                for piece in datagrams.split(message, centre, self.epochs.get(centre, 1), self.sent):
                    bound.sendto(piece, ("127.0.0.1", self.members["port"] + 32 + centre))

    # ---- the state

    def values(self, key):
        """The body and the numbers of a record with all adds."""
        _, (body, values), deltas = self.items[key]
        numbers = list(values)
        for amounts in deltas.values():
            for number, amount in amounts:
                numbers[number - 1] += amount
        return body, tuple(numbers)

    def shown(self, key):
        if key not in self.items:
            return messages.READ, key, 0, None, (), 0
        version, _, deltas = self.items[key]
        return messages.READ, key, version, self.values(key), tuple(sorted(deltas)), int(len(deltas) >= 32)

    def refusal(self, part):
        version, _, deltas = self.items.get(part.key, (0, None, {}))
        if isinstance(part.update, Write):
            if (part.version, part.update.seen) != (version, tuple(sorted(deltas))):
                return messages.BEGIN_REFUSED, part.key, 1, version, tuple(sorted(deltas))
        elif part.version != version:
            return messages.BEGIN_REFUSED, part.key, 2, version
        elif version == 0:
            return messages.BEGIN_REFUSED, part.key, 3
        return None

    def has_room(self, part):
        """Whether an add keeps within bounds by what was written alone: what others added gives no room, and 64 adds are the most."""
        if isinstance(part.update, Write):
            return True
        _, (_, base), deltas = self.items[part.key]
        for number, amount in part.update.amounts:
            low, high = self.members["bounds"][number - 1]
            same = sum(other for amounts in deltas.values() for at, other in amounts if at == number and (other < 0) == (amount < 0))
            if not low <= base[number - 1] + same + amount <= high:
                return False
        return len(deltas) < 64

    def begins(self, centre, serial, parts):
        """The answers to a copy of a begin, or to all that lay at the centre."""
        if not self.gather or parts[0].key == b"probe":
            return self.begin(centre, serial, parts)
        self.lying.append((centre, serial, parts))
        if len(self.lying) < self.gather:
            return []
        lying, self.gather, self.lying = self.lying, 0, []
        answers = [(messages.BEGIN_REFUSED, parts[0].key, 5)] * self.busy
        for copy in lying[self.busy:]:
            answers += self.begin(*copy)
        return answers[:self.told]

    def begin(self, centre, serial, parts):
        if (centre, serial) in self.begun:
            return [(messages.HEARD, *self.begun[centre, serial])]
        for part in parts:
            if not isinstance(part.update, Write) and any(abs(amount) > 10 ** 16 for _, amount in part.update.amounts):
                return [(messages.DRAFT, 6)]
        for part in parts:
            refusal = self.refusal(part)
            if refusal:
                return [refusal]
        self.sequence[centre] = self.sequence.get(centre, 0) + 1
        tx = (centre, self.epochs.get(centre, 1), self.sequence[centre])
        commits = self.aborts == 0 and all(map(self.has_room, parts))
        self.aborts = max(0, self.aborts - 1)
        for part in parts if commits else ():
            if isinstance(part.update, Write):
                self.items[part.key] = part.version + 1, part.update.item, {}
            else:
                self.items[part.key][2][tx] = part.update.amounts
        self.begun[centre, serial] = tx, int(commits)
        return [(messages.BEGUN, tx), (messages.HEARD, tx, int(commits))]
