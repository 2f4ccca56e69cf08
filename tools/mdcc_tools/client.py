"""A client of all centres: it asks over datagrams, asks again where no answer comes, and gives each answer to who asked.

It is one thread. `step` waits for answers, takes them all, and asks again what is late. A request has a serial of its own, under
which a node begins at most one transaction until it starts anew, so asking again is safe but across a restart of the node.

A node that refuses to begin notes nothing, so a refusal is of one copy of a request: another copy, which lies in the node's socket, may be begun
after it. So a refusal of what was sent several times ends it only where nothing of it can be begun any more (`Request.ends_by`). Else no more
copies are sent, the others' answers are waited for, and where none begins it, what came of it is not known, as where no answer comes.

When an answer came to its socket the system says (SO_TIMESTAMPNS), so that what a request took without this program is known too.
"""
import heapq
import itertools
import os
import select
import socket
import struct
import time
from collections import Counter, deque
from typing import Dict, Optional

from . import messages
from .datagrams import HEAD, WHOLE, Joiner, split
from .parts import Refused

# The system tells when a datagram came, in seconds and nanoseconds since 1970.
SO_TIMESTAMPNS = 35
TIMESTAMP = struct.Struct("@qq")
# An answer that a transaction was begun, and one that it was heard, without their datagram's head.
BEGUN_FORM = struct.Struct("<BBBBIBBII")
HEARD_FORM = struct.Struct("<BBBBIBBIIB")


def answer_in(message):
    """The serial and the answer in a message; None where it is no answer to a client."""
    size = len(message)
    if size == BEGUN_FORM.size and message[1] == messages.CLIENT_ANSWER and message[8] == messages.BEGUN:
        fields = BEGUN_FORM.unpack(message)
        return fields[4], (messages.BEGUN, fields[6:9])
    if size == HEARD_FORM.size and message[1] == messages.CLIENT_ANSWER and message[8] == messages.HEARD:
        fields = HEARD_FORM.unpack(message)
        return fields[4], (messages.HEARD, fields[6:9], fields[9])
    try:
        _, _, kind, body = messages.decode(message)
    except Refused:
        return None
    return body if kind == messages.CLIENT_ANSWER else None


def time_in(told):
    """When a datagram came, of what the system tells beside it; now, where it tells nothing."""
    for level, kind, data in told:
        if level == socket.SOL_SOCKET and kind == SO_TIMESTAMPNS and len(data) >= TIMESTAMP.size:
            seconds, nanoseconds = TIMESTAMP.unpack_from(data)
            return seconds + nanoseconds / 1e9
    return time.time()


class Request:
    """What was asked. `answered` is called with each answer, and with None where no end was told in time; it says whether that ends it.

    It began at `began` by the clock that only rises, and at `sent` by that of the system, which `Client.came` has too. Where what came of it is
    not known although a copy of it was refused, `refused` has that answer."""
    __slots__ = ("serial", "centre", "datagrams", "versions", "epoch", "began", "sent", "late", "answered", "is_open", "sends", "refusals", "refused",
                 "doubted", "begun_in")

    def __init__(self, serial, centre, datagrams, patience, answered, versions, epoch):
        """`versions` are those that the parts of a begin rest on, by key, and `epoch` that of the centre's last answer before; None where
        there was none."""
        self.serial, self.centre, self.datagrams, self.answered, self.is_open = serial, centre, datagrams, answered, True
        self.versions: Dict[bytes, int] = versions
        self.epoch: Optional[int] = epoch
        self.began, self.sent = time.monotonic(), time.time()
        self.late = self.began + patience
        self.sends = self.refusals = 0
        self.refused: Optional[tuple] = None
        # until when the answers to other copies are waited for, after a refusal
        self.doubted = 0.0
        # the epoch in which the centre said that it began it
        self.begun_in: Optional[int] = None

    def ends_by(self, refused: tuple, epoch: int) -> bool:
        """Whether a refusal, given in this epoch of the centre, says of all copies that none will be begun: each was refused, or the centre,
        which did not start anew since the first was sent, holds a later version than was asked for, and versions only rise."""
        if self.refusals >= self.sends:
            return True
        key, version = refused[1], refused[3] if len(refused) > 3 else None
        return epoch == self.epoch and version is not None and version > self.versions.get(key, version)


class Client:
    def __init__(self, configuration, again=0.25, patience=10.0):
        self.configuration, self.again, self.patience = configuration, again, patience
        # Other clients of these nodes have other serials, as far as chance goes.
        self.serials = itertools.count(struct.unpack("<I", os.urandom(4))[0] >> 1 | 1)
        self.requests, self.waiting, self.later = {}, deque(), []
        self.order = itertools.count()
        self.counts = Counter()
        self.sockets, self.joiners, self.poll = {}, {}, select.poll()
        # the epoch of each centre's last answer
        self.epochs: Dict[int, int] = {}
        self.by_descriptor = {}
        # when the datagram that was received last came to its socket
        self.came = 0.0
        for centre in configuration.numbers():
            self.bind(centre)

    def bind(self, centre):
        bound = socket.socket(socket.AF_INET, socket.SOCK_DGRAM)
        bound.setsockopt(socket.SOL_SOCKET, socket.SO_RCVBUF, 4 << 20)
        bound.setsockopt(socket.SOL_SOCKET, SO_TIMESTAMPNS, 1)
        bound.bind(self.configuration.client(centre))
        bound.setblocking(False)
        self.sockets[centre], self.joiners[centre] = bound, Joiner()
        self.by_descriptor[bound.fileno()] = centre
        self.poll.register(bound, select.POLLIN)

    def close(self):
        for bound in self.sockets.values():
            bound.close()

    # ---- asking

    def read(self, centre, key, answered):
        return self.ask(centre, messages.CLIENT_READ, key, answered)

    def begin(self, centre, parts, answered):
        """Begins a transaction of these parts, which ascend by key."""
        return self.ask(centre, messages.CLIENT_BEGIN, parts, answered)

    def ask(self, centre, kind, rest, answered):
        serial = next(self.serials) & 0xFFFFFFFF
        datagrams = split(messages.encode(16 + centre, centre, kind, (serial, rest)), 16 + centre, serial, 1)
        versions = {part.key: part.version for part in rest} if kind == messages.CLIENT_BEGIN else {}
        request = self.requests[serial] = Request(serial, centre, datagrams, self.patience, answered, versions, self.epochs.get(centre))
        self.send(request, request.began)
        return request

    def send(self, request, now):
        request.sends += 1
        bound, address = self.sockets[request.centre], self.configuration.asked(request.centre)
        for datagram in request.datagrams:
            try:
                bound.sendto(datagram, address)
            except OSError:
                self.counts["sends that failed"] += 1
        self.waiting.append((now + self.again, request))

    def after(self, seconds, call):
        """Calls it later, out of `step`."""
        heapq.heappush(self.later, (time.monotonic() + seconds, next(self.order), call))

    # ---- answers

    def step(self, wait):
        """Waits at most so many seconds for answers, takes what came, and does what is due."""
        due = min(self.waiting[0][0] if self.waiting else float("inf"), self.later[0][0] if self.later else float("inf"))
        wait = max(0.0, min(wait, due - time.monotonic()))
        for descriptor, _ in self.poll.poll(wait * 1000 + (0.5 if wait else 0)):
            self.receive(self.by_descriptor[descriptor])
        self.do_due(time.monotonic())

    def receive(self, centre):
        bound, joiner = self.sockets[centre], self.joiners[centre]
        while True:
            try:
                datagram, told, _, _ = bound.recvmsg(2048, 64)
            except BlockingIOError:
                return
            except OSError:
                self.counts["receives that failed"] += 1
                return
            self.came = time_in(told)
            joined = joiner.join(datagram)
            found = answer_in(joined[1]) if joined[0] == WHOLE else None
            if found is None:
                self.counts["datagrams that are no answer"] += 1
                continue
            serial, answer = found
            epoch = self.epochs[centre] = HEAD.unpack_from(datagram)[1]
            request = self.requests.get(serial)
            if request is None or request.centre != centre:
                self.counts["answers to what was answered"] += 1
            else:
                self.give(request, answer, epoch)

    def give(self, request, answer, epoch):
        if answer[0] == messages.BEGIN_REFUSED:
            request.refusals += 1
            if request.begun_in is not None:
                # The refused copy came before the one that was begun; but a centre that was started anew has forgotten what it began.
                if epoch != request.begun_in:
                    self.give_up(request, answer)
                return
            if not request.ends_by(answer, epoch):
                request.refused, request.doubted = answer, time.monotonic() + self.again
                self.waiting.append((request.doubted, request))
                return
        elif answer[0] == messages.BEGUN:
            request.begun_in, request.refused = epoch, None
        if request.answered(request, answer):
            self.end(request)

    def end(self, request):
        request.is_open = False
        self.requests.pop(request.serial, None)

    def give_up(self, request, refused=None):
        """What came of it is not known; `refused` is a refusal of a copy, where there was one."""
        request.refused = refused
        self.end(request)
        request.answered(request, None)

    def do_due(self, now):
        while self.waiting and self.waiting[0][0] <= now:
            due, request = self.waiting.popleft()
            if not request.is_open or due < request.doubted:
                continue
            if request.refused is not None or request.late <= now:
                self.give_up(request, request.refused)
            else:
                self.counts["asked again"] += 1
                self.send(request, now)
        while self.later and self.later[0][0] <= now:
            heapq.heappop(self.later)[2]()

    def forget(self):
        """Asks for nothing any more that was not answered."""
        for request in self.requests.values():
            request.is_open = False
        self.requests.clear()

    def run_until(self, done, seconds=60.0):
        """Steps until it is done or the time is over, and says which."""
        end = time.monotonic() + seconds
        while not done():
            if time.monotonic() > end:
                return False
            self.step(0.05)
        return True
