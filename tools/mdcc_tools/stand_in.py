"""What answers a client as the nodes of a cluster would, in one thread and without replication, and what answers puts as a member of etcd would: for
checks of the clients alone."""
import base64
import json
import select
import socket
import socketserver
import struct
import threading
from http.server import BaseHTTPRequestHandler, ThreadingHTTPServer

from . import messages
from .datagrams import WHOLE, Joiner, split
from .parts import Add, Refused, Write


class StandIn(threading.Thread):
    """Answers at the clients' endpoints of all centres. Loses every `lose`-th datagram, and refuses nothing but old versions."""

    def __init__(self, configuration, lose=0):
        super().__init__(daemon=True)
        self.configuration, self.lose, self.taken = configuration, lose, 0
        self.items, self.begun, self.sequence = {}, {}, 0
        self.sockets, self.joiners, self.ending = {}, {}, threading.Event()
        for centre in configuration.numbers():
            bound = socket.socket(socket.AF_INET, socket.SOCK_DGRAM)
            bound.bind(configuration.asked(centre))
            self.sockets[bound.fileno()] = (bound, centre)
            self.joiners[centre] = Joiner()

    def run(self):
        poll = select.poll()
        for descriptor in self.sockets:
            poll.register(descriptor, select.POLLIN)
        while not self.ending.is_set():
            for descriptor, _ in poll.poll(20):
                bound, centre = self.sockets[descriptor]
                self.take(bound, centre, bound.recv(2048))
        for bound, _ in self.sockets.values():
            bound.close()

    def take(self, bound, centre, datagram):
        self.taken += 1
        if self.lose and self.taken % self.lose == 0:
            return
        joined = self.joiners[centre].join(datagram)
        if joined[0] != WHOLE:
            return
        try:
            _, _, kind, (serial, rest) = messages.decode(joined[1])
        except Refused:
            return
        answers = [self.shown(rest)] if kind == messages.CLIENT_READ else self.begin(centre, serial, rest)
        for number, answer in enumerate(answers):
            message = messages.encode(centre, 16 + centre, messages.CLIENT_ANSWER, (serial, answer))
            for piece in split(message, centre, 1, self.taken * 2 + number):
                bound.sendto(piece, self.configuration.client(centre))

    def shown(self, key):
        version, item, deltas = self.items.get(key, (0, None, {}))
        if item is not None:
            values = list(item[1])
            for amounts in deltas.values():
                for attribute, amount in amounts:
                    values[attribute - 1] += amount
            item = (item[0], tuple(values))
        return messages.READ, key, version, item, tuple(sorted(deltas)), int(len(deltas) >= 32)

    def begin(self, centre, serial, parts):
        if (centre, serial) in self.begun:
            return [(messages.HEARD, self.begun[centre, serial], 1)]
        for part in parts:
            version, _, deltas = self.items.get(part.key, (0, None, {}))
            if isinstance(part.update, Write) and (part.version, part.update.seen) != (version, tuple(sorted(deltas))):
                return [(messages.BEGIN_REFUSED, part.key, 1, version, tuple(sorted(deltas)))]
            if isinstance(part.update, Add) and part.version != version:
                return [(messages.BEGIN_REFUSED, part.key, 2, version)]
        self.sequence += 1
        tx = (centre, 1, self.sequence)
        for part in parts:
            if isinstance(part.update, Write):
                self.items[part.key] = (part.version + 1, part.update.item, {})
            else:
                self.items[part.key][2][tx] = part.update.amounts
        self.begun[centre, serial] = tx
        return [(messages.BEGUN, tx), (messages.HEARD, tx, 1)]


class Put(BaseHTTPRequestHandler):
    protocol_version = "HTTP/1.1"

    def do_POST(self):
        """Keeps the key, and refuses those of the server's `refused`. Every other answer is told in pieces."""
        put = json.loads(self.rfile.read(int(self.headers["Content-Length"])))
        key = base64.b64decode(put["key"], validate=True)
        self.server.keys.append((self.path, key, base64.b64decode(put["value"])))
        self.send_response(503 if key in self.server.refused else 200)
        body = b'{"header":{"revision":"2"}}'
        if len(self.server.keys) % 2:
            self.send_header("Content-Length", str(len(body)))
            self.end_headers()
            self.wfile.write(body)
        else:
            self.send_header("Transfer-Encoding", "chunked")
            self.end_headers()
            self.wfile.write(b"%x\r\n%s\r\n0\r\n\r\n" % (len(body), body))

    def log_message(self, *_):
        pass


# Of HTTP/2 (RFC 9113): kinds of frames, and flags; of its static table of headers (RFC 7541) those that a put has.
DATA, HEADERS, SETTINGS, PING, WINDOW_UPDATE = 0, 1, 4, 6, 8
END_STREAM, ACKNOWLEDGED, END_HEADERS = 1, 1, 4
STATIC = {1: (":authority", ""), 3: (":method", "POST"), 4: (":path", "/"), 6: (":scheme", "http"), 31: ("content-type", "")}


def headers_in(block):
    """The headers of a block that has only entries of the table and words that are not compressed."""
    headers, at = {}, 0

    def word():
        nonlocal at
        length = block[at]
        at += 1 + length
        return block[at - length:at].decode()

    while at < len(block):
        first = block[at]
        at += 1
        if first & 0x80:
            headers.update([STATIC[first & 0x7f]])
            continue
        index = first & 0x0f
        if index == 0x0f:
            index += block[at]
            at += 1
        name = STATIC[index][0] if index else word()
        headers[name] = word()
    return headers


def fields_in(message):
    """The fields of a message of a call, each a short text."""
    fields, at = {}, 5
    assert message[0] == 0 and struct.unpack(">I", message[1:5])[0] == len(message) - 5
    while at < len(message):
        length = message[at + 1]
        fields[message[at] >> 3] = message[at + 2:at + 2 + length]
        at += 2 + length
    return fields


class Calls(socketserver.StreamRequestHandler):
    """Answers puts by gRPC: each with a message and then its end, those of the server's `refused` with an end alone. It pings before each answer."""

    def frame(self):
        head = self.rfile.read(9)
        if len(head) < 9:
            return None
        kind, flags, stream = struct.unpack(">BBI", head[3:])
        return kind, flags, stream, self.rfile.read(int.from_bytes(head[:3], "big"))

    def send(self, kind, flags, stream, data=b""):
        self.wfile.write(len(data).to_bytes(3, "big") + struct.pack(">BBI", kind, flags, stream) + data)

    def handle(self):
        assert self.rfile.read(24) == b"PRI * HTTP/2.0\r\n\r\nSM\r\n\r\n"
        self.send(SETTINGS, 0, 0)
        headers = {}
        while True:
            frame = self.frame()
            if frame is None:
                return
            kind, flags, stream, data = frame
            self.server.frames.append((kind, flags))
            if kind == HEADERS:
                headers = headers_in(data)
            elif kind == DATA:
                fields = fields_in(data)
                self.server.keys.append((headers[":path"], fields[1], fields[2]))
                self.answer(stream, fields[1])

    def answer(self, stream, key):
        self.send(PING, 0, 0, bytes(8))
        if key in self.server.refused:
            self.send(HEADERS, END_HEADERS | END_STREAM, stream, b"\x88")
            return
        self.send(HEADERS, END_HEADERS, stream, b"\x88")
        self.send(DATA, 0, stream, b"\0\0\0\0\2\x0a\0")
        self.send(HEADERS, END_HEADERS | END_STREAM, stream, b"\x88")


class Member(socketserver.ThreadingTCPServer):
    """Answers puts by gRPC at a port of its own; `keys` are those that came, `frames` all frames by kind and flags."""
    daemon_threads, request_queue_size = True, 64

    def __init__(self, refused=()):
        super().__init__(("127.0.0.1", 0), Calls)
        self.keys, self.frames, self.refused = [], [], refused
        threading.Thread(target=self.serve_forever, args=(0.02,), daemon=True).start()

    @property
    def port(self):
        return self.server_address[1]


class Gateway(ThreadingHTTPServer):
    """Answers puts through JSON at a port of its own; `keys` are those that came."""
    daemon_threads, request_queue_size = True, 64

    def __init__(self, refused=()):
        super().__init__(("127.0.0.1", 0), Put)
        self.keys, self.refused = [], refused
        threading.Thread(target=self.serve_forever, args=(0.02,), daemon=True).start()

    @property
    def port(self):
        return self.server_address[1]
