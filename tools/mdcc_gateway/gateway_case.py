"""What tests of the gateway stand on: a gateway as a process, over a stand-in of the nodes or over nodes, and requests to it."""
from __future__ import annotations

import http.client
import json
import os
import signal
import socket
import sys
import tempfile
import time
import unittest
from typing import Any, Dict, List, Optional, Tuple

from .process import Process

TOP = os.path.normpath(os.path.join(os.path.dirname(os.path.abspath(__file__)), "..", ".."))
sys.path.insert(1, os.path.join(TOP, "clients", "python", "tests"))
from stand_in import StandIn

Answer = Tuple[int, Dict[str, Any]]


class Gateway(Process):
    """A gateway and requests to it."""

    def start(self) -> "Gateway":
        """Starts it, and waits until it listens."""
        self.begin()
        self.wait_until_up()
        return self

    # ---- requests

    def connect(self, seconds: float = 30) -> socket.socket:
        return socket.create_connection(("127.0.0.1", self.port), seconds)

    def ask(self, method: str, path: str, document: object = None, headers: Optional[Dict[str, str]] = None) -> Answer:
        """A request over a connection of its own."""
        connection = http.client.HTTPConnection("127.0.0.1", self.port, timeout=60)
        try:
            body = document if isinstance(document, (bytes, type(None))) else json.dumps(document)
            connection.request(method, path, body, headers or ({"Content-Type": "application/json"} if body is not None else {}))
            response = connection.getresponse()
            read = response.read()
            return response.status, json.loads(read) if read[:1] == b"{" else {"text": read.decode()}
        finally:
            connection.close()

    def get(self, path: str) -> Answer:
        return self.ask("GET", path)

    def order(self, *updates: object, **members: object) -> Answer:
        """Sends a transaction of these updates."""
        return self.ask("POST", "/v1/transactions", {**members, "updates": list(updates)})

    def raw(self, data: bytes, seconds: float = 30) -> List[Answer]:
        """All answers to bytes that are sent over a connection, until it ends."""
        with self.connect(seconds) as connection:
            connection.sendall(data)
            connection.shutdown(socket.SHUT_WR)
            return answers_in(received(connection))


def received(connection: socket.socket) -> bytes:
    """All that comes until a connection ends."""
    came = b""
    while True:
        try:
            data = connection.recv(65536)
        except ConnectionResetError:
            return came
        if not data:
            return came
        came += data


def answers_in(data: bytes) -> List[Answer]:
    """The answers in bytes that came."""
    answers = []
    while data:
        head, _, data = data.partition(b"\r\n\r\n")
        lines = head.decode().split("\r\n")
        status = int(lines[0].split()[1])
        if status == 100:
            continue
        headers = dict(line.lower().split(": ", 1) for line in lines[1:])
        length = int(headers["content-length"])
        answers.append((status, json.loads(data[:length])))
        data = data[length:]
    return answers


def name_of(answer: Answer) -> str:
    """The name of an error, or what came instead."""
    return answer[1]["error"]["name"] if "error" in answer[1] else str(answer)


def until(true: Any, seconds: float = 20) -> None:
    """Waits until something holds."""
    end = time.monotonic() + seconds
    while not true():
        if time.monotonic() > end:
            raise AssertionError("it did not come about")
        time.sleep(0.02)


class GatewayCase(unittest.TestCase):
    """A gateway over a stand-in of three centres, with a cup of which there are 100."""

    options: Tuple[object, ...] = ("--patience", 6, "--wait", 2)
    members: Dict[str, Any] = {}

    def setUp(self) -> None:
        self.cluster = StandIn(**self.members).__enter__()
        self.addCleanup(self.cluster.__exit__)
        folder = tempfile.TemporaryDirectory(prefix="mdcc-gateway-")
        self.addCleanup(folder.cleanup)
        self.configuration = os.path.join(folder.name, "cluster.json")
        with open(self.configuration, "w") as file:
            json.dump(self.cluster.members, file)
        self.gateway = self.started()
        self.assertEqual(self.gateway.order({"insert": "cup", "values": [100], "body": "blue"})[0], 200)

    def started(self, *options: object, centre: int = 1) -> Gateway:
        gateway = Gateway(self.configuration, centre, *self.options, *options).start()
        self.addCleanup(gateway.end, signal.SIGKILL)
        return gateway

    def value(self, key: str = "cup") -> int:
        return self.cluster.values(key.encode())[1][0]

    def sell(self, amount: int = -1, **members: object) -> Answer:
        return self.gateway.order({"add": "cup", "amounts": [amount]}, **members)

    def assert_fault(self, answer: Answer, status: int, name: str, **members: object) -> None:
        self.assertEqual((answer[0], name_of(answer)), (status, name), answer)
        for member, value in members.items():
            self.assertEqual(answer[1].get(member, answer[1]["error"].get(member)), value, answer)
        self.assertTrue(answer[1]["error"]["cause"] and answer[1]["error"]["advice"])
