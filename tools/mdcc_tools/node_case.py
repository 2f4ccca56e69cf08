"""What a test of the program over real files and sockets stands on: a folder of its own, nodes of one centre, and their clients."""
import json
import os
import subprocess
import tempfile
import unittest

from . import logs, messages
from .client import Client
from .configuration import configuration_of
from .parts import FAST, Choice, Part, Write
from .processes import Node
from .program import PROGRAM

ONE = {"centres": 1, "classic": 1, "fast": 1, "gamma": 100, "bounds": [[0, 1000]], "hosts": ["127.0.0.1"], "port": 20300}


def configured(**members):
    return configuration_of(json.dumps({**ONE, **members}).encode())


def insert(key, value, body=b""):
    return Part(key, 0, Write((body, (value,)), ()))


def made_payloads(count, first=1):
    """The payloads of so many facts of one centre: a boot, then a vote and an outcome for each insert of a key of its own."""
    payloads, number = [logs.encode_fact(logs.BOOTED, (1,))], first
    while len(payloads) < count:
        key = b"made/%d" % number
        choice = Choice((1, 1, number), key, 0, Write((b"", (number % 1000,)), ()), ((key, 0),))
        payloads.append(logs.encode_fact(logs.VOTED, (key, 0, FAST, ((choice.tx, choice),), None)))
        payloads.append(logs.encode_fact(logs.HEARD, (choice.tx, (choice,))))
        number += 1
    return payloads[:count]


class NodeCase(unittest.TestCase):
    program = PROGRAM

    def setUp(self):
        self.made = tempfile.TemporaryDirectory()
        self.folder = self.made.name
        self.nodes, self.clients = [], []

    def tearDown(self):
        for client in self.clients:
            client.close()
        for node in self.nodes:
            node.kill()
        self.made.cleanup()

    def run_program(self, *words, given=None, **members):
        text = configured(**members).text if given is None else given
        done = subprocess.run([os.path.abspath(self.program), *words], cwd=self.folder, input=text, capture_output=True, timeout=120)
        return done.returncode, done.stdout.decode(), done.stderr.decode()

    def start(self, **members):
        node = Node(self.program, configured(**members), self.folder, 1)
        self.nodes.append(node)
        node.start()
        return node, node.wait_until_up()

    def client(self):
        client = Client(configured(), patience=10)
        self.clients.append(client)
        return client

    def answers(self, client, *parts):
        """All that the client is told of a begin, up to what ends it."""
        told = []

        def answered(_, answer):
            if answer not in told:
                told.append(answer)
            return answer is None or answer[0] != messages.BEGUN

        client.begin(1, parts, answered)
        self.assertTrue(client.run_until(lambda: told and told[-1] is not None and told[-1][0] != messages.BEGUN, 20))
        return told

    def read(self, client, key):
        told = []
        client.read(1, key, lambda _, answer: told.append(answer) or True)
        self.assertTrue(client.run_until(lambda: told, 20))
        return told[0]

    def path_of(self, end):
        return os.path.join(self.folder, f"mdcc-1.{end}")

    def log(self, end="log"):
        return logs.read_file(self.path_of(end))

    def make_log(self, data, end="log"):
        with open(self.path_of(end), "wb") as log:
            log.write(data)
