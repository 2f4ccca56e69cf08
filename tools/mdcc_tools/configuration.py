"""A configuration of nodes, and the addresses that follow from it. A node refuses what is not right; this reads what it accepts."""
import json
import os
from typing import NamedTuple

EXAMPLE = os.path.normpath(os.path.join(os.path.dirname(os.path.abspath(__file__)), "..", "..", "examples", "five.json"))


class Configuration(NamedTuple):
    text: bytes
    centres: int
    classic: int
    fast: int
    bounds: list
    hosts: list
    port: int

    def own(self, centre):
        """Where a centre receives from centres."""
        return self.hosts[centre - 1], self.port + centre

    def asked(self, centre):
        """Where a centre receives from its client."""
        return self.hosts[centre - 1], self.port + 16 + centre

    def client(self, centre):
        """Where the client of a centre receives its answers."""
        return self.hosts[centre - 1], self.port + 32 + centre

    def numbers(self):
        return range(1, self.centres + 1)


def configuration_of(text):
    read = json.loads(text)
    return Configuration(text, read["centres"], read["classic"], read["fast"], read["bounds"], read["hosts"], read["port"])


def read_configuration(path, **members):
    """The configuration of a file, with these members in place of its own."""
    with open(path, "rb") as file:
        text = file.read()
    if members:
        text = json.dumps({**json.loads(text), **members}).encode()
    return configuration_of(text)
