"""Nodes on this machine with a long way between them: a process (`tools/native/delays.c`) holds each datagram of one centre to another back, and
loses some. Centre K is at 127.0.0.K, and each other centre finds it at 127.0.1.K, where that process listens. Centres and clients use the ways
between them as they are."""
import json
import subprocess
from typing import NamedTuple

from .compiled import compiled
from .configuration import configuration_of
from .processes import Node, Nodes

NEAR, FAR = "127.0.0.", "127.0.1."


class Counts(NamedTuple):
    """Datagrams that came to the way, were lost on it, and left it, and by how many microseconds one left too late at most."""
    came: int
    lost: int
    sent: int
    late: int


def near_configuration(centres, classic, fast, port, **members):
    """The configuration of centres at addresses of this machine, as their clients see it."""
    read = {"centres": centres, "classic": classic, "fast": fast, "gamma": 100, "bounds": [[0, 10 ** 9]],
            "hosts": [f"{NEAR}{centre}" for centre in range(1, centres + 1)], "port": port, "checkpoint": 1_000_000, **members}
    return configuration_of(json.dumps(read).encode())


def seen_from(configuration, centre):
    """The same as one centre is given it: all others are far."""
    hosts = [f"{NEAR if other == centre else FAR}{other}" for other in configuration.numbers()]
    return configuration_of(json.dumps({**json.loads(configuration.text), "hosts": hosts}).encode())


class Delays:
    """The way between centres: `one_way` in seconds, `loss` as a share of all datagrams."""

    def __init__(self, configuration, one_way, loss, seed=1):
        words = [compiled("delays"), str(round(one_way * 1e6)), str(round(loss * 1e6)), str(seed)]
        for centre in configuration.numbers():
            words += [f"{FAR}{centre}:{configuration.port + centre}", f"{NEAR}{centre}:{configuration.port + centre}"]
        self.process = subprocess.Popen(words, stdin=subprocess.PIPE, stdout=subprocess.PIPE, text=True, bufsize=1)
        if self.process.stdout.readline() != "ready\n":
            raise OSError("the addresses 127.0.1.K, where datagrams are held back, cannot be bound")

    def counts(self):
        self.process.stdin.write("\n")
        words = self.process.stdout.readline().split()
        return Counts(*map(int, words[1::2]))

    def end(self):
        self.process.stdin.close()
        self.process.wait()
        self.process.stdout.close()


class FarNodes(Nodes):
    """A node for each centre, each far from all others."""

    def __init__(self, program, configuration, folder):
        super().__init__(program, configuration, folder)
        self.nodes = [Node(program, seen_from(configuration, centre), folder, centre) for centre in configuration.numbers()]
