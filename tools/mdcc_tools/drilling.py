"""A cluster as an operator runs it, for `tools/drill`: one tools/nodes for each centre, orders beside it, and the tools by their commands."""
import hashlib
import json
import os
import shutil
import signal
import subprocess
import sys
import threading
import time
from typing import Dict, List, NamedTuple, Optional

from . import messages
from .areas import ENDS, path_of
from .auditing import Audit
from .client import Client
from .configuration import Configuration, read_configuration
from .orders import Inserts, Load, Sales, Tally
from .parts import Part, Write
from .processes import Node, read_lines

TOOLS = os.path.normpath(os.path.join(os.path.dirname(os.path.abspath(__file__)), ".."))
PATIENCE = 300.0


class Failed(Exception):
    """What was asserted is not so."""


class Ran(NamedTuple):
    status: int
    output: str
    error: str


def must(holds: bool, text: str) -> None:
    if not holds:
        raise Failed(text)


def wait_for(holds, text: str, seconds: float = PATIENCE) -> None:
    end = time.monotonic() + seconds
    while not holds():
        must(time.monotonic() < end, f"not within {seconds:.0f} seconds: {text}")
        time.sleep(0.05)


def run_tool(name: str, *words: str, given: Optional[str] = None) -> Ran:
    done = subprocess.run([sys.executable, os.path.join(TOOLS, name), *words], input=given, capture_output=True, text=True, timeout=600)
    return Ran(done.returncode, done.stdout, done.stderr)


def sum_of_file(path: str) -> str:
    with open(path, "rb") as file:
        return hashlib.sha256(file.read()).hexdigest()


class Cluster:
    """Centres in one folder, each under a tools/nodes of its own. `folders` gives a centre another folder."""

    def __init__(self, program: str, configuration: Configuration, folder: str, folders: Optional[Dict[int, str]] = None):
        self.program, self.folder, self.folders = os.path.abspath(program), folder, folders or {}
        os.makedirs(folder, exist_ok=True)
        self.path = os.path.join(folder, "cluster.json")
        self.write(configuration)
        self.supervisors: Dict[int, subprocess.Popen] = {}
        self.plain: List[Node] = []

    def write(self, configuration: Configuration) -> None:
        with open(self.path, "wb") as file:
            file.write(configuration.text)
        self.configuration = configuration

    def __enter__(self) -> "Cluster":
        return self

    def __exit__(self, *_) -> None:
        for node in self.plain:
            node.kill()
        for centre in list(self.supervisors):
            self.end(centre)

    def folder_of(self, centre: int) -> str:
        return self.folders.get(centre, self.folder)

    def words(self, centre: int, *more: str) -> List[str]:
        return ["--program", self.program, "--configuration", self.path, "--folder", self.folder_of(centre), "--centres", str(centre),
                "--sums", "1", *more]

    def said(self, centre: int) -> List[str]:
        """The lines of its supervisors."""
        return read_lines(os.path.join(self.folder, f"nodes-{centre}.txt"))

    def boots(self, centre: int) -> int:
        return sum(line.startswith("boot ") for line in self.said(centre))

    def begin_start(self, centre: int, *more: str) -> None:
        with open(os.path.join(self.folder, f"nodes-{centre}.txt"), "a") as out:
            self.supervisors[centre] = subprocess.Popen([sys.executable, os.path.join(TOOLS, "nodes"), *self.words(centre, *more)],
                                                        stdout=out, stderr=out, start_new_session=True)

    def start(self, centre: int, *more: str) -> None:
        boots = self.boots(centre)
        self.begin_start(centre, *more)
        wait_for(lambda: self.boots(centre) > boots or self.supervisors[centre].poll() is not None, f"centre {centre} starts")
        must(self.boots(centre) > boots, f"centre {centre} starts: {(self.said(centre) or ['no line'])[-1]}")

    def start_all(self, *more: str) -> "Cluster":
        for centre in self.configuration.numbers():
            self.start(centre, *more)
        return self

    def end(self, centre: int) -> None:
        supervisor = self.supervisors.pop(centre, None)
        if supervisor is not None and supervisor.poll() is None:
            supervisor.send_signal(signal.SIGTERM)
            supervisor.wait(30)

    def refusal(self, centre: int, *more: str) -> str:
        """What tools/nodes says where it is asked to start this centre; it has to refuse."""
        ran = run_tool("nodes", *self.words(centre, "--turns", "50", *more))
        must(ran.status == 64, f"centre {centre} is not refused: status {ran.status}, {ran.output} {ran.error}")
        return ran.error

    def start_plain(self, centre: int, folder: Optional[str] = None, configuration: Optional[Configuration] = None) -> str:
        """Starts the program alone, as one must not, and gives what it prints first."""
        node = Node(self.program, configuration or self.configuration, folder or self.folder_of(centre), centre)
        self.plain.append(node)
        node.start()
        return node.wait_until_up(PATIENCE)

    def tool(self, name: str, *words: str) -> Ran:
        return run_tool(name, "--folder", self.folder, *words)

    def status(self, *words: str) -> Ran:
        return self.tool("status", "--configuration", self.path, *words)

    def problems(self, reported, without=()) -> List[str]:
        """What the logs say against what was reported, without those of some centres."""
        with_those = [centre for centre in self.configuration.numbers() if centre not in without]
        folder = os.path.join(self.folder, "audited")
        shutil.rmtree(folder, ignore_errors=True)
        os.makedirs(folder)
        for centre in with_those:
            for end in ENDS:
                if os.path.exists(path_of(self.folder_of(centre), centre, end)):
                    shutil.copy(path_of(self.folder_of(centre), centre, end), folder)
        audit = Audit(self.configuration, folder)
        return audit.problems(reported) if not without else [
            f"{tx} was reported and is not in the logs" for tx, commit, _ in reported if not audit.heard[tx][0 if commit else 1]]


class Orders(threading.Thread):
    """Orders beside a cluster: sales of items, or inserts, until they are ended."""

    def __init__(self, cluster: Cluster, centres=None, kind: str = "sales", items: int = 200, prefix: str = "item", most_open: int = 8):
        super().__init__(daemon=True)
        self.client, self.tally = Client(cluster.configuration, patience=5), Tally()
        if kind == "sales":
            self.workload = Sales(self.client, cluster.configuration, items, 3, 1, prefix)
            if not self.workload.insert(PATIENCE):
                self.client.close()
                raise Failed("the items could not be inserted in time")
        else:
            self.workload = Inserts(cluster.configuration, f"{prefix}/{time.time_ns():x}")
        self.load = Load(self.client, self.workload, self.tally, centres or list(cluster.configuration.numbers()))
        self.most_open, self.ending, self.is_ended = most_open, threading.Event(), False

    def run(self) -> None:
        while not self.ending.is_set():
            self.load.fill(self.most_open)
            self.client.step(0.02)
        self.load.drain(10)

    def __enter__(self) -> "Orders":
        self.start()
        return self

    def __exit__(self, *_) -> None:
        self.end()

    def end(self) -> List[tuple]:
        """Ends them, and gives what was reported."""
        if not self.is_ended:
            self.ending.set()
            self.join()
            self.client.close()
            self.is_ended = True
        return self.tally.reported

    def commits(self) -> int:
        return self.tally.counts["commits"]

    def must_commit(self, more: int, when: str, seconds: float = PATIENCE) -> None:
        before = self.commits()
        wait_for(lambda: self.commits() >= before + more, f"{more} more orders commit {when}", seconds)


def insert(cluster: Cluster, centre: int, key: str) -> bool:
    """Inserts an item at a centre, and says whether its commit was reported."""
    client, told = Client(cluster.configuration, patience=20), []

    def answered(_, answer):
        told.append(answer)
        return answer is None or answer[0] != messages.BEGUN

    value = cluster.configuration.bounds[0][1]
    try:
        client.begin(centre, (Part(key.encode(), 0, Write((b"", (value,)), ())),), answered)
        client.run_until(lambda: told and (told[-1] is None or told[-1][0] != messages.BEGUN), 30)
    finally:
        client.close()
    return bool(told) and told[-1] is not None and told[-1][0] == messages.HEARD and bool(told[-1][2])


def items_of(cluster: Cluster, *words: str) -> Dict[str, tuple]:
    """The items of an export, by key."""
    ran = cluster.tool("export", "--configuration", cluster.path, *words)
    return {line["key"]: (line["body"], tuple(line["values"])) for line in map(json.loads, ran.output.splitlines())}


def with_members(configuration: Configuration, folder: str, **members) -> Configuration:
    """The configuration with these members in place of its own."""
    path = os.path.join(folder, "given.json")
    os.makedirs(folder, exist_ok=True)
    with open(path, "wb") as file:
        file.write(configuration.text)
    return read_configuration(path, **members)
