"""Schedules that are made at random, with all that a schedule may have: races, losses, repeats, crashes, stops, restarts, few cells."""
import random
from typing import List

from .model_world import Ended, World, header_of, take_line

SIZES = ((5, 3, 4), (3, 2, 3), (4, 3, 3), (7, 4, 6), (5, 4, 4), (1, 1, 1))
KEYS = ("a", "b", "pear", "z/9")


class Maker:
    """Makes a schedule line by line over the model of a world, so that each line happens."""

    def __init__(self, seed: int, most: int = 200):
        self.source = random.Random(seed)
        self.most = most
        self.lines = self.header()
        self.world = World(header_of(self.lines)[0])
        self.read_keys: List[str] = []
        self.keys = KEYS[:self.source.choice([1, 2, 4])]

    def header(self) -> List[str]:
        source = self.source
        lines = ["mdcc-schedule 1", "quorums %d %d %d" % source.choice(SIZES), f"gamma {source.choice([0, 1, 100])}"]
        if source.random() < 0.2:
            lines.append(f"cells {source.choice([20, 40, 80])}")
        if source.random() < 0.4:
            lines.append(f"limit {source.choice(['safe', 'paper'])}")
        lines.append(f"bound 0 {source.choice([20, 1000])}")
        self.has_two = source.random() < 0.3
        return lines + ["bound -5 5"] * self.has_two + ["start"]

    def text(self) -> str:
        for _ in range(self.source.choice([self.most // 6, self.most // 2, self.most])):
            self.add(self.line())
        return "\n".join(self.lines) + "\n"

    def add(self, line: str) -> None:
        """Keeps a line where it happens."""
        if not line:
            return
        try:
            take_line(self.world, 0, line)
        except Ended:
            return
        self.lines.append(line)
        if line.startswith("read"):
            self.read_keys.append(line.split(" ")[2])

    def line(self) -> str:
        source, centre = self.source, self.source.randint(1, self.world.cluster.centres)
        kind = source.choices(("read", "begin", "deliver", "again", "settle", "tick", "crash", "restart", "stop"),
                              (12, 18, 30, 5, 10, 13, 3, 6, 3))[0]
        if kind == "read":
            return f"read {centre} {source.choice(self.keys)}"
        if kind == "begin":
            return self.begin(centre)
        if kind in ("deliver", "again"):
            return self.deliver(kind == "again")
        if kind == "settle":
            some = sorted(source.sample(self.world.cluster.all(), source.randint(1, self.world.cluster.centres)))
            return " ".join(["settle"] + [str(one) for one in some] * (source.random() < 0.6))
        if kind == "stop":
            return f"stop {centre} {source.randint(1, 11)} {source.choice(['lost', 'kept', 'torn'])}"
        return f"{kind} {centre}" if kind != "restart" or not self.world.sites[centre].is_up else ""

    def deliver(self, is_any: bool) -> str:
        numbers = range(1, len(self.world.messages) + 1) if is_any else sorted(sum(self.world.waiting.values(), []))
        up = [number for number in numbers if self.world.sites[self.world.messages[number - 1].to].is_up]
        return f"deliver {self.source.choice(up)}" if up else ""

    def begin(self, centre: int) -> str:
        words, used = [], set()
        for _ in range(self.source.randint(1, 3)):
            word, key = self.update()
            if key not in used:
                used.add(key)
                words.append(word)
        return f"begin {centre} " + " ".join(words)

    def update(self) -> tuple:
        source = self.source
        if not self.read_keys or source.random() < 0.25:
            key = source.choice(self.keys)
            return f"new:{key}:{source.choice(['-', 'c0ff'])}:{self.values()}", key
        number = source.randint(max(1, len(self.read_keys) - 3), len(self.read_keys))
        second = f",2={source.choice([-2, 1])}" if self.has_two and source.random() < 0.5 else ""
        return source.choice((f"set:{number}:-:{self.values()}", f"add:{number}:1={source.choice([-4, -1, -7, 3])}{second}",
                              f"keep:{number}")), self.read_keys[number - 1]

    def values(self) -> str:
        return str(self.source.randint(0, 20)) + (f",{self.source.randint(-5, 5)}" if self.has_two else "")
