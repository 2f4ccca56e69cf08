"""Loads by the clients in C (`tools/native/orders.c` and `puts.c`): each is a process that keeps requests open and prints what came of them."""
import subprocess
from typing import List, NamedTuple, Optional, Sequence

from .compiled import NotCompiled, compiled
from .configuration import Configuration
from .orders import Tally, percentile, values_of


class Span(NamedTuple):
    """What ended well up to a moment, by seconds since the load began: how much in all, how many a second since the span before, and the
    longest of these."""
    at: float
    well: int
    rate: float
    longest: float


class Loaded(NamedTuple):
    """What came of requests that were kept open: those that ended well, those that did not, how many of the former a second while others were
    begun, and how long these took, in seconds; `at_socket` is until their end came to the client's socket."""
    well: int
    others: int
    rate: float
    p50: float
    p99: float
    longest: float
    at_socket: float
    spans: List[Span] = []


class LoadFailed(Exception):
    """A client ended before it had told what came of its requests."""


def is_there() -> bool:
    """Whether the clients in C can be used: there is a compiler for them."""
    try:
        return all(compiled(name) for name in ("orders", "puts"))
    except NotCompiled:
        return False


def run(name: str, words: Sequence[str]) -> List[List[str]]:
    """The lines that a client prints, in words."""
    done = subprocess.run([compiled(name), *words], capture_output=True, text=True)
    if done.returncode != 0:
        raise LoadFailed(f"{name} ended with {done.returncode}: {done.stderr.strip()}")
    return [line.split() for line in done.stdout.splitlines()]


def loaded_of(lines: List[List[str]], well: str, others: Sequence[str]) -> Loaded:
    """What the lines of a client say; the name `well` counts what ended well, and `others` what did not."""
    told = {words[0]: float(words[1]) for words in lines if len(words) == 2}
    spans = [Span(float(words[1]), int(words[4]), float(words[6]), float(words[8]) / 1e3) for words in lines if words[0] == "after"]
    return Loaded(int(told[well]), int(sum(told[name] for name in others)), told["rate"],
                  *(told[name] / 1e3 for name in ("p50", "p99", "longest", "socket")), spans)


def common_words(most_open: int, seconds: Optional[float], requests: Optional[int], prefix: str, each: float) -> List[str]:
    span = ["--requests", str(requests)] if requests is not None else ["--seconds", str(seconds)]
    return ["--open", str(most_open), *span, "--prefix", prefix, "--each", str(each)]


def inserts(configuration: Configuration, most_open: int, seconds: Optional[float] = None, orders: Optional[int] = None, prefix: str = "load",
            each: float = 0, again: float = 0.25) -> Loaded:
    """Inserts of new items at the nodes of a cluster, for so many seconds or so many of them."""
    values = values_of(configuration, configuration.bounds[0][1])
    words = ["--hosts", ",".join(configuration.hosts), "--port", str(configuration.port), "--values", ",".join(map(str, values)), "--again", str(again)]
    return loaded_of(run("orders", words + common_words(most_open, seconds, orders, prefix, each)), "commits", ("aborts", "refusals", "timeouts"))


def puts(ports: Sequence[int], most_open: int, seconds: Optional[float] = None, requests: Optional[int] = None, prefix: str = "load",
         each: float = 0, by: str = "grpc") -> Loaded:
    """Puts of new keys at the members of etcd that listen at these ports of this machine, by gRPC or through the gateway for JSON."""
    words = ["--members", ",".join(f"127.0.0.1:{port}" for port in ports), "--by", by]
    return loaded_of(run("puts", words + common_words(most_open, seconds, requests, prefix, each)), "puts", ("failures",))


def loaded_by(tally: Tally, began: float, ended: float) -> Loaded:
    """What a load by Python came to, in the same form."""
    times = tally.times(began, ended)
    others = sum(tally.counts[name] for name in ("aborts", "refusals", "timeouts"))
    return Loaded(tally.counts["commits"], others, len(times) / (ended - began), percentile(times, 0.5), percentile(times, 0.99),
                  (times or [float("nan")])[-1], percentile(tally.times_at_socket(began, ended), 0.5))
