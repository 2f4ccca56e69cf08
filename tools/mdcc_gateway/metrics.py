"""What the gateway counts, in Prometheus' text form."""
from __future__ import annotations

import resource
import time
from bisect import bisect_left
from collections import Counter
from typing import Dict, Iterable, List, Tuple

TYPE = "text/plain; version=0.0.4; charset=utf-8"
# Seconds up to which the counts of times go.
STEPS = (0.001, 0.0025, 0.005, 0.01, 0.025, 0.05, 0.1, 0.25, 0.5, 1.0, 2.5, 5.0, 10.0)
ROUTES = ("/healthz", "/metrics", "/openapi.json", "/v1/items", "/v1/transactions", "other")


class Times:
    """Counts of how long something took."""

    def __init__(self) -> None:
        self.counts = [0] * (len(STEPS) + 1)
        self.sum = 0.0

    def add(self, seconds: float) -> None:
        self.counts[bisect_left(STEPS, seconds)] += 1
        self.sum += seconds

    def lines(self, name: str, labels: str) -> Iterable[str]:
        total = 0
        for step, count in zip((*STEPS, "+Inf"), self.counts):
            total += count
            yield f'{name}_bucket{{{labels},le="{step}"}} {total}'
        yield f"{name}_sum{{{labels}}} {self.sum:.6f}"
        yield f"{name}_count{{{labels}}} {total}"


class Metrics:
    """All counts of one gateway."""

    def __init__(self, centre: int):
        self.centre = centre
        self.began = time.time()
        # by route, method and status; by outcome; by the name of an error; by what was done
        self.requests: "Counter[Tuple[str, str, int]]" = Counter()
        self.outcomes: "Counter[str]" = Counter()
        self.errors: "Counter[str]" = Counter()
        self.times: Dict[str, Times] = {"read": Times(), "transaction": Times()}

    def answered(self, route: str, method: str, status: int) -> None:
        self.requests[route, method, status] += 1

    def text(self, gauges: Dict[str, Tuple[str, float]]) -> str:
        """All of it. `gauges` are values of this moment with what they are, by name."""
        own = f'centre="{self.centre}"'
        lines: List[str] = []

        def family(name: str, kind: str, about: str, samples: Iterable[str]) -> None:
            lines.append(f"# HELP {name} {about}")
            lines.append(f"# TYPE {name} {kind}")
            lines.extend(samples)

        family("mdcc_gateway_requests_total", "counter", "Requests that were answered.",
               (f'mdcc_gateway_requests_total{{{own},route="{route}",method="{method}",status="{status}"}} {count}'
                for (route, method, status), count in sorted(self.requests.items())))
        family("mdcc_gateway_transactions_total", "counter", "Transactions by what came of them.",
               (f'mdcc_gateway_transactions_total{{{own},outcome="{outcome}"}} {count}' for outcome, count in sorted(self.outcomes.items())))
        family("mdcc_gateway_errors_total", "counter", "Errors that were answered.",
               (f'mdcc_gateway_errors_total{{{own},name="{name}"}} {count}' for name, count in sorted(self.errors.items())))
        family("mdcc_gateway_seconds", "histogram", "Seconds that a read or a transaction took.",
               (line for what, times in self.times.items() for line in times.lines("mdcc_gateway_seconds", f'{own},what="{what}"')))
        for name, (about, value) in gauges.items():
            family(name, "gauge", about, (f"{name}{{{own}}} {value:g}",))
        used = resource.getrusage(resource.RUSAGE_SELF)
        family("process_cpu_seconds_total", "counter", "Processor time of the gateway.",
               (f"process_cpu_seconds_total {used.ru_utime + used.ru_stime:.2f}",))
        family("process_start_time_seconds", "gauge", "When the gateway began.", (f"process_start_time_seconds {self.began:.2f}",))
        return "\n".join(lines) + "\n"
