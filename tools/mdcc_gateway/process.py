"""A gateway as a process of its own."""
from __future__ import annotations

import os
import signal
import socket
import subprocess
import sys
from typing import List, Optional

GATEWAY = os.path.normpath(os.path.join(os.path.dirname(os.path.abspath(__file__)), "..", "gateway"))


class GatewayFailed(Exception):
    """A gateway ended where it should run."""


def free_port() -> int:
    """A port that is free now."""
    with socket.socket() as tried:
        tried.bind(("127.0.0.1", 0))
        return tried.getsockname()[1]


class Process:
    """A gateway that listens at one port whenever it runs."""

    def __init__(self, configuration: str, centre: int, *options: object, port: Optional[int] = None):
        self.centre, self.port = centre, port or free_port()
        self.words: List[str] = [sys.executable, "-B", GATEWAY, "--configuration", configuration, "--centre", str(centre),
                                 "--listen", f"127.0.0.1:{self.port}", *map(str, options)]
        self.process: Optional[subprocess.Popen] = None

    def begin(self) -> None:
        """Starts it, and waits for nothing."""
        self.process = subprocess.Popen(self.words, stdout=subprocess.PIPE, text=True, start_new_session=True)

    def wait_until_up(self) -> None:
        """Waits until it listens."""
        assert self.process is not None and self.process.stdout is not None
        if not self.process.stdout.readline().startswith("gateway of centre"):
            raise GatewayFailed(f"the gateway of centre {self.centre} ended with status {self.process.wait()}")

    def end(self, number: int = signal.SIGTERM) -> int:
        """Has it end by a signal, and gives its status."""
        assert self.process is not None and self.process.stdout is not None
        if self.process.poll() is None:
            self.process.send_signal(number)
        status = self.process.wait(30)
        self.process.stdout.close()
        return status
