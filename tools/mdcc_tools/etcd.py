"""etcd beside it: so many members on this machine, and small puts of new keys through the gateway for JSON, so many open at once."""
import base64
import itertools
import json
import os
import select
import shutil
import socket
import subprocess
import time

from .processes import memory_of, processor_seconds

CLIENTS, PEERS = 24790, 23790


def encoded(data):
    return base64.b64encode(data).decode()


class Connection:
    """One connection, with one put open at a time."""

    def __init__(self, port):
        self.socket = socket.create_connection(("127.0.0.1", port))
        self.socket.setsockopt(socket.IPPROTO_TCP, socket.TCP_NODELAY, 1)
        self.received, self.began = b"", 0.0

    def put(self, key, value):
        body = json.dumps({"key": encoded(key), "value": encoded(value)}).encode()
        head = f"POST /v3/kv/put HTTP/1.1\r\nHost: etcd\r\nContent-Type: application/json\r\nContent-Length: {len(body)}\r\n\r\n"
        self.received, self.began = b"", time.perf_counter()
        self.socket.sendall(head.encode() + body)

    def has_answer(self):
        """Takes what came, and says whether the answer is whole; raises OSError where it is none of success."""
        more = self.socket.recv(65536)
        if not more:
            raise OSError("the connection ended")
        self.received += more
        head, found, body = self.received.partition(b"\r\n\r\n")
        if not found:
            return False
        lines = head.lower().split(b"\r\n")
        if b" 200 " not in lines[0] + b" ":
            raise OSError(lines[0].decode())
        length = [int(line.split(b":")[1]) for line in lines if line.startswith(b"content-length:")]
        return len(body) >= length[0] if length else body.endswith(b"0\r\n\r\n")


class Etcd:
    """A cluster of etcd in a folder, which is removed at its end."""

    def __init__(self, members, folder):
        self.members, self.folder, self.processes, self.keys = members, os.path.join(folder, "etcd"), [], itertools.count()

    def __enter__(self):
        cluster = ",".join(f"m{number}=http://127.0.0.1:{PEERS + number}" for number in range(self.members))
        for number in range(self.members):
            peer, client = f"http://127.0.0.1:{PEERS + number}", f"http://127.0.0.1:{CLIENTS + number}"
            self.processes.append(subprocess.Popen(
                ["etcd", "--name", f"m{number}", "--data-dir", os.path.join(self.folder, str(number)), "--listen-peer-urls", peer,
                 "--initial-advertise-peer-urls", peer, "--listen-client-urls", client, "--advertise-client-urls", client,
                 "--initial-cluster", cluster, "--log-level", "error"], stdout=subprocess.DEVNULL, stderr=subprocess.DEVNULL))
        end = time.monotonic() + 30
        while True:
            try:
                self.load(self.members, puts=self.members)
                return self
            except OSError:
                if time.monotonic() > end:
                    self.__exit__()
                    raise
                time.sleep(0.2)

    def __exit__(self, *_):
        for process in self.processes:
            process.terminate()
        for process in self.processes:
            process.wait()
        shutil.rmtree(self.folder, ignore_errors=True)

    def ports(self):
        """Where the members listen to clients."""
        return [CLIENTS + number for number in range(self.members)]

    def processor_seconds(self):
        return sum(sum(processor_seconds(process.pid)) for process in self.processes)

    def memory(self):
        return max(memory_of(process.pid)[0] for process in self.processes)

    def load(self, most_open, seconds=float("inf"), puts=None):
        """Keeps so many puts open over the members in turn; the times of all that ended, ascending, and how long it took."""
        connections = [Connection(CLIENTS + number % self.members) for number in range(most_open)]
        by_descriptor = {connection.socket.fileno(): connection for connection in connections}
        poll, times, open_ = select.poll(), [], 0
        began = time.perf_counter()
        try:
            for descriptor, connection in by_descriptor.items():
                poll.register(descriptor, select.POLLIN)
                connection.put(b"load/%d" % next(self.keys), b"v")
                open_ += 1
            while open_:
                ready = poll.poll(10000)
                if not ready:
                    raise OSError("no answer in ten seconds")
                for descriptor, _ in ready:
                    connection = by_descriptor[descriptor]
                    if not connection.has_answer():
                        continue
                    now = time.perf_counter()
                    times.append(now - connection.began)
                    open_ -= 1
                    if now - began < seconds and (puts is None or len(times) + open_ < puts):
                        connection.put(b"load/%d" % next(self.keys), b"v")
                        open_ += 1
        finally:
            for connection in connections:
                connection.socket.close()
        return sorted(times), time.perf_counter() - began
