"""The memory of nodes over time, and how the machine keeps up beside them."""
import os
import threading
import time

from .processes import memory_of


def rows_at(port):
    """What the system says of the sockets that are bound to this port."""
    with open("/proc/net/udp") as table:
        rows = [line.split() for line in table.readlines()[1:]]
    return [row for row in rows if int(row[1].split(":")[1], 16) == port]


def lost_at(port):
    """How many datagrams the system dropped at the socket that is bound to this port, since its buffer was full."""
    return sum(int(row[-1]) for row in rows_at(port))


def waiting_at(port):
    """How many bytes wait in its buffer, with what the system takes for each datagram."""
    return sum(int(row[4].split(":")[1], 16) for row in rows_at(port))


class Watch:
    """Looks once a second at the memory of each of some processes, by centre: the resident set and the greatest one so far, in kB."""

    def __init__(self, pids):
        self.pids, self.began, self.samples, self.next = pids, time.monotonic(), [], 0.0

    def look(self):
        now = time.monotonic()
        if now < self.next:
            return
        self.next = now + 1
        self.samples.append((now - self.began, {centre: memory_of(pid) for centre, pid in self.pids.items()}))

    def gone(self):
        return [centre for centre, memory in self.samples[-1][1].items() if memory is None] if self.samples else []

    def at(self, seconds, centre):
        """What it had at that time, or at the first look after it; None where there was none, or the node had ended."""
        for taken, memories in self.samples:
            if taken >= seconds:
                return memories[centre]
        return None

    def last(self, centre):
        """What it had when it was last there."""
        return [memories[centre] for _, memories in self.samples if memories[centre] is not None][-1]


class Stalls(threading.Thread):
    """Beside the nodes: writes a few bytes in their folder, syncs them and naps, again and again, as a node does. `longest` is by how much
    that took longer than the nap. Whoever has the priority of the nodes learns so for how long the disk or the processors stood still."""

    NAP = 0.02

    def __init__(self, folder):
        super().__init__(daemon=True)
        self.path = os.path.join(folder, "stalls")
        self.began, self.longest, self.is_over = time.monotonic(), 0.0, False

    def run(self):
        descriptor = os.open(self.path, os.O_WRONLY | os.O_CREAT)
        while not self.is_over:
            self.began = time.monotonic()
            os.pwrite(descriptor, b"x" * 100, 0)
            os.fdatasync(descriptor)
            time.sleep(self.NAP)
            self.note(time.monotonic())
        os.close(descriptor)
        os.unlink(self.path)

    def note(self, now):
        self.longest = max(self.longest, now - self.began - self.NAP)

    def take(self):
        """The longest since it was taken last, with the one that goes on."""
        self.note(time.monotonic())
        longest, self.longest = self.longest, 0.0
        return longest

    def end(self):
        self.is_over = True
        self.join()
