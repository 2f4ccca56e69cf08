"""Nodes as processes: each is started in a folder, where its log, its output and its process id stand."""
import os
import signal
import subprocess
import time

MOST_TURNS = 2 ** 32 - 1
TICKS = os.sysconf("SC_CLK_TCK")


class NodeFailed(Exception):
    """A node ended where it should run, or did not come up."""


def memory_of(pid):
    """The resident set of a process and its greatest one, in kB; None where it has ended."""
    try:
        with open(f"/proc/{pid}/status") as status:
            lines = dict(line.split(":", 1) for line in status)
    except OSError:
        return None
    if "VmRSS" not in lines:
        return None
    return tuple(int(lines[name].split()[0]) for name in ("VmRSS", "VmHWM"))


def processor_seconds(pid):
    """Processor time of a process, in its own code and in the system, in seconds."""
    with open(f"/proc/{pid}/stat") as stat:
        fields = stat.read().rsplit(")", 1)[1].split()
    return int(fields[11]) / TICKS, int(fields[12]) / TICKS


def written_bytes(pid):
    """How many bytes a process has written to files so far, those of its output included."""
    with open(f"/proc/{pid}/io") as counts:
        return int(dict(line.split(": ") for line in counts)["wchar"])


def read_lines(path):
    try:
        with open(path) as file:
            return file.read().splitlines()
    except FileNotFoundError:
        return []


class Node:
    """One node process. Its output goes to node-K.out and node-K.err, each start after the last. `environment` is added to that of this process."""

    def __init__(self, program, configuration, folder, centre, environment=None):
        self.program, self.configuration, self.folder, self.centre = os.path.abspath(program), configuration, folder, centre
        self.environment = {**os.environ, **(environment or {})}
        self.process = None
        self.started = 0

    def path(self, end):
        return os.path.join(self.folder, f"node-{self.centre}.{end}")

    def start(self, turns=MOST_TURNS):
        self.started = len(self.boots())
        with open(self.path("out"), "ab") as out, open(self.path("err"), "ab") as err:
            self.process = subprocess.Popen([self.program, "node", str(self.centre), str(turns)], cwd=self.folder, stdin=subprocess.PIPE,
                                            stdout=out, stderr=err, env=self.environment, start_new_session=True)
        try:
            self.process.stdin.write(self.configuration.text)
            self.process.stdin.close()
        except BrokenPipeError:
            # It ended before it read; whoever waits for it finds that out.
            pass
        with open(self.path("pid"), "w") as pid:
            pid.write(f"{self.process.pid}\n")

    def said(self, word):
        """The lines of its output that begin with a word."""
        return [line for line in read_lines(self.path("out")) if line.startswith(word + " ")]

    def boots(self):
        return self.said("boot")

    def wait_until_said(self, word, count=1, seconds=20):
        end = time.monotonic() + seconds
        while len(self.said(word)) < count:
            if not self.is_running() or time.monotonic() > end:
                raise NodeFailed(f"centre {self.centre} did not say {word} {count} times")
            time.sleep(0.002)

    def wait_until_up(self, seconds=60):
        """Waits for the boot line of this start, and gives it."""
        end = time.monotonic() + seconds
        while True:
            boots = self.boots()
            if len(boots) > self.started:
                return boots[-1]
            if self.process.poll() is not None:
                raise NodeFailed(f"centre {self.centre} ended with status {self.process.returncode}: {self.last_error()}")
            if time.monotonic() > end:
                raise NodeFailed(f"centre {self.centre} did not come up in {seconds} seconds")
            time.sleep(0.002)

    def errors(self):
        return read_lines(self.path("err"))

    def last_error(self):
        return (self.errors() or ["no line on its error stream"])[-1]

    def is_running(self):
        return self.process is not None and self.process.poll() is None

    def kill(self):
        """Ends it as a crash would."""
        if self.is_running():
            self.process.kill()
        return self.process.wait()

    def end(self, seconds=5):
        """Asks it to end, and kills it where it does not. A log is whole whenever its node ends."""
        if self.is_running():
            self.process.send_signal(signal.SIGTERM)
            try:
                self.process.wait(seconds)
            except subprocess.TimeoutExpired:
                self.process.kill()
        return self.process.wait() if self.process else None


class Nodes:
    """A node for each centre of a configuration. Ends them all where it is left."""

    def __init__(self, program, configuration, folder):
        os.makedirs(folder, exist_ok=True)
        self.folder, self.configuration = folder, configuration
        self.nodes = [Node(program, configuration, folder, centre) for centre in configuration.numbers()]

    def __getitem__(self, centre):
        return self.nodes[centre - 1]

    def __iter__(self):
        return iter(self.nodes)

    def __enter__(self):
        return self

    def __exit__(self, *_):
        self.end()

    def start(self, turns=MOST_TURNS, of=None):
        """Starts all, and waits until all are up. `of` gives the turns of a centre where they are others."""
        for node in self.nodes:
            node.start((of or {}).get(node.centre, turns))
        return [node.wait_until_up() for node in self.nodes]

    def end(self):
        for node in self.nodes:
            if node.is_running():
                node.process.send_signal(signal.SIGTERM)
        return [node.end() for node in self.nodes]

    def processor_seconds(self):
        """Processor time of all that run, in their own code and in the system."""
        times = [processor_seconds(node.process.pid) for node in self.nodes if node.is_running()]
        return tuple(map(sum, zip(*times)))


def pids_in(folder):
    """The process ids of the nodes that were started in a folder, by centre, of those that run."""
    pids = {}
    for centre in range(1, 10):
        for line in read_lines(os.path.join(folder, f"node-{centre}.pid")):
            if memory_of(int(line)) is not None:
                pids[centre] = int(line)
    return pids
