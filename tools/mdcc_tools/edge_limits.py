"""Tests of what a node waits for and what it refuses at its edge: silence, an output that nobody reads, and a file that no log can be."""
import fcntl
import os
import socket
import subprocess
import time

from . import logs
from .node_case import NodeCase, configured, insert, made_payloads
from .processes import Node, read_lines
from .recorded_case import RecordedCase

MOST_LOG_BYTES = 1 << 30
# What docs/NODES.md says that a node needs; descriptors with those of the standard streams.
STACK_KILOBYTES, SPACE_KILOBYTES, DESCRIPTORS = 512, 800_000, 12


def full_pipe(is_blocking):
    """A pipe with no room left: its ends, and how many bytes wait in it."""
    reads, writes = os.pipe()
    fcntl.fcntl(writes, fcntl.F_SETPIPE_SZ, 4096)
    os.set_blocking(writes, False)
    filled = 0
    try:
        while True:
            filled += os.write(writes, b"x" * 64)
    except BlockingIOError:
        os.set_blocking(writes, is_blocking)
    return reads, writes, filled


class Limits(RecordedCase):
    def test_an_output_that_nobody_reads(self):
        """A node waits where its output has no room, whether writes block or not, and goes on once it is read; no line is lost."""
        client = self.client()
        for number, is_blocking in enumerate((True, False)):
            with self.subTest(is_blocking=is_blocking):
                reads, writes, filled = full_pipe(is_blocking)
                process = self.popen(writes)
                try:
                    time.sleep(0.5)
                    self.assertIsNone(process.poll())
                    self.drain(reads, filled)
                    self.assertEqual(os.read(reads, 4096).split()[0], b"boot")
                    self.assertEqual(self.answers(client, insert(b"pipe/%d" % number, 1))[-1][2], 1)
                    self.assertRegex(os.read(reads, 4096), rb"\Aheard 1 1\.\d\.1 commit\n\Z")
                finally:
                    process.kill()
                    process.wait()
                    os.close(reads)

    def popen(self, output):
        """A node with this output, which is its alone."""
        process = subprocess.Popen([os.path.abspath(self.program), "node", "1", "4000000"], cwd=self.folder, stdin=subprocess.PIPE, stdout=output)
        os.close(output)
        process.stdin.write(configured().text)
        process.stdin.close()
        return process

    @staticmethod
    def drain(reads, size):
        while size > 0:
            size -= len(os.read(reads, size))

    def test_what_a_node_needs(self):
        """It serves with the stack, the address space and the descriptors that docs/NODES.md names, and without them it ends as it says."""
        for limits, status in ((f"ulimit -s {STACK_KILOBYTES}; ulimit -v {SPACE_KILOBYTES}; ulimit -n {DESCRIPTORS}", 0),
                               (f"ulimit -v {SPACE_KILOBYTES // 2}", 10), ("ulimit -n 4", 7), ("ulimit -n 6", 8)):
            with self.subTest(limits=limits):
                done = subprocess.run(["sh", "-c", f"{limits}; exec \"$0\" node 1 2", os.path.abspath(self.program)], cwd=self.folder,
                                      input=configured().text, capture_output=True, timeout=60)
                self.assertEqual(done.returncode, status, done.stderr)

    def test_a_file_that_no_log_can_be(self):
        """It is not read, and stays as it is."""
        for end, other in (("log", b""), ("alt", logs.write_log(made_payloads(9)))):
            self.make_log(other)
            self.make_log(b"", "alt")
            os.truncate(self.path_of(end), MOST_LOG_BYTES + 1)
            for words in (("node", "1", "0"), ("dump", "1"), ("cluster", "0")):
                with self.subTest(file=end, command=words[0]):
                    self.assertEqual(self.run_recorded(*words), (7, "", "mdcc: disk 1 failed\n"))
                    self.assertNotIn(f"mdcc-1.{end}", [call.file() for call in self.calls() if call.name == "pread"])
                    self.assertEqual(os.path.getsize(self.path_of(end)), MOST_LOG_BYTES + 1)


class Waits(NodeCase):
    """What the member `wait` of the configuration does. A turn in which nothing came is a step, one that brought a datagram of no good is none."""

    def run_node(self, turns, send=None, **members):
        """How long a node takes for so many turns, and its last line; `send` is called until it ends."""
        node = Node(self.program, configured(**members), self.folder, 1)
        self.nodes.append(node)
        node.start(turns)
        node.wait_until_up()
        began = time.monotonic()
        while send is not None and node.is_running():
            send()
        self.assertEqual(node.process.wait(60), 0)
        return time.monotonic() - began, read_lines(node.path("out"))[-1]

    def test_time_passes_only_in_silence(self):
        """Datagrams that come one at a time, at either endpoint, keep a node from a tick as long as none is a whole wait behind the last."""
        for sent_to in (configured().own(1), configured().asked(1)):
            with self.subTest(sent_to=sent_to), socket.socket(socket.AF_INET, socket.SOCK_DGRAM) as bound:

                def send():
                    bound.sendto(bytes(16), sent_to)
                    time.sleep(0.03)

                _, line = self.run_node(30, send, wait=2000)
                self.assertEqual(line, "done turns 30 steps 0 dropped 30 lost 0")

    def test_a_silent_turn_takes_its_wait(self):
        for wait in (20, 100, 400):
            with self.subTest(wait=wait):
                took, line = self.run_node(4, wait=wait)
                self.assertEqual(line, "done turns 4 steps 4 dropped 0 lost 0")
                self.assertGreaterEqual(took, 4 * wait / 1000 - 0.02)
                self.assertLess(took, 4 * wait / 1000 + 3)

    def test_where_it_is_left_out(self):
        """It is 20 milliseconds."""
        took, _ = self.run_node(20)
        self.assertGreaterEqual(took, 0.38)
        self.assertLess(took, 3)

    def test_values(self):
        for wait in (1, 60000):
            self.assertEqual(self.run_program("node", "1", "0", wait=wait)[0], 0)
        for wait, cause in ((0, "Range"), (60001, "Range"), (-1, "Range"), ("20", "Kind"), (1.5, "Kind")):
            self.assertEqual(self.run_program("node", "1", "0", wait=wait), (3, "", f"mdcc: config: {cause}\n"))
