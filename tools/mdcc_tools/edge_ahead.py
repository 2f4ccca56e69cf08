"""Tests of the zeros that a node writes behind the end of its log: they come before they are wanted, they cost nothing where there is no room for
them, and whatever a power cut leaves of them and of the appends over them, the program opens the log with all that was told."""
import errno
import os
import subprocess
import tempfile

from . import logs, messages
from .calls import CHANGES, SYNCS, Image, Rule
from .edge_order import steps_of
from .node_case import configured, insert
from .processes import Node
from .recorded_case import FIRST_AHEAD, RecordedCase

NO_ROOM = (errno.ENOSPC, errno.EDQUOT, errno.EFBIG, errno.EIO)


def large_order(number):
    """Eight items with long keys and bodies: some nine kilobytes of facts."""
    return [insert(b"%d/%04d/" % (part, number) + b"x" * 24, 1, bytes(128)) for part in range(8)]


class Ahead(RecordedCase):
    def serve(self, orders, rule=None):
        """A node under some orders, one after the other, which then is killed; its calls at files."""
        node = self.recorded_node(rule, most_bytes=1 << 20)
        node.start()
        node.wait_until_up()
        client = self.client()
        for order in orders:
            self.assertEqual(self.answers(client, *order)[-1][0], messages.HEARD)
        node.wait_until_said("heard", len(orders))
        node.kill()
        client.close()
        self.clients.remove(client)
        return self.calls()

    def facts_end(self):
        """Where the last gate of the log in its first file stands, and the length of that file."""
        return 8 + sum(len(payload) + 5 for payload in logs.read_payloads(self.folder, 1)), len(self.log())

    def zeros_in(self, calls, name):
        """How many zeros were written together, each time."""
        return [int(step.split()[3]) for step in steps_of(calls, self.folder) if step.startswith(f"zeros {name} ")]

    def test_each_write_lands_on_zeros_that_are_durable(self):
        """Over a checkpoint, in both files. Zeros are written only where all that stands before them is durable, each time twice as many."""
        images, ahead = {"mdcc-1.log": Image(), "mdcc-1.alt": Image()}, set()
        calls = self.serve([large_order(number) for number in range(130)])
        for call in calls:
            name, image = call.file(), images.get(call.file())
            if image is None or call.name not in CHANGES + SYNCS:
                continue
            if call.name == "zeros":
                self.assertFalse(any(any(written) for _, written in image.since))
                self.assertGreaterEqual(call.at, 9)
                ahead.add(name)
            elif call.name == "pwrite" and name in ahead:
                self.assertEqual(image.since, [])
                self.assertEqual(image.durable[call.at:call.at + call.answer], bytes(call.answer))
            image.note(call)
        self.assertEqual(self.zeros_in(calls, "log"), [FIRST_AHEAD << time for time in range(5)])
        self.assertEqual(self.zeros_in(calls, "alt"), [FIRST_AHEAD << time for time in range(2)])
        self.assertEqual([len(self.log(end)) for end in ("log", "alt")], [len(image.durable) for image in images.values()])
        self.assertGreater(len(logs.read_payloads(self.folder, 1)), 1100)

    def test_where_there_is_no_room_for_zeros(self):
        """A node goes on, with a file that has what was appended and no more, and tries none again soon."""
        for how in NO_ROOM:
            with self.subTest(how=errno.errorcode[how]):
                for end in ("log", "alt"):
                    self.make_log(b"", end)
                made = self.serve([[insert(b"a", 1)], [insert(b"b", 2)]], Rule("zeros", 1, 1, how))
                steps = [step for step in steps_of(made, self.folder) if step.split()[0] in ("zeros", "cut")]
                self.assertEqual(steps, ["cut log 0", "zeros log 9 refused", "cut log 9"])
                gate, length = self.facts_end()
                self.assertEqual(length, gate + 1)
                self.assertEqual(self.run_program("node", "1", "0")[0], 0)
                self.assertEqual([kind for kind, _ in logs.read_log(self.folder, 1)],
                                 [logs.BOOTED, logs.VOTED, logs.HEARD, logs.VOTED, logs.HEARD, logs.BOOTED])

    def test_where_there_is_room_for_some(self):
        """What was written of them is cut off again. The next ones are tried once the log has grown by as many."""
        calls = self.serve([large_order(number) for number in range(30)], Rule("zeros", 3, 1, errno.ENOSPC))
        steps = [step.split() for step in steps_of(calls, self.folder) if step.split()[0] in ("zeros", "cut")]
        self.assertEqual([step[0] for step in steps], ["cut", "zeros", "zeros", "zeros", "cut", "zeros"])
        first, refused, cut, last = steps[2], steps[3], steps[4], steps[5]
        self.assertEqual((first[3], int(refused[2]) - int(first[2]), refused[3], cut[2]), (str(FIRST_AHEAD), FIRST_AHEAD, "refused", first[2]))
        self.assertEqual(int(last[3]), 4 * FIRST_AHEAD)
        self.assertGreater(int(last[2]), int(first[2]) + FIRST_AHEAD)
        gate, length = self.facts_end()
        self.assertEqual(length, int(last[2]) + int(last[3]))
        self.assertEqual(self.log()[gate:], bytes(length - gate))
        self.assertEqual(len(logs.read_payloads(self.folder, 1)), 1 + 9 * 30)

    def test_a_disk_that_runs_full(self):
        """A node goes on until facts find no room, and starts again once there is some, with all that was told."""
        with tempfile.TemporaryDirectory() as disk:
            if subprocess.run(["mount", "-t", "tmpfs", "-o", "size=1m", "tmpfs", disk], capture_output=True).returncode != 0:
                self.skipTest("a small disk cannot be mounted here")
            node = Node(self.program, configured(), disk, 1)
            try:
                told = self.fill(disk, node)
                self.assertGreater(len(told), 80)
                subprocess.run(["mount", "-o", "remount,size=8m", disk], check=True)
                node.start()
                node.wait_until_up()
                self.assertLessEqual(told, {body[0] for kind, body in logs.read_log(disk, 1) if kind == logs.HEARD})
            finally:
                node.kill()
                subprocess.run(["umount", disk], check=True)

    def fill(self, disk, node):
        """A node whose disk runs full under orders: what it told of them. At its end less is free than what one order leaves."""
        client, told = self.client(), set()
        node.start()
        node.wait_until_up()

        def take(_, answer):
            if answer is not None and answer[0] == messages.HEARD:
                told.add(answer[1])
            return answer is None or answer[0] != messages.BEGUN

        number = 0
        while node.is_running() and number < 1000:
            client.begin(1, large_order(number), take)
            number += 1
            client.run_until(lambda: len(told) == number or not node.is_running(), 10)
        self.assertIn(node.process.wait(10), (6, 7))
        room = os.statvfs(disk)
        self.assertLess(room.f_bavail * room.f_frsize, 4 * 4096)
        return told

    def test_zeros_in_small_pieces(self):
        """A write that takes one byte is made on."""
        self.serve([[insert(b"a", 1)]], Rule("zeros", 1, 1, "short"))
        self.assertEqual(self.facts_end()[1], 9 + FIRST_AHEAD)

    def test_zeros_that_are_not_durable(self):
        """Where their sync fails the node ends, and no append was made over them."""
        before = Rule("fdatasync", 4, 1, errno.EIO)
        self.assertEqual(self.run_recorded("node", "1", "5", rule=before), (7, "", "mdcc: disk 1 failed\n"))
        self.assertEqual(steps_of(self.calls(), self.folder)[-3:], [f"zeros log 9 {FIRST_AHEAD}", "sync log", "print mdcc:"])
        self.assertEqual(self.log(), logs.write_log([]) + bytes(FIRST_AHEAD))
        self.assertEqual(self.run_program("node", "1", "0")[0], 0)

    def test_the_program_opens_what_a_power_cut_leaves(self):
        """At each call of two lives of a node, the first over no log, and of their appends: all that was told is there, and the node starts."""
        images, told, left = {"mdcc-1.log": Image(), "mdcc-1.alt": Image()}, [], {}
        for orders in ([[insert(b"a", 1)], [insert(b"b", 2)]], [[insert(b"c", 3)]]):
            for call in self.serve(orders):
                if call.name in CHANGES + SYNCS and call.file() in images:
                    images[call.file()].note(call)
                    for first in images["mdcc-1.log"].left():
                        for second in images["mdcc-1.alt"].left():
                            left[first, second] = told
                elif call.name in ("sendto", "write"):
                    told = logs.read_areas(*(image.durable for image in images.values()))
            for image in images.values():
                # The next life finds what is in the cache of the system.
                self.assertEqual((image.since, len(told) > 0), ([], True))
        self.assertEqual(len(told), 8)
        self.assertGreater(len(left), 30)
        with tempfile.TemporaryDirectory() as folder:
            for (first, second), facts in left.items():
                self.assert_opens(folder, first, second, facts)

    def assert_opens(self, folder, first, second, facts):
        for end, data in (("log", first), ("alt", second)):
            with open(os.path.join(folder, f"mdcc-1.{end}"), "wb") as file:
                file.write(data)
        done = subprocess.run([os.path.abspath(self.program), "node", "1", "0"], cwd=folder, input=configured().text, capture_output=True, timeout=60)
        self.assertEqual((done.returncode, done.stderr), (0, b""))
        self.assertEqual(logs.read_payloads(folder, 1)[:len(facts)], facts)
