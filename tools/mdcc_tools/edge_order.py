"""Tests of the order of calls: what is durable when. No contract of the program can say what a call at a real file does, so that it is made, and when,
is looked at here."""
import fcntl
import os
import signal
import socket

from . import logs, messages
from .calls import CHANGES, SYNCS, Image, dirty_files, read_calls
from .datagrams import split
from .node_case import ONE, configured, insert, made_payloads
from .recorded_case import FIRST_AHEAD, RecordedCase

# Calls that change nothing that is durable and tell nobody anything.
SILENT = ("read", "pread", "statx", "poll", "recvfrom", "socket", "setsockopt", "ioctl", "dupfd")
# What calls that write to a file are in words.
WRITES = {"pwrite": "write", "zeros": "zeros"}


def target_of(call, folder):
    name = call.file()
    return "." if call.target == folder else name.removeprefix("mdcc-1.")


def step_of(call, folder):
    """A call in words: what is written and cut with its offset and size."""
    name = target_of(call, folder)
    if call.name == "open":
        return f"create {name}" if call.at & os.O_CREAT else f"open {name}"
    if call.name == "flock":
        return f"lock {name}" if call.at == fcntl.LOCK_EX | fcntl.LOCK_NB else f"flock {call.at}"
    if call.name in ("fsync", "fdatasync"):
        return f"sync {name}"
    if call.name == "ftruncate":
        return f"cut {name} {call.at}"
    if call.name == "bind":
        return f"bind {call.at - ONE['port']}"
    if call.name == "write":
        return "print " + call.data.decode().split()[0]
    if call.name == "sendto":
        return f"send {call.at - ONE['port']}"
    return call.name


def steps_of(calls, folder):
    """All calls that tell or keep something, in words; writes that follow each other, each behind the last, are one, and so are zeros."""
    steps, end = [], None
    for call in calls:
        if call.name in SILENT:
            continue
        if call.name not in WRITES:
            steps.append(step_of(call, folder))
            end = None
            continue
        word, name, size = WRITES[call.name], target_of(call, folder), call.answer
        if not call.is_made():
            steps.append(f"{word} {name} {call.at} refused")
            end = None
            continue
        if end == (word, name, call.at):
            at, before = map(int, steps[-1].split()[2:])
            steps[-1] = f"{word} {name} {at} {before + size}"
        else:
            steps.append(f"{word} {name} {call.at} {size}")
        end = (word, name, call.at + size)
    return steps


def append_steps(gate, size, name="log"):
    """An append behind the closed gate at this offset: what is written, durable, and then the gate."""
    return [f"write {name} {gate + 1} {size}", f"sync {name}", f"write {name} {gate} 1", f"sync {name}"]


def first_steps(gate, size, name="log"):
    """An append with nothing behind its gate: zeros are durable there before it is made over them."""
    return [f"zeros {name} {gate + 1} {FIRST_AHEAD}", f"sync {name}"] + append_steps(gate, size, name)


def opened(name):
    return [f"create {name}", f"lock {name}", "open .", "sync .", f"sync {name}"]


BOUND = ["bind 1", "bind 17"]
STARTED = BOUND + ["print boot", "print done"]
# A boot as a frame: its length, five bytes, and the closed gate behind it.
BOOT_BYTES = 10


class Order(RecordedCase):
    def run_node(self, turns=0):
        node = self.recorded_node(most_bytes=1 << 20)
        node.start(turns)
        self.assertEqual(node.process.wait(60), 0)
        return steps_of(self.calls(), self.folder)

    def test_a_first_start(self):
        """Each file is made and locked and its name durable, then what stands in it, before a byte is written; all is durable before a port is bound."""
        begun = ["cut log 0", "write log 0 9", "sync log"]
        self.assertEqual(self.run_node(), opened("log") + opened("alt") + begun + first_steps(8, BOOT_BYTES) + STARTED)
        self.assertEqual((len(self.log()), len(self.log("alt"))), (9 + FIRST_AHEAD, 0))

    def test_a_start_over_a_log(self):
        self.make_log(logs.write_log(made_payloads(9)))
        gate = len(self.log()) - 1
        self.assertEqual(self.run_node(), opened("log") + opened("alt") + first_steps(gate, BOOT_BYTES) + STARTED)

    def test_what_stands_behind_the_last_gate_is_cut(self):
        """An append that was broken off leaves bytes behind a closed gate, and each end of a node zeros. They are cut off, and that is durable,
        before an append writes there."""
        whole = logs.write_log(made_payloads(9))
        for behind in (b"\7" * 200, bytes(FIRST_AHEAD)):
            self.make_log(whole + behind)
            gate = len(whole) - 1
            repaired = [f"cut log {gate + 1}", "sync log"]
            self.assertEqual(self.run_node(), opened("log") + opened("alt") + repaired + first_steps(gate, BOOT_BYTES) + STARTED)
            self.assertEqual(self.log()[len(whole) + BOOT_BYTES:], bytes(FIRST_AHEAD - BOOT_BYTES))
            self.assertEqual(len(logs.read_payloads(self.folder, 1)), 10)

    def test_checkpoints(self):
        """A copy is durable behind a closed gate before that is opened. Where an older copy stands there, its gate is shut and that durable before
        it is cut. No zeros are written while it is not durable."""
        made = made_payloads(1034)
        self.make_log(logs.write_log(made[:1023]))
        gate, size = len(self.log()) - 1, sum(len(payload) + 4 for payload in made[:1023]) + 9
        first = ["write alt 0 9", "sync alt", "cut alt 9", f"write alt 9 {16 + size + 1}", "sync alt", "write alt 8 1", "sync alt"]
        self.assertEqual(self.run_node(), opened("log") + opened("alt") + first_steps(gate, BOOT_BYTES) + first + STARTED)
        self.make_log(logs.write_log(made[:11]))
        self.make_log(logs.write_area(1, made[:10], made[10:1033]), "alt")
        gate, size = len(self.log("alt")) - 1, sum(len(payload) + 4 for payload in made[:1033]) + 9
        second = ["write log 8 1", "sync log", "cut log 9", "write log 0 8", f"write log 9 {16 + size + 1}", "sync log", "write log 8 1", "sync log"]
        self.assertEqual(self.run_node(), opened("log") + opened("alt") + first_steps(gate, BOOT_BYTES, "alt") + second + STARTED)
        self.assertEqual(len(self.log()), 9 + 16 + size + 1)

    def test_an_append(self):
        """An order of one centre, whose messages go to itself: its vote is durable before that is sent, and its outcome before that is told."""
        node = self.recorded_node()
        node.start()
        node.wait_until_up()
        self.answers(self.client(), insert(b"a", 10))
        node.wait_until_said("heard")
        node.kill()
        vote, outcome = (len(payload) + 5 for payload in logs.read_payloads(self.folder, 1)[1:])
        gate = 8 + BOOT_BYTES
        self.assertEqual(self.steps_after_boot(), ["send 1", "send 33"] + append_steps(gate, vote) + ["send 1"] + append_steps(gate + vote, outcome)
                         + ["send 33", "print heard"])

    def test_a_group(self):
        """What comes of orders that wait together is appended together: four calls for all their votes, and only then all messages with these."""
        node = self.recorded_node()
        node.start()
        node.wait_until_up()
        node.process.send_signal(signal.SIGSTOP)
        bound = socket.socket(socket.AF_INET, socket.SOCK_DGRAM)
        bound.bind(configured().client(1))
        bound.settimeout(20)
        for number in range(8):
            message = messages.encode(17, 1, messages.CLIENT_BEGIN, (77 + number, (insert(b"a%d" % number, 10),)))
            bound.sendto(split(message, 17, 77, number)[0], configured().asked(1))
        node.process.send_signal(signal.SIGCONT)
        for _ in range(16):
            bound.recv(2048)
        bound.close()
        node.wait_until_said("heard", 8)
        node.kill()
        payloads = logs.read_payloads(self.folder, 1)[1:]
        votes, outcomes = (sum(len(payload) + 5 for payload in payloads if payload[0] == kind) for kind in (logs.VOTED, logs.HEARD))
        gate = 8 + BOOT_BYTES
        self.assertEqual(self.steps_after_boot(), ["send 1", "send 33"] * 8 + append_steps(gate, votes) + ["send 1"] * 8
                         + append_steps(gate + votes, outcomes) + ["send 33"] * 8 + ["print heard"] * 8)

    def steps_after_boot(self):
        steps = steps_of(self.calls(), self.folder)
        return steps[steps.index("print boot") + 1:]

    def test_nothing_is_told_before_all_is_durable(self):
        for turn in self.loaded_calls():
            self.assertEqual(turn, set())

    def loaded_calls(self):
        """A node under orders, over a checkpoint: at each line and datagram, the files that then have changes which are not durable. The log of
        before has the outcome of each vote, so that nothing else is heard."""
        self.make_log(logs.write_log(made_payloads(1001)))
        node = self.recorded_node(most_bytes=1 << 20)
        node.start()
        node.wait_until_up()
        client, told = self.client(), []
        for number in range(40):
            client.begin(1, (insert(b"k/%d" % number, number, bytes(number)),), lambda _, answer: self.note(told, answer))
            if number % 7 == 0:
                client.run_until(lambda: len(told) == number + 1, 20)
        self.assertTrue(client.run_until(lambda: len(told) == 40, 20))
        node.wait_until_said("heard", 40)
        node.kill()
        self.assertEqual(len(node.said("heard")), 40)
        calls = self.calls()
        return [dirty for call, dirty in zip(calls, dirty_files(calls)) if call.name in ("sendto", "write", "bind")]

    @staticmethod
    def note(told, answer):
        if answer is not None and answer[0] == messages.BEGUN:
            return False
        told.append(answer)
        return True

    def test_a_power_cut_loses_nothing_that_was_told(self):
        """Whatever of what is not durable stays at a power cut, the log has all facts that it had when something was told last; and after all calls
        the files have just the bytes of the record."""
        made = made_payloads(1001)
        self.loaded_calls()
        images = {"mdcc-1.log": Image(logs.write_log(made)), "mdcc-1.alt": Image()}
        told, number = made, 0
        for call in self.calls():
            if call.name in CHANGES + SYNCS and call.file() in images:
                images[call.file()].note(call)
                number += 1
                self.assert_left(images, told)
            elif call.name in ("sendto", "write"):
                now = logs.read_areas(*(image.durable for image in images.values()))
                self.assertEqual(now[:len(told)], told)
                told = now
        self.assertGreater(number, 40)
        self.assertEqual(len(told), len(made) + 1 + 2 * 40)
        for end in ("log", "alt"):
            image = images[f"mdcc-1.{end}"]
            self.assertEqual(self.log(end), image.after(range(len(image.since))))

    def assert_left(self, images, told):
        for first in images["mdcc-1.log"].left():
            for second in images["mdcc-1.alt"].left():
                try:
                    self.assertEqual(logs.read_areas(first, second)[:len(told)], told)
                except logs.NotALog as fault:
                    self.fail(f"a power cut leaves what is no log from {fault} on")

    def test_a_log_is_locked(self):
        """A second process neither reads nor changes a log that another has."""
        with open(self.path_of("log"), "wb") as log:
            log.write(logs.write_log(made_payloads(9)))
            log.flush()
            fcntl.flock(log, fcntl.LOCK_EX)
            before = self.log()
            for words in (("node", "1", "0"), ("dump", "1"), ("cluster", "0")):
                self.assertEqual(self.run_recorded(*words), (7, "", "mdcc: disk 1 failed\n"))
                self.assertNotIn("pwrite", [call.name for call in read_calls(self.record())])
                self.assertEqual(self.log(), before)

    def test_a_running_node_has_both_files(self):
        node = self.recorded_node()
        node.start()
        node.wait_until_up()
        for end in ("log", "alt"):
            with open(self.path_of(end), "rb") as file:
                with self.assertRaises(BlockingIOError):
                    fcntl.flock(file, fcntl.LOCK_EX | fcntl.LOCK_NB)
