"""Tests of closed standard streams: a file that the program opens must not come to stand where a stream was, for then lines are written into it."""
import errno
import itertools
import os
import socket

from . import logs
from .calls import Rule
from .node_case import configured, made_payloads
from .recorded_case import STREAMS, RecordedCase

IN, OUT, ERR = STREAMS
ALL_WAYS = [closed for count in (1, 2, 3) for closed in itertools.combinations(STREAMS, count)]
COMMANDS = {"node": ("node", "1", "2"), "cluster": ("cluster", "2"), "dump": ("dump", "1"), "ask": ("ask", "1", "2", "7", "new:z:-:1")}
LINES = {0: "", 5: "mdcc: input failed\n", 6: "mdcc: output failed\n"}


class Streams(RecordedCase):
    def setUp(self):
        super().setUp()
        self.facts = made_payloads(9)
        self.make_log(logs.write_log(self.facts))
        self.make_log(b"", "alt")
        self.before = self.log()

    def assert_unharmed(self, may_boot):
        """The log has its facts, and of a command that starts a centre perhaps a boot more."""
        self.assertEqual(self.log("alt"), b"")
        if may_boot:
            payloads = logs.read_payloads(self.folder, 1)
            self.assertEqual(payloads[:len(self.facts)], self.facts)
            self.assertIn([payload[0] for payload in payloads[len(self.facts):]], ([], [logs.BOOTED]))
            self.assertTrue(self.log().startswith(self.before[:len(self.before) - 1]))
        else:
            self.assertEqual(self.log(), self.before)

    def run_closed(self, name, closed, status, output=None):
        """Runs a command with these streams closed, over the log as it was made."""
        self.make_log(self.before)
        words = {"closed": closed} if output is None else {"closed": closed, "output": output}
        ended, _, error = self.run_recorded(*COMMANDS[name], **words)
        self.assertEqual((ended, error), (status, "" if ERR in closed else LINES[status]))
        self.assert_unharmed(name in ("node", "cluster") and IN not in closed)
        self.assert_above_streams()

    def test_each_way(self):
        """Without its input a command reads no configuration; without its output it ends where it prints."""
        for name, closed in itertools.product(COMMANDS, ALL_WAYS):
            with self.subTest(command=name, closed=closed):
                self.run_closed(name, closed, 5 if IN in closed else 6 if OUT in closed else 0)

    def test_an_output_that_is_full(self):
        for name in COMMANDS:
            with self.subTest(command=name), open("/dev/full", "wb") as full:
                self.run_closed(name, (ERR,), 6, full)

    def test_errors_that_nobody_reads(self):
        """Each end that prints a line after the log was opened."""
        spoiled = logs.write_log([logs.encode_fact(logs.BOOTED, (2,))])
        for data, members, status in ((self.before, {"cells": 1}, 11), (spoiled, {}, 9), (b"MDCCLOG3" + bytes(9), {}, 9)):
            for name in ("node", "dump", "cluster"):
                with self.subTest(command=name, status=status):
                    self.make_log(data)
                    self.assertEqual(self.run_recorded(*COMMANDS[name], closed=(ERR,), **members)[0], status)
                    self.assertEqual(self.log(), data)

    def test_a_port_that_is_taken(self):
        taken = socket.socket(socket.AF_INET, socket.SOCK_DGRAM)
        taken.bind(configured().asked(1))
        for closed in ((ERR,), (OUT, ERR)):
            with self.subTest(closed=closed):
                self.make_log(self.before)
                self.assertEqual(self.run_recorded(*COMMANDS["node"], closed=closed)[0], 8)
                self.assert_unharmed(True)
        taken.close()

    def test_a_failed_disk(self):
        os.remove(self.path_of("alt"))
        os.mkdir(self.path_of("alt"))
        for name in ("node", "dump"):
            with self.subTest(command=name):
                self.assertEqual(self.run_recorded(*COMMANDS[name], closed=(ERR,))[0], 7)
                self.assertEqual(self.log(), self.before)

    def test_a_descriptor_that_cannot_be_moved(self):
        """The first that stands at a stream is that of a file, or of a socket of a client."""
        for name, status in (("node", 7), ("dump", 7), ("cluster", 7), ("ask", 8)):
            with self.subTest(command=name):
                self.make_log(self.before)
                self.assertEqual(self.run_recorded(*COMMANDS[name], closed=(ERR,), rule=Rule("dupfd", 1, 1, errno.EMFILE))[0], status)
                self.assertTrue(any(call.is_ruled for call in self.calls()))
                self.assertEqual(self.log(), self.before)

    def test_a_centre_that_is_not_there(self):
        self.assertEqual(self.run_recorded("node", "2", "2", closed=(ERR,))[0], 3)
        self.assertEqual(self.run_recorded("help", closed=(ERR,))[0], 2)
        self.assertEqual(self.log(), self.before)
