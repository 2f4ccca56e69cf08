"""Tests of calls that fail: each call of a node, at several of its turns, with each errno of a table. A node ends with the status of what failed or
goes on, as docs/NODES.md says, and has all that was acknowledged when it is started again."""
import errno
import os
import subprocess
import tempfile
import time
from concurrent.futures import ThreadPoolExecutor
from typing import NamedTuple

from . import logs, messages
from .calls import AT_FILES, AT_SOCKETS, Rule, counts_of, environment_of, has_struck, read_calls
from .client import Client
from .node_case import configured, insert, made_payloads
from .processes import Node, NodeFailed
from .recorded_case import STREAMS, RecordedCase

SHORT = "short"
ERRORS = (errno.EIO, errno.ENOSPC, errno.EINTR, errno.EAGAIN, errno.ENOMEM, errno.ENOBUFS)
GOES_ON, INPUT, OUTPUT, DISK, LINK = 0, 5, 6, 7, 8
LINES = {GOES_ON: [], INPUT: ["mdcc: input failed"], OUTPUT: ["mdcc: output failed"], DISK: ["mdcc: disk 1 failed"], LINK: ["mdcc: link failed"]}

# What a node ends with where a call fails once, and for which errors it does not: it tries again, or takes it that nothing came.
ENDS = {
    "read": (INPUT, {errno.EINTR, errno.EAGAIN, SHORT}),
    "write": (OUTPUT, {errno.EINTR, errno.EAGAIN, SHORT}),
    "open": (DISK, {errno.EINTR}),
    "flock": (DISK, {errno.EINTR}),
    "statx": (DISK, set()),
    "fsync": (DISK, {errno.EINTR}),
    "fdatasync": (DISK, {errno.EINTR}),
    "ftruncate": (DISK, {errno.EINTR}),
    "pread": (DISK, {errno.EINTR, SHORT}),
    "pwrite": (DISK, {errno.EINTR, SHORT}),
    "socket": (LINK, set()),
    "bind": (LINK, set()),
    "ioctl": (LINK, set()),
    "recvfrom": (LINK, {errno.EINTR, errno.EAGAIN, errno.ENOMEM, errno.ENOBUFS}),
    "setsockopt": (GOES_ON, set()),
    "poll": (GOES_ON, set()),
    "sendto": (GOES_ON, set()),
}
# Which of many calls of a name fail.
MOST_PLACES = 6
# Seconds in which a call that fails has to come, and in which its node has to end of it.
MOST_SECONDS = 60


def wanted(name, how):
    """The status of docs/NODES.md where a call of this name fails so."""
    status, others = ENDS[name]
    return GOES_ON if how in others else status


def places(count):
    if count <= MOST_PLACES:
        return range(1, count + 1)
    return sorted({1, 2, 3, count // 2, count - 1, count})


class Ended(NamedTuple):
    """How a node ended: its status, or 0 where it still served; what was acknowledged, and what it recorded."""
    status: int
    errors: list
    acknowledged: dict
    printed: dict
    calls: list
    is_served: bool


def wait_for_end(node):
    try:
        node.process.wait(MOST_SECONDS)
    except subprocess.TimeoutExpired:
        pass


class Trial:
    """Runs of a node of one centre at an address of its own, each over a log of its own, under a few orders. They have one client: a socket that
    is closed stays bound for a moment where another thread just starts a process."""

    def __init__(self, program, host, payloads, orders):
        self.program, self.payloads, self.orders = program, payloads, orders
        self.configuration = configured(hosts=[host])
        self.client = Client(self.configuration, again=0.05, patience=MOST_SECONDS)

    def run(self, rule):
        """The problems of a run by this rule, with what it recorded."""
        with tempfile.TemporaryDirectory() as folder:
            self.make_log(folder)
            ended = self.serve(folder, rule)
            return self.problems(folder, rule, ended), ended

    def make_log(self, folder):
        if self.payloads:
            with open(os.path.join(folder, "mdcc-1.log"), "wb") as log:
                log.write(logs.write_log(self.payloads))

    def serve(self, folder, rule):
        record = os.path.join(folder, "calls")
        node = Node(self.program, self.configuration, folder, 1, environment_of(record, rule))
        acknowledged = {}
        node.start()
        try:
            node.wait_until_up(MOST_SECONDS)
            is_served = self.order_until_struck(node, record, rule, acknowledged)
        except NodeFailed:
            # It ended, or stands still: its status says which.
            is_served = False
        if rule is not None and wanted(rule.name, rule.how) != GOES_ON and has_struck(record):
            wait_for_end(node)
        status = 0 if node.is_running() else node.process.returncode
        node.kill()
        self.client.step(0)
        self.client.forget()
        printed = {line.split()[2]: int(line.split()[3] == "commit") for line in node.said("heard") if len(line.split()) == 4}
        return Ended(status, node.errors(), acknowledged, printed, read_calls(record), is_served)

    def order_until_struck(self, node, record, rule, acknowledged):
        """Gives orders, and more of them until the rule has struck, since how many calls of a name an order takes is another number in each run;
        then one more. Says whether all were answered."""
        end, number, is_last = time.monotonic() + MOST_SECONDS, 0, False
        while not is_last:
            is_last = number >= self.orders and (rule is None or has_struck(record) or time.monotonic() > end)
            if not self.order(node, number, acknowledged):
                return False
            number += 1
        node.wait_until_said("heard", number, MOST_SECONDS)
        return True

    def order(self, node, number, acknowledged):
        """Gives an order, and says whether its outcome was told."""
        told = []

        def answered(_, answer):
            if answer is not None and answer[0] == messages.HEARD:
                acknowledged[answer[1]] = answer[2]
            if answer is not None and answer[0] == messages.BEGUN:
                return False
            told.append(answer)
            return True

        self.client.begin(1, (insert(b"q/%d" % number, number % 1000, bytes(5 * number % 120)),), answered)
        self.client.run_until(lambda: told or not node.is_running(), MOST_SECONDS)
        return told and told[0] is not None and told[0][0] == messages.HEARD

    def problems(self, folder, rule, ended):
        is_struck = any(call.is_ruled for call in ended.calls)
        right = wanted(rule.name, rule.how) if is_struck else GOES_ON
        found = [] if is_struck or rule is None else ["the call did not come"]
        if ended.status != right or ended.errors != LINES[right]:
            found.append(f"status {ended.status} {ended.errors}, not {right}")
        elif ended.status == GOES_ON and not ended.is_served:
            found.append(f"it serves no more: {len(ended.acknowledged)} orders were told")
        if any(call.descriptor in STREAMS for call in ended.calls if call.name in AT_FILES + AT_SOCKETS):
            found.append("what was opened stands where a stream does")
        found += self.lost(folder, ended)
        done = subprocess.run([self.program, "node", "1", "0"], cwd=folder, input=self.configuration.text, capture_output=True, timeout=60)
        if done.returncode != 0:
            found.append(f"started again it ends with {done.returncode} {done.stderr}")
        return found + self.lost(folder, ended)

    def lost(self, folder, ended):
        """What its log does not have of what was there, acknowledged or printed."""
        try:
            payloads = logs.read_payloads(folder, 1)
        except logs.NotALog as fault:
            return [f"the log is none: {fault}"]
        heard = {body[0]: int(any(choice is not None for choice in body[1])) for kind, body in map(logs.decode_fact, payloads) if kind == logs.HEARD}
        found = [] if payloads[:len(self.payloads)] == self.payloads else ["facts that were there are changed"]
        found += [f"acknowledged {tx} is lost" for tx in ended.acknowledged if tx not in heard]
        names = {".".join(map(str, tx)) for tx in heard}
        return found + [f"printed {tx} is lost" for tx in ended.printed if tx not in names]


class Faults(RecordedCase):
    # Nodes that run beside each other, each at an address of its own.
    BESIDE = 6

    def try_all(self, payloads, orders):
        hosts = [f"127.0.0.{number}" for number in range(11, 11 + self.BESIDE)]
        trials = {host: Trial(os.path.abspath(self.program), host, payloads, orders) for host in hosts}
        for trial in trials.values():
            self.addCleanup(trial.client.close)
        problems, clean = trials[hosts[0]].run(None)
        self.assertEqual(problems, [])
        counts = counts_of(clean.calls)
        rules = [Rule(name, place, 1, how) for name in ENDS for how in (*ERRORS, *({SHORT} & ENDS[name][1])) for place in places(counts[name])]
        shares = [rules[number::self.BESIDE] for number in range(self.BESIDE)]

        def try_share(host, share):
            return [(rule, *trials[host].run(rule)) for rule in share]

        with ThreadPoolExecutor(self.BESIDE) as pool:
            tried = [result for results in pool.map(try_share, hosts, shares) for result in results]
        found = [f"{rule.name} {rule.first} {errno.errorcode.get(rule.how, rule.how)}: {'; '.join(problems)}" for rule, problems, _ in tried if problems]
        self.assertEqual(found, [], "\n".join(["", *found]))
        return counts, len(tried)

    def test_over_no_log(self):
        counts, _ = self.try_all([], 3)
        self.assertEqual([name for name in ENDS if not counts[name]], ["pread"])

    def test_over_a_log_with_a_checkpoint(self):
        """The boot, or what comes after it, fills the log up to its checkpoint, whose calls fail too."""
        counts, _ = self.try_all(made_payloads(1020), 3)
        self.assertEqual([name for name in ENDS if not counts[name]], [])
