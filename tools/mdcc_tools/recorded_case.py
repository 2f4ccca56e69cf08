"""What tests of the program's calls stand on: each run of a program is recorded, and a call can be made to fail."""
import os
import subprocess
import sys
import unittest

from .calls import AT_FILES, AT_SOCKETS, environment_of, read_calls
from .compiled import NotCompiled, library
from .node_case import NodeCase, configured
from .processes import Node

# The descriptors of the standard streams; what the program opens has others.
STREAMS = (0, 1, 2)
# How many zeros are written behind the end of a log at first; each time twice as many, up to `areas.AHEAD`.
FIRST_AHEAD = 1 << 16


class RecordedCase(NodeCase):
    # A rule for all runs that have none of their own: by it a test of the tests leaves calls out. Such calls are no part of a record.
    rule = None

    @classmethod
    def setUpClass(cls):
        try:
            library("calls")
        except NotCompiled as missing:
            print(f"{cls.__name__} is left out: {missing}", file=sys.stderr)
            raise unittest.SkipTest(str(missing))

    def setUp(self):
        super().setUp()
        self.runs = 0

    def recording(self, rule=None, most_bytes=64):
        """The environment of a run whose record is the newest from then on."""
        self.runs += 1
        return environment_of(self.record(), rule or self.rule, most_bytes)

    def record(self):
        return os.path.join(self.folder, f"calls-{self.runs}")

    def calls(self):
        """The calls of the newest run, without those that the rule for all runs leaves out."""
        return [call for call in read_calls(self.record()) if self.rule is None or not call.is_ruled]

    def recorded_node(self, rule=None, most_bytes=64, **members):
        node = Node(self.program, configured(**members), self.folder, 1, self.recording(rule, most_bytes))
        self.nodes.append(node)
        return node

    def run_recorded(self, *words, closed=(), given=None, rule=None, output=subprocess.PIPE, **members):
        """Runs a command with some of its standard streams closed: its status, what it printed, and its errors."""
        text = configured(**members).text if given is None else given
        done = subprocess.run([os.path.abspath(self.program), *words], cwd=self.folder, input=text, stdout=output, stderr=subprocess.PIPE, timeout=120,
                              env={**os.environ, **self.recording(rule)}, preexec_fn=lambda: list(map(os.close, closed)))
        return done.returncode, (done.stdout or b"").decode(), done.stderr.decode()

    def assert_above_streams(self):
        """All that the newest run opened had descriptors above those of the standard streams when it was used."""
        for call in self.calls():
            if call.name in AT_FILES + AT_SOCKETS:
                self.assertNotIn(call.descriptor, STREAMS, call)
