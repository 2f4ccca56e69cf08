"""What the logs of all centres say together of transactions whose outcomes were reported."""
from collections import Counter, defaultdict

from . import logs
from .parts import FAST, text_of_tx


class Audit:
    """The votes and outcomes in the logs of a cluster."""

    def __init__(self, configuration, folder):
        self.configuration, self.facts = configuration, Counter()
        # accepting marks by (transaction, key, version), then ballot: the centres that have them
        self.accepted = defaultdict(lambda: defaultdict(set))
        # outcomes by transaction: the centres that heard a commit, and those that heard an abort
        self.heard = defaultdict(lambda: (set(), set()))
        for centre in configuration.numbers():
            for kind, body in logs.read_log(folder, centre):
                self.facts[centre] += 1
                self.take(centre, kind, body)

    def take(self, centre, kind, body):
        if kind == logs.VOTED:
            key, version, ballot, options, _ = body
            for tx, choice in options:
                if choice is not None:
                    self.accepted[tx, key, version][ballot].add(centre)
        elif kind == logs.HEARD:
            tx, choices = body
            self.heard[tx][0 if choices is not None else 1].add(centre)

    def has_quorum(self, tx, key, version):
        """Whether a quorum accepts it at one ballot."""
        ballots = self.accepted[tx, key, version]
        return any(len(centres) >= (self.configuration.fast if ballot == FAST else self.configuration.classic)
                   for ballot, centres in ballots.items())

    def problems(self, reported):
        """What is wrong with the outcomes that were reported, (transaction, is it a commit, its keys with versions) each."""
        found = []
        for tx, commit, keys in reported:
            commits, aborts = self.heard[tx]
            name = text_of_tx(tx)
            if commit:
                found += [f"{name} was reported committed, and has no quorum at {key.decode()} version {version}"
                          for key, version in keys if not self.has_quorum(tx, key, version)]
                found += [f"{name} was reported committed, and centre {centre} heard an abort" for centre in sorted(aborts)]
            else:
                found += [f"{name} was reported aborted, and centre {centre} heard a commit" for centre in sorted(commits)]
        found += [f"{text_of_tx(tx)} was heard committed and aborted" for tx, (commits, aborts) in self.heard.items() if commits and aborts]
        return found

    def totals(self):
        commits = sum(1 for commits, _ in self.heard.values() if commits)
        aborts = sum(1 for _, aborts in self.heard.values() if aborts)
        return commits, aborts
