"""What the logs of all centres say together of records and of orders: which transactions committed, and what the records are then."""
from collections import defaultdict

from . import logs
from .auditing import Audit
from .parts import Write, text_of_tx


class Truth:
    """The committed transactions in the logs of a cluster, and the records that they leave.

    A transaction counts as committed where any log says that it was heard so. Its parts stand in that fact."""

    def __init__(self, configuration, folder):
        self.configuration, self.audit = configuration, Audit(configuration, folder)
        self.committed = {}
        for centre in configuration.numbers():
            for kind, body in logs.read_log(folder, centre):
                if kind == logs.HEARD and body[1] is not None:
                    self.committed[body[0]] = body[1]

    def happened(self, prefix, mark):
        """The transactions that wrote this mark into the record of an order, by the order's name."""
        found = defaultdict(list)
        for tx, choices in self.committed.items():
            for choice in choices:
                if choice.key.startswith(prefix) and isinstance(choice.update, Write) and choice.update.item[0][:1] == mark:
                    found[choice.key[len(prefix):].decode()].append(tx)
        return found

    def records(self):
        """The version and the numbers of each record, from the last write and the adds on it."""
        writes, adds = {}, defaultdict(list)
        for choices in self.committed.values():
            for choice in choices:
                if not isinstance(choice.update, Write):
                    adds[choice.key, choice.version].append(choice.update.amounts)
                elif choice.key not in writes or writes[choice.key][0] <= choice.version:
                    writes[choice.key] = choice.version + 1, choice.update.item[1]
        return {key: (version, summed(values, adds[key, version])) for key, (version, values) in writes.items()}

    def out_of_bounds(self):
        """What is wrong with the numbers of records."""
        bounds = self.configuration.bounds
        return [f"{key.decode()} has {values} at version {version}" for key, (version, values) in self.records().items()
                if not all(low <= value <= high for value, (low, high) in zip(values, bounds))]

    def problems(self):
        """What is wrong with the commits themselves: one without a quorum at one of its keys, or heard as an abort too."""
        return self.audit.problems([(tx, True, tuple((choice.key, choice.version) for choice in choices))
                                    for tx, choices in self.committed.items()])

    def missing(self, txs):
        """Those of these transactions that no log has as committed."""
        return [f"{text_of_tx(tx)} was reported committed, and no log has it" for tx in txs if tuple(tx) not in self.committed]


def summed(values, adds):
    numbers = list(values)
    for amounts in adds:
        for number, amount in amounts:
            numbers[number - 1] += amount
    return tuple(numbers)
