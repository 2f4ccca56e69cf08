"""Commands at a centre, as its client: the centre's own machine, and nothing else asks it meanwhile."""
from __future__ import annotations

from typing import Optional

from mdcc import Aborted, Committed, PortTaken, Record, Refused, Result, Store, Transaction, Unanswered, Why, read_configuration

from .answers import DONE, NOT, REFUSED, WORDS, Answer, committed, line_of_item, not_done, unknown
from .words import Adds, Command, Get, Put, WrongWords

# The key that is asked for to see whether the centre answers; whether there is a record does not matter.
PROBE = "probe"


def answer_of(command: Command, result: Result) -> Answer:
    """What a result says."""
    if isinstance(result, Committed):
        return committed(None if result.tx is None else str(result.tx))
    if isinstance(result, (Aborted, Refused)):
        status = WORDS if result.why is Why.DRAFT else NOT if isinstance(result, Aborted) else REFUSED
        return not_done(status, result.why.value, result.key)
    return unknown(command, "no end was told in time")


def line_of_record(record: Record) -> str:
    return line_of_item(record.key, record.version, record.values, record.body) if record else f"{record.key} absent"


class Centre:
    """A store of one centre, which is asked one command."""

    def __init__(self, configuration: str, centre: int, **settings: float):
        try:
            self.configuration = read_configuration(configuration)
        except (OSError, ValueError) as error:
            raise WrongWords(f"the configuration: {error}") from None
        if centre not in self.configuration.centres:
            raise WrongWords(f"there is no centre {centre} in {configuration}")
        self.centre, self.settings = centre, settings

    def ask(self, command: Command) -> Answer:
        """Does a command. Raises WrongWords where the store can take no such thing."""
        host, port = self.configuration.asked(self.centre)
        try:
            store = Store.connect(self.configuration, [self.centre], **self.settings)
        except PortTaken:
            return not_done(REFUSED, f"another process is the client of centre {self.centre}",
                            advice="where that is a gateway, ask it: --gateway http://HOST:PORT")
        except OSError as error:
            return not_done(REFUSED, str(error), advice="a centre is asked on its own machine; elsewhere, ask a gateway: --gateway")
        with store:
            try:
                store.read(PROBE, self.centre)
                return self.answer(store, command) or Answer(DONE, (f"centre {self.centre} answers at {host}:{port}",))
            except Unanswered:
                return not_done(REFUSED, f"centre {self.centre} does not answer at {host}:{port}",
                                advice="see whether its node runs; another centre may answer: --centre")
            except ValueError as error:
                raise WrongWords(str(error)) from None

    def answer(self, store: Store, command: Command) -> Optional[Answer]:
        """The answer of a centre that is there; None where there is nothing more to do."""
        if isinstance(command, Get):
            records = store.read_many(command.keys, self.centre)
            return Answer(DONE if all(records) else NOT, tuple(map(line_of_record, records)))
        if isinstance(command, Put):
            return answer_of(command, self.put(store, command))
        if isinstance(command, Adds):
            return answer_of(command, self.add(store, command))
        return None

    def put(self, store: Store, put: Put) -> Result:
        def write(transaction: Transaction) -> None:
            transaction.set(transaction.read(put.key), put.values, put.body)

        if not put.is_new:
            return store.run(write, centre=self.centre)
        transaction = store.transaction(centre=self.centre)
        transaction.insert(put.key, put.values, put.body or b"")
        return transaction.commit()

    def add(self, store: Store, adds: Adds) -> Result:
        # Nobody knows here whether an order was sent before.
        transaction = store.transaction(adds.order, centre=self.centre, again=adds.order is not None)
        for key, amounts in adds.amounts.items():
            transaction.add(key, dict(enumerate(amounts, 1)))
        return transaction.commit()
