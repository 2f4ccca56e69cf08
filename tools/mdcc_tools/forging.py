"""Messages made from random numbers: well-formed ones of every kind, of the centres, attributes and keys of a cluster."""
from . import messages
from .parts import FAST, Add, Choice, Part, Write

KEY_TEXT = "abcdefghijklmnopqrstuvwxyzABCDEFGHIJKLMNOPQRSTUVWXYZ0123456789_./-"


class Forger:
    """Makes messages of a cluster of so many centres and attributes. Most keys are those that are given, the others are its own."""

    def __init__(self, random, centres, attributes, keys):
        self.random, self.centres, self.attributes, self.keys = random, centres, attributes, keys

    # ---- parts

    def key(self):
        if self.random.random() < 0.8:
            return self.random.choice(self.keys)
        return "".join(self.random.choices(KEY_TEXT, k=self.random.randint(1, 32))).encode()

    def small(self):
        """A number that is mostly small: an epoch, a sequence number or a round that is in use."""
        return self.random.randint(1, 3) if self.random.random() < 0.8 else self.random.randint(1, 2 ** 32 - 1)

    def version(self):
        draw = self.random.random()
        return self.random.randint(0, 3) if draw < 0.8 else self.random.randint(0, 2 ** 64 - 1)

    def tx(self):
        return self.random.randint(1, self.centres), self.small(), self.small() if self.random.random() < 0.5 else self.random.randint(1, 5000)

    def txs(self, most):
        return tuple(sorted({self.tx() for _ in range(self.random.randint(0, most))}))

    def classic(self):
        return self.small(), self.small(), self.random.randint(1, self.centres)

    def ballot(self):
        return FAST if self.random.random() < 0.3 else self.classic()

    def item(self):
        body = self.random.randbytes(self.random.choice((0, 0, 3, 128)))
        return body, tuple(self.random.randint(-1000, 1000000) for _ in range(self.attributes))

    def amounts(self):
        attributes = sorted(self.random.sample(range(1, self.attributes + 1), self.random.randint(1, self.attributes)))
        return tuple((attribute, self.random.choice((-1, 1)) * self.random.randint(1, 1000)) for attribute in attributes)

    def update(self):
        return Write(self.item(), self.txs(3)) if self.random.random() < 0.5 else Add(self.amounts())

    def choice(self, tx, key, version):
        others = {self.key(): self.version() for _ in range(self.random.randint(0, 3))}
        return Choice(tx, key, version, self.update(), tuple(sorted({**others, key: version}.items())))

    def mark(self, tx, key, version):
        return None if self.random.random() < 0.4 else self.choice(tx, key, version)

    def options(self, key, version):
        return tuple((tx, self.mark(tx, key, version)) for tx in self.txs(4))

    def cause(self):
        tag = self.random.randint(1, 4)
        rest = {messages.CLASSIC: lambda: (self.classic(),), messages.LIMIT: lambda: (self.random.randint(0, self.attributes),)}
        return (tag,) + rest.get(tag, tuple)()

    def choices(self, tx):
        keys = sorted({self.key(): self.version() for _ in range(self.random.randint(1, 3))}.items())
        return tuple(Choice(tx, key, version, self.update(), tuple(keys)) for key, version in keys)

    def parts(self):
        keys = sorted({self.key() for _ in range(self.random.randint(1, 3))})
        return tuple(Part(key, self.version(), self.update()) for key in keys)

    def answer(self):
        tag = self.random.randint(1, 5)
        if tag == messages.READ:
            return tag, self.key(), self.version(), self.random.choice((None, self.item())), self.txs(3), self.random.randint(0, 1)
        if tag == messages.BEGUN:
            return tag, self.tx()
        if tag == messages.BEGIN_REFUSED:
            fault = self.random.randint(1, 5)
            return (tag, self.key(), fault) + {1: (self.version(), self.txs(3)), 2: (self.version(),)}.get(fault, ())
        if tag == messages.HEARD:
            return tag, self.tx(), self.random.randint(0, 1)
        return tag, self.random.randint(1, 6)

    # ---- messages

    def body(self, kind):
        key, version, tx = self.key(), self.version(), self.tx()
        through = min(version + self.random.randint(0, 200), 2 ** 64 - 1)
        if kind in (messages.PROPOSE, messages.LEAD):
            return (self.choice(tx, key, version),)
        if kind == messages.VOTED:
            return key, version, self.ballot(), tx, self.mark(tx, key, version)
        if kind == messages.ESCALATE:
            return key, version, tx, self.cause()
        if kind == messages.PREPARE:
            return key, version, through, self.classic()
        if kind == messages.PROMISE:
            return key, version, through, self.classic(), self.ballot(), self.options(key, version)
        if kind == messages.ACCEPT:
            return key, version, self.classic(), self.options(key, version)
        if kind == messages.REFUSED:
            return key, version, self.classic(), self.ballot()
        if kind == messages.OUTCOME:
            return tx, None if self.random.random() < 0.5 else self.choices(tx)
        if kind == messages.ASK:
            return tx, key, version
        if kind == messages.SYNC_ASK:
            return (key,)
        if kind == messages.SYNC_GIVE:
            return key, max(1, version), self.item(), tuple((given, self.amounts()) for given in self.txs(3))
        if kind == messages.CLIENT_READ:
            return self.random.getrandbits(32), key
        if kind == messages.CLIENT_BEGIN:
            return self.random.getrandbits(32), self.parts()
        if kind == messages.MARK:
            return tx
        if kind == messages.FINISHED:
            return (tx,)
        return self.random.getrandbits(32), self.answer()

    def message(self, kind, to=None):
        """A message of this kind, to a centre that is given or to one of all, as the envelope of its kind has it."""
        to = to or self.random.randint(1, self.centres)
        if kind in (messages.CLIENT_READ, messages.CLIENT_BEGIN):
            return 16 + to, to, kind, self.body(kind)
        if kind == messages.CLIENT_ANSWER:
            return to, 16 + to, kind, self.body(kind)
        return self.random.randint(1, self.centres), to, kind, self.body(kind)
