"""The step of a node, after `mdcc_def_rules`' definitions, for pictures: what it adds to its facts, and which messages it sends, in their order."""
from typing import List, NamedTuple, Optional, Tuple

from . import logs
from .messages import (
    ACCEPT, ASK, BEHIND, CLASSIC, ESCALATE, FULL, LEAD, LIMIT, OUTCOME, PREPARE, PROMISE, PROPOSE, REFUSED, SYNC_ASK, SYNC_GIVE, VOTED)
from .model_facts import (
    ACCEPT_ROOM, BREAKS, CONFLICT, FITS, LAST_VERSION, REJECT_ROOM, Ballot, Cluster, Fact, Facts, Load, Tx, cells_needed, fast_fit)
from .model_roles import (
    MOST_ACCEPTED, MOST_OPEN, MOST_REJECTED, Claim, Exhausted, Kept, Lead, Open, Report, Vote, decision, first_structure, has_collided,
    is_enough, learned, taken, with_claim)
from .parts import FAST, Choice, Part, Write

Send = Tuple[int, int, tuple]


class Step(NamedTuple):
    """At most one fact, messages (to, kind, body) in order, and the transaction that the fact closes."""
    fact: Optional[Fact] = None
    sends: Tuple[Send, ...] = ()
    closes: Optional[Tx] = None


class NoRoom(Exception):
    """A step is dropped, since its fact needs more cells than are spare."""


class Node:
    """A centre: its facts, and what it keeps beside them."""

    def __init__(self, cluster: Cluster, me: int):
        self.cluster, self.me = cluster, me
        self.facts, self.kept = Facts(), Kept()
        self.rules = {PROPOSE: self.on_propose, VOTED: self.on_voted, ESCALATE: self.on_escalate, LEAD: self.on_lead,
                      PREPARE: self.on_prepare, PROMISE: self.on_promise, ACCEPT: self.on_accept, REFUSED: self.on_refused,
                      OUTCOME: self.on_outcome, ASK: self.on_ask, SYNC_ASK: self.on_sync_ask, SYNC_GIVE: self.on_sync_give}

    def all(self, kind: int, body: tuple) -> Tuple[Send, ...]:
        return tuple((to, kind, body) for to in self.cluster.all())

    def others(self, kind: int, body: tuple) -> Tuple[Send, ...]:
        return tuple((to, kind, body) for to in self.cluster.all() if to != self.me)

    def take(self, sender: int, kind: int, body: tuple) -> Step:
        """The step at a message. It raises NoRoom where it is dropped; a step that is refused for another cause does nothing."""
        try:
            step = self.rules[kind](sender, *body)
        except Exhausted:
            return Step()
        if step.fact is not None:
            needed, spare = cells_needed(step.fact), self.cluster.cells - self.facts.cells
            if needed > spare:
                raise NoRoom(needed, spare)
            if self.facts.is_crowding(step.fact):
                return Step()
        return step

    def apply(self, step: Step) -> None:
        """The fact of a step counts, and closes its transaction."""
        if step.fact is not None:
            self.facts.add(step.fact)
        if step.closes is not None:
            self.kept.close(step.closes)

    # ---- the acceptor

    def on_propose(self, sender: int, choice: Choice) -> Step:
        facts, (tx, key, version) = self.facts, choice[:3]
        if tx in facts.heard:
            return Step(sends=((sender, OUTCOME, (tx, facts.heard[tx])),))
        voted = facts.vote_of(key, version, tx)
        if voted is not None:
            return Step(sends=((sender, VOTED, (key, version, voted[0], tx, voted[1])),))
        cause, mark = self.answer_to_new(choice)
        if cause is not None:
            return Step(sends=((sender, ESCALATE, (key, version, tx, cause)),))
        fact = logs.VOTED, (key, version, FAST, ((tx, mark),), None if mark else choice)
        return Step(fact, ((sender, VOTED, (key, version, FAST, tx, mark)),))

    def answer_to_new(self, choice: Choice) -> Tuple[Optional[tuple], Optional[Choice]]:
        """A cause for no vote, or None with the mark to vote."""
        facts, key, version = self.facts, choice.key, choice.version
        if facts.version_of(key) < version:
            return (BEHIND,), None
        promise = facts.promise_of(key, version)
        if promise != FAST:
            return (CLASSIC, promise), None
        votes = facts.votes_at(key, version, FAST)
        accepts = sum(mark is not None for mark in votes.values())
        fit: Tuple[str, Optional[int]] = (CONFLICT, None)
        if version >= facts.version_of(key):
            load = Load(facts.live_of(key, version), getattr(choice.update, "seen", ()))
            fit = fast_fit(self.cluster, facts.base_of(key), load, choice.update)
        if fit[0] == FITS:
            return (None, choice) if accepts < ACCEPT_ROOM[type(choice.update)] else ((FULL,), None)
        if fit[0] in (CONFLICT, BREAKS):
            return (None, None) if len(votes) - accepts < REJECT_ROOM else ((FULL,), None)
        return (LIMIT, fit[1]), None

    def on_prepare(self, leader: int, key: bytes, version: int, through: int, ballot: Ballot) -> Step:
        facts, promise = self.facts, self.facts.promise_of(key, version)
        if ballot < promise:
            return Step(sends=((leader, REFUSED, (key, version, ballot, promise)),))
        high, fact = facts.promised_through(key, version, ballot), None
        if high is None:
            high = through if facts.version_of(key) <= version else version
            fact = logs.PROMISED, (key, version, high, ballot)
        reported, votes = facts.report_of(key, version, ballot)
        return Step(fact, ((leader, PROMISE, (key, version, high, ballot, reported, tuple(sorted(votes.items())))),))

    def votes_sent(self, key: bytes, version: int, ballot: Ballot, options: tuple) -> Tuple[Send, ...]:
        """A vote goes to the transaction's centre and, if another, to the ballot's, unless the transaction was heard."""
        return tuple((to, VOTED, (key, version, ballot, tx, mark)) for tx, mark in options if tx not in self.facts.heard
                     for to in ([tx[0]] if tx[0] == ballot[2] else [tx[0], ballot[2]]))

    def on_accept(self, leader: int, key: bytes, version: int, ballot: Ballot, options: tuple) -> Step:
        promise = self.facts.promise_of(key, version)
        if ballot < promise:
            return Step(sends=((leader, REFUSED, (key, version, ballot, promise)),))
        if self.facts.version_of(key) < version:
            return Step(sends=((leader, SYNC_ASK, (key,)),))
        before = self.facts.votes_at(key, version, ballot)
        new = tuple((tx, mark) for tx, mark in options if tx not in before)
        if not new:
            return Step(sends=self.votes_sent(key, version, ballot, options))
        return Step((logs.VOTED, (key, version, ballot, new, None)), self.votes_sent(key, version, ballot, new))

    def on_ask(self, sender: int, tx: Tx, key: bytes, version: int) -> Step:
        if tx in self.facts.heard:
            return Step(sends=((sender, OUTCOME, (tx, self.facts.heard[tx])),))
        voted = self.facts.vote_of(key, version, tx)
        return Step() if voted is None else Step(sends=((sender, VOTED, (key, version, voted[0], tx, voted[1])),))

    # ---- what is heard and passed on

    def on_outcome(self, sender: int, tx: Tx, outcome: Optional[tuple]) -> Step:
        return Step() if tx in self.facts.heard else Step((logs.HEARD, (tx, outcome)), (), tx)

    def give(self, to: int, key: bytes) -> Tuple[Send, ...]:
        item = self.facts.base_of(key)
        if item is None:
            return ()
        return ((to, SYNC_GIVE, (key, self.facts.version_of(key), item, tuple(sorted(self.facts.executed(key).items())))),)

    def on_sync_ask(self, sender: int, key: bytes) -> Step:
        return Step(sends=self.give(sender, key))

    def on_sync_give(self, sender: int, key: bytes, version: int, item: tuple, deltas: tuple) -> Step:
        return Step((logs.ADOPTED, (key, version, item, deltas))) if self.facts.is_news(key, version, deltas) else Step()

    # ---- the manager

    def begin(self, parts: Tuple[Part, ...]) -> Tuple[Optional[Tx], Optional[tuple], Step]:
        """A transaction, or None with why it is not begun: (word, key, version, seen)."""
        for part in parts:
            version, seen = self.facts.token_of(part.key)
            if isinstance(part.update, Write):
                if (version, seen) != (part.version, part.update.seen):
                    return None, ("stale", part.key, version, len(seen)), Step()
            elif version != part.version:
                return None, ("unseen", part.key, version, 0), Step()
            elif version == 0:
                return None, ("noitem", part.key, 0, 0), Step()
        if len(self.kept.open) >= MOST_OPEN:
            return None, ("busy", parts[0].key, 0, 0), Step()
        self.kept.seq += 1
        tx, write_set = (self.me, self.facts.epoch, self.kept.seq), tuple((part.key, part.version) for part in parts)
        choices = tuple(Choice(tx, part.key, part.version, part.update, write_set) for part in parts)
        self.kept.open[tx] = Open(choices)
        return tx, None, Step(sends=tuple(send for choice in choices for send in self.all(PROPOSE, (choice,))))

    def on_voted(self, sender: int, key: bytes, version: int, ballot: Ballot, tx: Tx, mark: Optional[Choice]) -> Step:
        vote, kept = Vote(sender, key, version, ballot, tx, mark), self.kept
        if tx in self.facts.heard:
            return Step()
        if tx in kept.open:
            votes, keys = kept.votes, [choice.key for choice in kept.open[tx].choices]
        elif kept.counters.get(tx, 0) >= 2 and tx in self.facts.unresolved:
            votes, keys = kept.watched, [key for key, _ in self.facts.unresolved[tx]]
        else:
            return Step()
        decided = decision(self.cluster, votes, tx, keys, vote)
        if decided is not None:
            body = tx, decided[0]
            return Step((logs.HEARD, body), self.others(OUTCOME, body), tx)
        votes[tx, key] = taken(votes, vote)
        if tx in kept.open and has_collided(self.cluster, votes[tx, key]):
            return Step(sends=self.lead_elsewhere(self.cluster.home(key), tx, key))
        return Step()

    def lead_elsewhere(self, leader: int, tx: Tx, key: bytes) -> Tuple[Send, ...]:
        """A choice that is not marked led goes to a leader, and is marked so."""
        choice = self.kept.open[tx].unled(key)
        if choice is None:
            return ()
        self.kept.open[tx].led.add(key)
        return ((leader, LEAD, (choice,)),)

    def on_escalate(self, sender: int, key: bytes, version: int, tx: Tx, cause: tuple) -> Step:
        if tx not in self.kept.open or learned(self.cluster, self.kept.votes.get((tx, key), [])):
            return Step()
        if cause[0] == BEHIND:
            return Step(sends=self.give(sender, key))
        return Step(sends=self.lead_elsewhere(cause[1][2] if cause[0] == CLASSIC else self.cluster.home(key), tx, key))

    # ---- the leader

    def on_lead(self, sender: int, choice: Choice) -> Step:
        if choice.tx in self.facts.heard:
            return Step(sends=((sender, OUTCOME, (choice.tx, self.facts.heard[choice.tx])),))
        return Step(sends=self.lead(Claim(choice.tx, choice.key, choice.version, choice)))

    def lead(self, claim: Claim) -> Tuple[Send, ...]:
        """What a claim sends. It raises Exhausted where the rounds are."""
        key, version = claim.key, claim.version
        if self.facts.version_of(key) < version:
            return self.others(SYNC_ASK, (key,))
        lead = self.kept.leads.get(key)
        if lead is None or lead.is_refused:
            return self.lead_anew(claim)
        if lead.is_covered(self.cluster, version):
            last = lead.structures.get(version, {})
            options = with_claim(self.cluster, self.facts, key, version, last, claim.tx, claim.choice)
            if claim.tx not in options:
                return ()
            lead.structures[version] = options
            return self.all(ACCEPT, (key, version, lead.ballot, tuple(sorted(options.items()))))
        if lead.is_waiting(version):
            lead.claims[claim.tx] = lead.claims.get(claim.tx) or claim.choice
            return self.all(PREPARE, (key, lead.version, lead.through, lead.ballot))
        return self.lead_anew(claim)

    def lead_anew(self, claim: Claim) -> Tuple[Send, ...]:
        key, kept = claim.key, self.kept
        round_ = 1 + max(self.facts.promise_of(key, claim.version)[0], kept.refused_rounds.get(key, 0), kept.last_rounds.get(key, 0))
        if round_ >= 2 ** 32:
            raise Exhausted()
        lead = Lead(claim, min(claim.version + self.cluster.gamma, LAST_VERSION), (round_, self.facts.epoch, self.me))
        kept.leads[key], kept.last_rounds[key] = lead, round_
        return self.all(PREPARE, (key, lead.version, lead.through, lead.ballot))

    def on_promise(self, sender: int, key: bytes, version: int, through: int, ballot: Ballot, reported: Ballot, votes: tuple) -> Step:
        lead = self.kept.leads.get(key)
        if lead is None or not lead.counts(sender, version, ballot, reported, dict(votes)):
            return Step()
        lead.promises.append(Report(sender, through, reported, dict(votes)))
        if version in lead.structures or not is_enough(self.cluster, self.facts, key, version, lead.promises):
            return Step()
        options = first_structure(self.cluster, self.facts, lead)
        accepted = sum(mark is not None for mark in options.values())
        if accepted > MOST_ACCEPTED or len(options) - accepted > MOST_REJECTED:
            lead.promises.pop()
            raise Exhausted()
        lead.claims, lead.structures[version] = {}, options
        return Step(sends=self.all(ACCEPT, (key, version, ballot, tuple(sorted(options.items())))))

    def on_refused(self, sender: int, key: bytes, version: int, ballot: Ballot, promised: Ballot) -> Step:
        lead = self.kept.leads.get(key)
        if lead is not None:
            lead.is_refused = lead.is_refused or lead.ballot == ballot
            self.kept.refused_rounds[key] = max(self.kept.refused_rounds.get(key, 0), promised[0])
        return Step()

    # ---- a tick

    def lead_or_leave(self, claim: Claim) -> Tuple[Send, ...]:
        try:
            return self.lead(claim)
        except Exhausted:
            return ()

    def tick(self) -> Step:
        """First the open transactions, then the dangling ones."""
        dangling = sorted((tx, write_set) for tx, write_set in self.facts.unresolved.items() if tx not in self.kept.open)
        sends: List[Send] = []
        for tx, undecided in self.kept.open.items():
            sends += self.tick_open(tx, undecided)
        watched = dict(self.kept.watched)
        for tx, write_set in dangling:
            sends += self.tick_dangling(tx, write_set, watched)
        return Step(sends=tuple(sends))

    def tick_open(self, tx: Tx, undecided: Open) -> List[Send]:
        undecided.ticks += 1
        sends: List[Send] = []
        for choice in undecided.choices:
            if learned(self.cluster, self.kept.votes.get((tx, choice.key), [])):
                continue
            if undecided.ticks % 2:
                sends += self.all(PROPOSE, (choice,))
            else:
                undecided.led.add(choice.key)
                sends += self.lead_or_leave(Claim(tx, choice.key, choice.version, choice))
        return sends

    def tick_dangling(self, tx: Tx, write_set: tuple, watched: dict) -> List[Send]:
        count = self.kept.counters[tx] = self.kept.counters.get(tx, 0) + 1
        sends: List[Send] = []
        for key, version in write_set:
            on = watched.get((tx, key), [])
            if count == 2:
                sends += self.all(ASK, (tx, key, version))
            elif count >= 4 and count % 2 == 0 and not learned(self.cluster, on):
                received = next((vote.mark for vote in on if vote.version == version and vote.mark), None)
                sends += self.lead_or_leave(Claim(tx, key, version, received or self.facts.known.get((key, version, tx))))
        return sends
