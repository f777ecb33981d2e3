"""One stripe: what is cached, in order of use, which keys are reserved and marked, who has joined a load, and the history
(docs/CONSISTENCY.md, from "Calls in phases" to "Order of use, and eviction")."""
from collections import OrderedDict, namedtuple

import table

Step = namedtuple('Step', 'session call key op answers shared reply')
"""A step; `shared` is the place of the step whose load it shares, or None."""
Eviction = namedtuple('Eviction', 'key cause')

RESERVED_MAX = JOINERS_MAX = 64
CALL_PLACES, LOOK_PLACES, JOIN_PLACES = 3, 1, 1
RETRY = 'again'
"""What is parked for those who have joined a load that was withdrawn."""


class Refused(Exception):
    """A call is refused, and has changed nothing."""

    def __init__(self, name):
        super().__init__(name)
        self.name = name


class Reservation:
    """A key that a call has reserved. `found` is the entry that it found."""

    def __init__(self, session, call, op, ask, found):
        self.session, self.call, self.op, self.ask, self.found = session, call, op, ask, found
        self.joiners, self.is_marked = [], False


class Join:
    """A call that has joined a load. Parked is None, RETRY, or its reply, its place and that of the step that loaded."""

    def __init__(self, session, call):
        self.session, self.call, self.parked = session, call, None


class Stripe:
    """A stripe, which begins with some entries, the most recently used first."""

    def __init__(self, config, number, opening=()):
        self.config, self.number, self.opening = config, number, list(opening)
        self.entries = OrderedDict(reversed(self.opening))   # the least recently used first
        self.reserved, self.joins, self.history, self.promised = {}, {}, [], 0

    def has_something(self, key):
        """Whether it has an entry or a reservation of a key."""
        return key in self.entries or key in self.reserved

    def free(self):
        """The free places, beyond those that are reserved for calls under way."""
        return self.config.history - len(self.history) - self.promised

    # What a first phase finds.

    def is_marked(self, key):
        """Whether a key is to be forgotten when its reservation is over."""
        return key in self.reserved and self.reserved[key].is_marked

    def finds_load(self, key, op):
        """Whether a call finds its key missing, and a load of it under way."""
        return (op == ('get',) and self.config.read and key not in self.entries and key in self.reserved
                and self.reserved[key].ask == table.LOAD)

    def joins_load(self, key, op):
        """Whether a call joins a load of its key."""
        return self.finds_load(key, op) and not self.is_marked(key)

    def is_look(self, key, op):
        """Whether a call is answered at once, also if the key is reserved."""
        return op == ('contains',) or op == ('get',) and (key in self.entries or not self.config.read)

    def places(self, key, op):
        """How many free places a call needs."""
        return LOOK_PLACES if self.is_look(key, op) or self.finds_load(key, op) else CALL_PLACES

    def is_busy(self, key, op):
        """Whether a call can't begin now at its key."""
        return key in self.reserved and (self.is_marked(key) or not self.is_look(key, op) and not self.joins_load(key, op))

    def refusal(self, key, op):
        """Why a call is refused, or None. The first one whose condition holds is the answer."""
        joins, asks = self.joins_load(key, op), table.asked_first(op, self.entries.get(key), self.config)
        if self.free() < self.places(key, op):
            return 'HistoryFull'
        if self.is_busy(key, op):
            return 'Busy'
        if asks is not None and not joins and len(self.reserved) >= RESERVED_MAX:
            return 'TooManyInFlight'
        return 'TooManyJoiners' if joins and len(self.joins) >= JOINERS_MAX else None

    # The phases.

    def begin(self, session, call, key, op):
        """The first phase: ('done', P), and its events are those from place P on; ('joined',); or whom the call asks."""
        refusal = self.refusal(key, op)
        if refusal is not None:
            raise Refused(refusal)
        if self.joins_load(key, op):
            self.promised += JOIN_PLACES
            self.joins[call, key] = join = Join(session, call)
            self.reserved[key].joiners.append(join)
            return ('joined',)
        entry = self.entries.get(key)
        ask = table.asked_first(op, entry, self.config)
        if ask is None:
            first = len(self.history)
            self.append_group(Step(session, call, key, op, table.Answers(), None, None), [])
            return 'done', first
        self.promised += CALL_PLACES
        self.reserved[key] = Reservation(session, call, op, ask, entry)
        return ask

    def release(self, key):
        """Ends a reservation, and frees its places."""
        held = self.reserved.pop(key)
        self.promised -= CALL_PLACES + JOIN_PLACES * len(held.joiners)
        return held

    def commit(self, key, answers):
        """The last phase. The place from which on its events are."""
        first, held = len(self.history), self.release(key)
        self.append_group(Step(held.session, held.call, key, held.op, answers, None, None), held.joiners)
        self.end_mark(key, held)
        return first

    def withdraw(self, key):
        """Gives a reservation up. The place from which on its events are."""
        first, held = len(self.history), self.release(key)
        for join in held.joiners:
            join.parked = RETRY
        self.end_mark(key, held)
        return first

    def pick_up(self, call, key):
        """What is parked for a call that has joined a load; None if that is still under way."""
        parked = self.joins[call, key].parked
        if parked is not None:
            del self.joins[call, key]
        return parked

    # Forgetting a key.

    def may_invalidate(self, key):
        """Whether the key is reserved, or isn't cached, or the history has a free place."""
        return key in self.reserved or key not in self.entries or self.free() > 0

    def invalidate(self, key):
        """Forgets a key, or marks it, if it is reserved."""
        if key in self.reserved:
            self.reserved[key].is_marked = True
        else:
            self.evict_invalidated(key)

    def end_mark(self, key, held):
        """What a call leaves at a marked key is evicted. The mark goes with the reservation."""
        if held.is_marked:
            self.evict_invalidated(key)

    def evict_invalidated(self, key):
        if self.entries.pop(key, None) is not None:
            self.history.append(Eviction(key, 'invalidated'))

    # The events of a step.

    def victim(self):
        """The least recently used entry whose key no call has reserved."""
        return next((key for key in self.entries if key not in self.reserved), None)

    def append_group(self, step, joiners):
        """Makes a step: an eviction before it, the step, the shared steps of its joiners, an eviction of its own key."""
        key, entry = step.key, self.entries.get(step.key)
        reply, after = table.step(step.op, entry, step.answers)
        is_kept = True
        if entry is None and after is not None and len(self.entries) >= self.config.capacity:
            victim = self.victim()
            is_kept = victim is not None
            if is_kept:
                del self.entries[victim]
                self.history.append(Eviction(victim, 'full'))
        self.set_entry(key, entry, after if is_kept else None, table.is_use(step.op, reply, step.answers))
        place = len(self.history)
        self.history.append(step._replace(reply=reply))
        self.append_shared(step, place, joiners)
        if not is_kept:
            self.history.append(Eviction(key, 'full'))

    def set_entry(self, key, before, after, is_use):
        """Gives a key its entry, and this its place in the order of use."""
        if after is None:
            self.entries.pop(key, None)
            return
        self.entries[key] = after
        if before is None or is_use:
            self.entries.move_to_end(key)

    def append_shared(self, step, place, joiners):
        """A shared step for each joiner, in the order in which they have joined, whose answer is parked."""
        for join in joiners:
            load = step.answers.load
            reply = table.shared_reply(load)
            join.parked = reply, len(self.history), place
            self.history.append(Step(join.session, join.call, step.key, ('get',), table.Answers(load), place, reply))
