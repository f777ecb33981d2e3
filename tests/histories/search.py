"""A search like that of the program, with wrong prunings: the histories of the tests are to tell each of them from the oracle.

still     a step that leaves all as it is here is made at once. Later it may be needed to put the entry back.
pending   no entry vanishes for the step of a call that hasn't answered
early     a call that changes nothing is placed as soon as it fits, though one that may be left out would have to come before it
prefix    the calls up to the first one at whose end no way is left can't be explained by themselves. But the ways were chosen by replies
          that come later."""
import copy

from calls import UNANSWERED
from oracle import after_call, may_land, opening_values, precedes

PRUNINGS = ['still', 'pending', 'early', 'prefix']


def is_pure(item):
    """Whether each of its steps leaves entry and store as they are."""
    if not item.must or item.load is not None or item.write is not None:
        return False
    op, reply = item.op[0], item.reply
    return (op in ('get', 'contains', 'loadall') or op in ('putif', 'removeif', 'replaceif', 'replace') and reply == ('flag', False)
            or op == 'getreplace' and reply == ('value', None))


class Search:
    """Depth first over what is placed and landed and what there is, each node once."""

    def __init__(self, rules, items, must, pruning=None):
        self.rules, self.items, self.must, self.pruning = rules, items, must, pruning
        self.before = [[other for other in range(len(items)) if other != at and precedes(rules, items[other], items[at])]
                       for at in range(len(items))]
        self.met = set()

    def next_ones(self, placed, landed):
        """The calls that may come next: none has to come before that must be placed, and none after it has its place."""
        acted = placed | landed
        return [at for at in range(len(self.items)) if at not in placed
                and not any(other in self.must and other not in placed for other in self.before[at])
                and not any(at in self.before[other] for other in acted)]

    def steps(self, at, state):
        """What the step of a call may leave. The entry may vanish before it."""
        item, entry = self.items[at], state[0]
        starts = [state]
        if self.rules.evict and entry is not None and not (self.pruning == 'pending' and not item.must):
            starts.append((None, state[1], None, state[3]))
        return [after for start in starts for after in after_call(self.rules, item, start)]

    def at_once(self, placed, landed, state):
        """A call that can be placed here and now without a loss, or None."""
        nexts = self.next_ones(placed, landed)
        for at in nexts:
            if state not in after_call(self.rules, self.items[at], state):
                continue
            if self.pruning == 'still' and at in self.must:
                return at
            skipped = any(other not in self.must and other not in placed for other in self.before[at])
            if is_pure(self.items[at]) and at in self.must and (self.pruning == 'early' or not skipped):
                return at
        return None

    def is_explained(self, placed, landed, state):
        first = self.at_once(placed, landed, state)
        while first is not None:
            placed = placed | {first}
            first = self.at_once(placed, landed, state)
        node = placed, landed, state[0], state[1], state[2]
        if self.must <= placed:
            return True
        if node in self.met:
            return False
        self.met.add(node)
        return any(self.is_explained(*after) for after in self.turns(placed, landed, state))

    def turns(self, placed, landed, state):
        for at in self.next_ones(placed, landed):
            for after in self.steps(at, state):
                own = {self.items.index(item) for item in after[3]}
                yield placed | {at}, landed | own, after
        for at, item in enumerate(self.items):
            left = [other for other in self.before[at] if other in self.must and other not in placed]
            if self.rules.store and may_land(item) and at not in landed and not left:
                value = item.change[1] if item.change[0] == 'write' else None
                yield placed, landed | {at}, (state[0], value, state[2], state[3] + [item])


def finds(rules, items, store, must=None, pruning=None):
    """Whether a search explains some calls, of which those must be placed that have answered, or these."""
    placed = frozenset(at for at, item in enumerate(items) if item.must) if must is None else must
    return any(Search(rules, items, placed, pruning).is_explained(frozenset(), frozenset(), (None, value, None, []))
               for value in opening_values(items, store))


def cut(items, end):
    """The calls that have begun at a time, as they were known then."""
    found = []
    for item in items:
        if item.began <= end:
            known = copy.copy(item)
            if item.ended is None or item.ended > end:
                known.ended = known.reply = known.returned = None
                known.load = item.load and UNANSWERED
                known.write = item.write and UNANSWERED
            found.append(known)
    return found


def first_part(rules, items, store):
    """The calls up to the first one at whose end no way is left; None if there is always one."""
    for end in sorted(item.ended for item in items if item.must):
        begun = [item for item in items if item.began <= end]
        must = frozenset(at for at, item in enumerate(begun) if item.must and item.ended <= end)
        if not finds(rules, begun, store, must):
            return cut(items, end)
    return None
