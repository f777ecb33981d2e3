"""Errors that are planted in the judge: for each of them some random script is to tell it from the program."""
import contextlib
from unittest import mock

import calls
import judge
import outside
import stripe
import table
import world
from stripe import Eviction, Stripe
from telling import Untold

BEGIN, COMMIT, WITHDRAW, VICTIM = Stripe.begin, Stripe.commit, Stripe.withdraw, Stripe.victim
AFTER_COMMIT, TAKE_LOAD, REFUSE, INVALIDATE, IS_USE, CHANGE = (
    Untold.after_commit, outside.take_load, calls.refuse, world.invalidate, table.is_use, table.change)


# Forgetting a key.

def invalidate_without_mark(self, key):
    if key not in self.reserved:
        self.evict_invalidated(key)


def invalidate_at_once(self, key):
    if key in self.reserved:
        self.reserved[key].is_marked = True
    self.evict_invalidated(key)


def is_busy_but_for_looks(self, key, op):
    return key in self.reserved and not self.is_look(key, op) and not self.joins_load(key, op)


def is_busy_but_for_contains(self, key, op):
    return key in self.reserved and op != ('contains',) and (self.is_marked(key) or is_busy_but_for_looks(self, key, op))


def is_busy_but_for_joins(self, key, op):
    return key in self.reserved and not self.finds_load(key, op) and (self.is_marked(key) or is_busy_but_for_looks(self, key, op))


def commit_without_mark(self, key, answers):
    self.reserved[key].is_marked = False
    return COMMIT(self, key, answers)


def commit_fault_without_mark(self, key, answers):
    self.reserved[key].is_marked &= table.fault(answers) is None
    return COMMIT(self, key, answers)


def commit_before_joiners(self, key, answers):
    joiners = self.reserved[key].joiners
    first = COMMIT(self, key, answers)
    if joiners and self.history[-1] == Eviction(key, 'invalidated'):
        self.history.insert(-len(joiners), self.history.pop())
        for join in joiners:
            join.parked = join.parked[0], join.parked[1] + 1, join.parked[2]
    return first


def withdraw_without_mark(self, key):
    self.reserved[key].is_marked = False
    return WITHDRAW(self, key)


def withdraw_leaving_mark(self, key):
    self.left = getattr(self, 'left', set()) | {key} if self.reserved[key].is_marked else getattr(self, 'left', set())
    return WITHDRAW(self, key)


def begin_with_left_mark(self, session, call, key, op):
    begun = BEGIN(self, session, call, key, op)
    if key in self.reserved and key in getattr(self, 'left', ()):
        self.reserved[key].is_marked = True
    return begun


def may_invalidate_reserving(self, key):
    return key in self.reserved or key not in self.entries or len(self.history) < self.config.history


def may_invalidate_missing(self, key):
    return key in self.reserved or self.free() > 0


# Untold keys.

def foreign_but_loading(self, key, stripe):
    if key in stripe.entries or key not in stripe.reserved:
        self.foreign.add(key)


def foreign_of_something(self, key, stripe):
    if stripe.has_something(key):
        self.foreign.add(key)


def commit_without_lies(self, key, has_lied, left, stored):
    AFTER_COMMIT(self, key, False, left, stored)


def commit_telling_nothing(self, key, has_lied, left, stored):
    if has_lied:
        self.foreign.add(key)
    if left is None:
        self.foreign.discard(key)


def commit_telling_all(self, key, has_lied, left, stored):
    self.foreign.discard(key)


def lie_at_once(at, part, answer):
    TAKE_LOAD(at, part, answer)
    if part.has_lied:
        at.untold.foreign.add(part.key)


def told_by_busy(at, call, part, name):
    if part.op == ('forget',):
        at.untold.foreign.discard(part.key)
    REFUSE(at, call, part, name)


def told_at_invalidation(at, line):
    INVALIDATE(at, line)
    if line.key in at.stripe_of(line.key).reserved:
        at.untold.foreign.discard(line.key)


def reopening_telling_all(self, entries, store):
    self.foreign = set()


# Of each: the changes of the judge.
PLANTED = {
    'a reserved key is invalidated without a mark': [(Stripe, 'invalidate', invalidate_without_mark)],
    'the entry of a reserved key is evicted at its invalidation': [(Stripe, 'invalidate', invalidate_at_once)],
    'a get joins the load of a marked key': [(Stripe, 'joins_load', Stripe.finds_load), (Stripe, 'is_busy', is_busy_but_for_joins)],
    'the entry of a marked key is answered': [(Stripe, 'is_busy', is_busy_but_for_looks)],
    'a containsKey of a marked key is answered': [(Stripe, 'is_busy', is_busy_but_for_contains)],
    'the commit of a marked key leaves its entry': [(Stripe, 'commit', commit_without_mark)],
    'a call that failed leaves its marked entry': [(Stripe, 'commit', commit_fault_without_mark)],
    'a marked entry is evicted before the steps of those who joined': [(Stripe, 'commit', commit_before_joiners)],
    'a withdrawal leaves its marked entry': [(Stripe, 'withdraw', withdraw_without_mark)],
    'a withdrawal leaves its mark': [(Stripe, 'withdraw', withdraw_leaving_mark), (Stripe, 'begin', begin_with_left_mark)],
    'an invalidation takes any place': [(Stripe, 'may_invalidate', lambda self, key: True)],
    'an invalidation takes a reserved place': [(Stripe, 'may_invalidate', may_invalidate_reserving)],
    'an invalidation of a missing key needs a place': [(Stripe, 'may_invalidate', may_invalidate_missing)],
    'a foreign write of a key that is being loaded is told': [(Untold, 'after_foreign_write', foreign_but_loading)],
    'a foreign write of a key of which the cache has nothing is told': [(Untold, 'after_foreign_write', foreign_of_something)],
    'a reservation of a missing key tells nothing': [(Untold, 'after_reservation', lambda self, key, found: None)],
    'a reservation tells': [(Untold, 'after_reservation', lambda self, key, found: self.foreign.discard(key))],
    'a lie makes no key untold': [(Untold, 'after_commit', commit_without_lies)],
    'a lie makes a key untold at once': [(outside, 'take_load', lie_at_once)],
    'a commit that leaves what the store holds tells nothing': [(Untold, 'after_commit', commit_telling_nothing)],
    'each commit tells': [(Untold, 'after_commit', commit_telling_all)],
    'a write of this cache tells nothing': [(Untold, 'after_own_write', lambda self, key: None)],
    'what is removed or evicted stays untold': [(Untold, 'keys', lambda self, stripe_of: self.foreign)],
    'a clear that is busy tells': [(calls, 'refuse', told_by_busy)],
    'an invalidation tells a reserved key at once': [(judge.PLAYS, 'invalidate', told_at_invalidation)],
    'a reopening tells all keys': [(Untold, 'after_reopening', reopening_telling_all)],
    'a reopening with what the store holds tells nothing': [(Untold, 'after_reopening', lambda self, entries, store: None)],
    'a forget asks the writer': [(table, 'change', lambda op, entry: ('delete',) if op == ('forget',) else CHANGE(op, entry))],
    'an eviction takes a reserved key': [(Stripe, 'victim', lambda self: next(iter(self.entries), None))],
    'a stripe reserves 65 keys': [(stripe, 'RESERVED_MAX', 65)],
    'a stripe has 63 joiners': [(stripe, 'JOINERS_MAX', 63)],
    'a call has 1,023 keys': [(calls, 'BULK_KEYS_MAX', 1023)],
    'a containsKey is a use': [(table, 'is_use', lambda op, reply, answers: op == ('contains',) or IS_USE(op, reply, answers))],
}


@contextlib.contextmanager
def changed(changes):
    """The judge with some changes, each an object or a mapping, a name in it, and what this is then."""
    with contextlib.ExitStack() as stack:
        for owner, name, made in changes:
            stack.enter_context(mock.patch.dict(owner, {name: made}) if isinstance(owner, dict) else mock.patch.object(owner, name, made))
        yield
