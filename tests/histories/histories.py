"""Random small histories of calls at one key: of a cache that is simulated, so that they are explained; changed ones of these; and plain
random calls."""
import copy

import table
from calls import UNANSWERED, Item, answer, value_of

VALUES = ['1', '2']
OPS = ['get', 'get', 'get', 'put', 'put', 'contains', 'getput', 'putif', 'remove', 'removeif', 'getremove', 'replace', 'replaceif',
       'getreplace', 'clear', 'loadall', 'invoke']
FEW = ['get', 'get', 'put', 'putif', 'remove', 'loadall']
EVICTS, FAILS, HANGS = 0.15, 0.15, 0.03


def random_op(rng, ops):
    op = rng.choice(ops)
    if op in ('put', 'getput', 'putif', 'removeif', 'replace', 'getreplace'):
        return op, rng.choice(VALUES)
    if op == 'replaceif':
        return op, rng.choice(VALUES), rng.choice(VALUES)
    return (op, rng.choice(['keep', 'replace'])) if op == 'loadall' else (op,)


def random_calls(rng):
    return [rng.choice([('get',), ('exists',), ('set', rng.choice(VALUES)), ('remove',)]) for _ in range(rng.randint(0, 3))]


class Simulation:
    """A cache of one key before a store, whose threads make each a phase of their call in turn: it begins, asks the loader, runs the
    processor, asks the writer, commits, returns. While a call has the key, others wait, and gets join its load. Entries vanish, loads
    and writes fail, writes that failed come to the store at once, later or never, and calls hang."""

    def __init__(self, rng, rules, store, threads, calls, ops):
        self.rng, self.rules, self.store, self.threads, self.left, self.ops = rng, rules, store, threads, calls, ops
        self.entry, self.late, self.reserved, self.clock = None, [], None, 0
        self.items, self.joined, self.at, self.processes = [], {}, {}, {}   # at: of a thread its phase and its item's number

    def chance(self, of):
        return self.rng.random() < of

    def run(self):
        while self.clock < 400 and not self.is_stuck():
            self.clock += 1
            if self.rules.evict and self.entry is not None and self.reserved is None and self.chance(EVICTS):
                self.entry = None
            if self.late and self.chance(0.2):
                self.store = self.late.pop(self.rng.randrange(len(self.late)))
            thread = self.rng.choice([t for t in range(self.threads) if t in self.at or self.left])
            if thread in self.at:
                phase, number = self.at[thread]
                getattr(self, phase)(thread, number, self.items[number])
            else:
                self.call(thread)
        for item in self.items:
            item.reply = None if item.ended is None else item.reply
        return self.items

    def is_stuck(self):
        """Whether all is done, or all that are left hang, or wait for one that does."""
        if not self.at and not self.left:
            return True
        holder = None if self.reserved is None else self.at.get(int(self.items[self.reserved].thread[1:]), ('',))[0]
        waits = all(phase == 'hung' or phase in ('begin', 'join') and holder == 'hung' for phase, _ in self.at.values())
        return waits and (not self.left or len(self.at) == self.threads)

    def call(self, thread):
        self.left -= 1
        self.at[thread] = 'begin', len(self.items)
        self.items.append(Item(len(self.items), f't{thread}', random_op(self.rng, self.ops), self.clock))

    def begin(self, thread, number, item):
        op = item.op
        if op[0] == 'get' and (self.entry is not None or not self.rules.read) or op[0] == 'contains':
            item.reply = table.reply_after(op, self.entry, (None, None, None))
            self.at[thread] = 'give', number
        elif self.reserved is None:
            self.reserve(thread, number, item)
        elif op[0] == 'get' and self.entry is None and table.loader_ask(self.rules.read, self.items[self.reserved].op, None) == 'always':
            self.joined.setdefault(self.reserved, []).append(number)
            self.at[thread] = 'join', number

    def join(self, thread, number, item):
        """It waits for the load."""

    def hung(self, thread, number, item):
        """It doesn't go on."""

    def reserve(self, thread, number, item):
        self.reserved = number
        change = table.write_ask(item.op, self.entry, None) if item.op[0] != 'invoke' and self.rules.through else None
        if item.op[0] == 'invoke':
            self.at[thread] = 'process', number
        elif table.loader_ask(self.rules.read, item.op, self.entry) == 'always':
            self.at[thread] = 'ask', number
        elif change is not None:
            item.change = change
            self.at[thread] = 'change', number
        else:
            self.commit(thread, number, item)

    def loaded(self, number):
        return ('failed', 10 + number) if self.chance(FAILS) else ('nothing',) if self.store is None else ('found', self.store)

    def ask(self, thread, number, item):
        item.load = self.loaded(number)
        self.at[thread] = 'commit', number

    def process(self, thread, number, item):
        calls, read = random_calls(self.rng), self.rules.read
        if table.uses_load(read, self.entry, calls):
            item.load = self.loaded(number)
            if item.load[0] == 'failed':
                calls = calls[:calls.index(('get',)) + 1]
        item.calls, item.answers = tuple(calls), tuple(table.processor_answers(read, self.entry, item.load, calls))
        item.returned = ('failed', 20 + number) if self.chance(FAILS) else ('value', self.rng.choice(VALUES + [None]))
        ended = 'ended', table.net_effect(read, self.entry, item.load, calls), item.returned[1]
        self.processes[number] = ended if item.returned[0] == 'value' else item.returned
        change = table.write_ask(item.op, self.entry, self.processes[number])
        asks = self.rules.through and change is not None and not (item.load and item.load[0] == 'failed')
        item.change = change if asks else None
        self.at[thread] = 'change' if asks else 'commit', number

    def change(self, thread, number, item):
        value, fate = value_of(item.change), self.rng.random()
        if fate < FAILS + HANGS:
            item.write = ('failed', 30 + number) if fate < FAILS else UNANSWERED
            self.at[thread] = 'commit' if fate < FAILS else 'hung', number
            what = self.rng.choice(['never', 'at once', 'later'])
            if what == 'later':
                self.late.append(value)
            self.store = value if what == 'at once' else self.store
        else:
            item.write, self.store = ('done',), value
            self.at[thread] = 'commit', number

    def commit(self, thread, number, item):
        out = item.load, item.write, self.processes.get(number)
        item.reply = table.reply_after(item.op, self.entry, out)
        shares = table.joinable(self.rules.read, item.op, self.entry, item.load)
        self.entry, self.reserved = table.entry_after(item.op, self.entry, out), None
        self.at[thread] = 'give', number
        for joined in self.joined.pop(number, []):
            other = self.items[joined]
            other.reply = table.reply_after(('get',), None, (item.load, None, None)) if shares else None
            self.at[int(other.thread[1:])] = 'give' if shares else 'begin', joined

    def give(self, thread, number, item):
        if self.chance(HANGS):
            self.at[thread] = 'hung', number
        else:
            item.ended = self.clock
            del self.at[thread]


def random_reply(rng, op):
    if rng.random() < 0.1:
        return 'fault', rng.choice(['LoaderFailed', 'WriterFailed', 'ProcessorFailed']), rng.choice([10, 11])
    if op[0] in ('get', 'getput', 'getremove', 'getreplace', 'invoke'):
        return 'value', rng.choice(VALUES + [None])
    return ('unit',) if op[0] in ('put', 'clear', 'loadall') else ('flag', rng.random() < 0.5)


def random_load(rng):
    return rng.choice([('found', '1'), ('found', '2'), ('nothing',), ('failed', 10), ('failed', 11)])


# How one call is changed.

def other_reply(rng, item):
    item.reply = None if item.reply is None else random_reply(rng, item.op)


def other_asking(rng, item):
    item.load = random_load(rng) if item.load is None else None


def other_load(rng, item):
    if item.load is not None:
        item.load = random_load(rng)
        if item.op[0] == 'get' and item.reply is not None and item.load[0] != 'failed':
            item.reply = 'value', table.found(item.load)


def other_answer(rng, item):
    if item.write not in (None, UNANSWERED):
        item.write = rng.choice([('done',), ('failed', 11)])


def other_change(rng, item):
    if item.change is not None:
        item.change = rng.choice([('write', '1'), ('write', '2'), ('delete',)])


def other_time(rng, item):
    shift = rng.uniform(-12, 12)
    item.began += shift
    item.ended = None if item.ended is None else item.ended + shift


def other_value(rng, item):
    value = rng.choice(VALUES)
    if item.op[0] == 'get' and item.reply is not None:
        item.reply = 'value', value
    elif item.op[0] in ('put', 'getput') and item.change is not None:
        item.op, item.change = (item.op[0], value), ('write', value)


CHANGES = [other_reply, other_asking, other_load, other_answer, other_change, other_time, other_value, other_value]


def mutated(rng, items):
    items = copy.deepcopy(items)
    for _ in range(rng.randint(1, 2)):
        if items and rng.random() < 0.1:
            items.pop(rng.randrange(len(items)))
        elif items:
            rng.choice(CHANGES)(rng, rng.choice(items))
    return parted(items)


def parted(items):
    """A thread's calls don't overlap: those of one where they do have threads of their own."""
    for name in {item.thread for item in items}:
        own = sorted((item for item in items if item.thread == name), key=lambda item: item.began)
        if any(x.ended is None or y.began <= x.ended for x, y in zip(own, own[1:])):
            for at, item in enumerate(own):
                item.thread = f't{10 * int(name[1:]) + 10 + at}'
    return items


def plain(rng, rules, count):
    """Random calls with random answers, of which some fit together."""
    items, clock = [], {}
    for number in range(count):
        thread = rng.randrange(3)
        op = random_op(rng, ['get', 'get', 'get', 'put', 'put', 'putif', 'remove', 'replaceif', 'contains', 'loadall'])
        began = clock.get(thread, 0) + 0.1 + rng.random() * 4
        clock[thread] = began + rng.random() * 6
        item = Item(number, f't{thread}', op, began, clock[thread], random_reply(rng, op))
        plain_answers(rng, rules, item)
        items.append(item)
    return items


def plain_answers(rng, rules, item):
    op = item.op
    if op[0] in ('get', 'loadall') and rng.random() < 0.6:
        item.load = random_load(rng)
        if op[0] == 'loadall' or rng.random() < 0.8:
            item.reply = table.reply_after(op, None, (item.load, None, None))
    if op[0] in table.WRITES and rules.through and rng.random() < 0.85:
        entry = rng.choice([None] + VALUES)
        item.change = table.write_ask(op, entry, None)
        if item.change is not None:
            item.write = ('done',) if rng.random() < 0.8 else ('failed', 11)
        item.reply = table.reply_after(op, entry, (None, item.write, None))


def random_history(rng, rules):
    """What the store has at first, the calls, and whether they are explained by how they were made."""
    store, size = rng.choice([None, *VALUES]), rng.choice([3, 4, 4, 5, 5, 6])
    kind = rng.choice(['simulated', 'mutated', 'mutated', 'mutated', 'plain'])
    if kind == 'plain':
        items = plain(rng, rules, min(size, 5))
    else:
        items = Simulation(rng, rules, store, rng.choice([2, 3, 4]), size, rng.choice([OPS, FEW])).run()
        items = mutated(rng, items) if kind == 'mutated' else items
    if rng.random() < 0.1 and len(items) < 6:
        at = rng.random() * 60
        items.append(Item(len(items), 't99', ('foreign', rng.choice(['1', None])), at, at, ('unit',)))
        kind = 'mutated'
    for item in items:
        if rng.random() < 0.04 and item.op[0] != 'foreign':
            item.reply = None    # it threw something else: it may have had its effect, or not
        settle(item)
    return '?' if rng.random() < 0.3 else store, items, kind == 'simulated'


def settle(item):
    """A call of many keys tells no reply of its own at a key: it is that of the answer from outside."""
    load = answer(item.load)
    if item.op[0] == 'loadall' and item.ended is not None:
        item.reply = table.reply_after(item.op, None, (load, None, None)) if load is not None or item.reply == ('unit',) else None
