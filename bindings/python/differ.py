"""Plays random scripts of one stripe through the library and through `jcache run`, and compares what they say, byte by byte.

Six sessions make all operations of one key, with processors, failures, writers that lie, joined loads, evictions, and calls that are
given up; now and then the cache is closed and opened again, in another shape, with what it had. After each step a table that follows the
core's moves is compared with what the core has.

`jcache run` has one long history. The library has the same, or short generations: those that end by themselves, or those whose events are
taken and are legal, from what was cached when the generation began. All say the same.

usage: differ.py JCACHE FIRST COUNT     JCACHE: the program; FIRST: the first random seed
"""
import os
import random
import subprocess
import sys

from cadwrelch import core
from cadwrelch.core import CoreError, Desk, Processed, Shape, legal

KEYS = ['a', 'b', 'c', 'd', 'e1', 'f.2']
VALUES = ['1', '2', '33', 'v_4', '~']
SESSIONS = range(1, 7)
HISTORY = 4096
STEPS = 120
# How many places of a generation are left when answers that are parked are picked up: a generation ends only without one.
NEAR_THE_END = 30

# Each operation of one key: its number, how many values it has, and how often it is chosen.
OPERATIONS = {
    'get': (core.GET, 0, 5), 'contains': (core.CONTAINS_KEY, 0, 1), 'put': (core.PUT, 1, 3), 'getput': (core.GET_AND_PUT, 1, 1),
    'putif': (core.PUT_IF_ABSENT, 1, 1), 'remove': (core.REMOVE, 0, 1), 'removeif': (core.REMOVE_IF, 1, 1),
    'getremove': (core.GET_AND_REMOVE, 0, 1), 'replace': (core.REPLACE, 1, 1), 'replaceif': (core.REPLACE_IF, 2, 1),
    'getreplace': (core.GET_AND_REPLACE, 1, 1), 'invoke': (core.INVOKE, 0, 1),
}
CHOICES = [name for name, (_, _, weight) in OPERATIONS.items() for _ in range(weight)]
INSERTING = ('put', 'getput', 'putif')
REFUSALS = ['HistoryFull', 'Busy', 'TooManyInFlight', 'TooManyJoiners']


def raw(word):
    """The bytes of a script's word."""
    return b'' if word == '~' else word.encode()


def word(value):
    """The script's word for bytes, or for no value."""
    return '-' if value is None else value.decode() or '~'


class Call:
    """A call that has something out."""

    def __init__(self, line, session, key, out):
        self.line = line
        self.session = session
        self.key = key
        self.next = out.next
        self.number = out.number
        self.call = out.call
        self.entry = out.value.get() if out.next == core.ASK_PROCESS and out.reply == core.VALUE else None
        self.may_load = out.next == core.ASK_PROCESS and out.code == 1
        self.change = out.value.get() if out.next == core.ASK_WRITE else None
        self.loaded = None
        """What the loader answered: answer, code, value."""
        self.processed = None
        self.must_write = out.next in (core.ASK_WRITE, core.ASK_DELETE)
        self.written = None
        """What the writer answered: answer, code."""

    def is_answered(self):
        if self.must_write:
            return self.written is not None
        return self.processed is not None or self.loaded is not None

    def inserts(self):
        """Whether its commit gives a missing key an entry."""
        if self.processed is not None:
            return self.processed.effect == core.SET or self.processed.effect == core.KEEP and self.processed.load == core.FOUND
        if self.loaded is not None:
            return self.loaded[0] == core.FOUND
        return self.change is not None and self.written[0] == core.WRITTEN


class Player:
    """One random script: it is played through the library while it is written, with what `jcache run` is to say."""

    def __init__(self, seed):
        self.random = random.Random(seed)
        self.script = []
        self.says = ['open']
        self.shape = None
        self.desk = None
        self.is_closing = False
        self.generation = None
        """What was cached when the present generation began, and how many events were before it."""
        self.open('open', [])
        self.store = {}
        self.table = {}
        self.calls = {}
        self.line = 0
        for key in KEYS:
            if self.random.random() < .4:
                value = self.random.choice(VALUES)
                self.store[key] = raw(value)
                self.script.append(f'set {key} {value}')

    def open(self, command, entries):
        """Opens the desk with as many of these entries as fit, and returns the others."""
        capacity = self.random.choice([1, 2, 3, 8])
        read_through, write_through = self.random.random() < .7, self.random.random() < .7
        flags = ['read'] * read_through + ['write'] * write_through
        self.script.append(' '.join([f'{command} 1 {capacity} {HISTORY}', *flags]))
        history, keeps_events = self.history()
        self.shape = Shape(1, capacity, history, read_through, write_through, keeps_events)
        self.desk = Desk(self.shape, 0, entries[:capacity])
        self.generation = entries[:capacity], 0
        return entries[capacity:]

    def history(self):
        """How many events a generation of the library has, and whether they are taken at its end."""
        return self.random.choice([(HISTORY, False), (40, False), (40, True)])

    def reopen(self):
        entries = self.desk.entries()
        self.judge()
        self.desk.close()
        dropped = [key.decode() for key, _ in self.open('reopen', entries)]
        self.says.append(' '.join(['reopened', *dropped]))
        for key in dropped:
            del self.table[key]
        self.is_closing = False

    def play(self):
        for _ in range(STEPS):
            waiting = [call for call in self.calls.values() if call.processed is not None and not call.is_answered()]
            self.is_closing = self.is_closing or self.random.random() < .01
            if waiting:
                self.write(waiting[0])
            elif self.is_closing and not self.calls:
                self.reopen()
            elif not self.is_closing and (not self.calls or self.random.random() < .35):
                self.begin()
            else:
                self.go_on(self.random.choice(list(self.calls.values())))
        self.script.append('audit')
        self.says.append(' '.join(['cache'] + [f'{key.decode()}={word(value)}' for key, value in sorted(self.desk.entries())]))
        self.says.append(' '.join(['store'] + [f'{key}={word(value)}' for key, value in sorted(self.store.items())]))

    # Generations.

    def events(self):
        """How many events there were, in all generations."""
        return self.generation[1] + self.desk.events_len()

    def judge(self):
        """The events of the present generation are legal, if they are taken."""
        if self.shape.keeps_events:
            events = [self.desk.event(place) for place in range(self.desk.events_len())]
            assert legal(self.shape, self.generation[0], events), 'a generation is not legal'

    def first_phase(self, session, op, key, *values):
        """A first phase. A generation that is full ends before it."""
        before, entries = self.events(), self.desk.entries()
        out = self.desk.begin(session, op, key.encode(), *map(raw, values))
        if out.next == core.FULL:
            self.judge()
            self.desk.end_generation()
            out = self.desk.begin(session, op, key.encode(), *map(raw, values))
        if self.events() < before:
            self.generation = entries, before
        return out

    def is_over(self, call):
        """Whether the load that a call has joined is over."""
        return call.number not in [other.number for other in self.calls.values() if other.next != core.JOINED]

    # The first phase of a call.

    def begin(self):
        free = [session for session in SESSIONS if session not in [call.session for call in self.calls.values()]]
        parked = [call for call in self.calls.values() if call.next == core.JOINED and self.is_over(call)]
        if parked and self.shape.history - self.desk.events_len() < NEAR_THE_END:
            self.pick_up(parked[0])
        elif free:
            self.begin_one(self.random.choice(free))

    def begin_one(self, session):
        key, name = self.random.choice(KEYS), self.random.choice(CHOICES)
        op, count, _ = OPERATIONS[name]
        values = [self.random.choice(VALUES) for _ in range(count)]
        self.line += 1
        self.script.append(' '.join([f'begin {self.line} s{session} {name} {key}', *values]))
        was_missing = key not in self.table
        out = self.first_phase(session, op, key, *values)
        if out.next == core.DONE:
            self.done(self.line, key, was_missing and name in INSERTING)
        elif out.next == core.REFUSED:
            self.say(self.line, key, f'refused {REFUSALS[out.reply]}')
        else:
            call = self.calls[self.line] = Call(self.line, session, key, out)
            self.say(call.line, key, self.asked(call))

    @staticmethod
    def asked(call):
        if call.next == core.ASK_PROCESS:
            return f'process {word(call.entry)}'
        if call.next == core.ASK_WRITE:
            return f'write {word(call.change)}'
        return {core.ASK_LOAD: 'load', core.ASK_DELETE: 'delete', core.JOINED: 'joined'}[call.next]

    # Outside, and the last phase.

    def go_on(self, call):
        if call.next == core.JOINED:
            self.pick_up(call)
        elif call.is_answered():
            self.end(call)
        elif self.random.random() < .1:
            self.drop(call)
        elif call.next == core.ASK_LOAD:
            self.load(call)
        elif call.next == core.ASK_PROCESS:
            self.process(call)
        else:
            self.write(call)

    def pick_up(self, call):
        self.script.append(f'take {call.line}')
        picked = self.picked_up(call)
        if picked == core.AGAIN:
            self.script.append(f'drop {call.line}')
            self.says.append(f'{call.line} dropped')
        if picked != core.NOT_YET:
            del self.calls[call.line]

    def picked_up(self, call):
        """What a joiner is told."""
        out = self.desk.pick_up(call.session, call.call, call.key.encode(), call.number)
        if out.next == core.NOT_YET:
            self.say(call.line, call.key, 'waits')
        elif out.next == core.AGAIN:
            self.say(call.line, call.key, 'again')
        else:
            # The library doesn't say with which step a joiner shares.
            self.says.append((f'{call.line} {call.key} is {self.reply()} at 0.{self.place()} shared ',))
        return out.next

    def drop(self, call):
        self.script.append(f'drop {call.line}')
        self.says.append(f'{call.line} dropped')
        self.withdraw(call)
        del self.calls[call.line]

    def withdraw(self, call):
        self.desk.withdraw(call.number)
        self.misused(self.desk.withdraw, call.number)

    def load(self, call):
        chance = self.random.random()
        if chance < .2:
            self.script.append(f'readfail {call.line} 7')
            self.says.append(f'{call.line} fails 7')
            call.loaded = (core.FAILED, 7, b'')
            return
        if chance < .5:
            value = self.random.choice([*map(raw, VALUES), None])
            said = '' if value is None else f' {call.key}={word(value)}'
            self.script.append(f'say {call.line}{said}')
            self.say(call.line, call.key, f'says {word(value)}')
        else:
            value = self.store.get(call.key)
            self.script.append(f'read {call.line}')
            self.say(call.line, call.key, f'reads {word(value)}')
        call.loaded = (core.NOTHING, 0, b'') if value is None else (core.FOUND, 0, value)

    def write(self, call):
        chance = self.random.random()
        did = 'deleted' if call.change is None else 'written'
        if chance < .2:
            self.script.append(f'applyfail {call.line} 4')
            self.say(call.line, call.key, 'left')
            self.says.append(f'{call.line} fails 4')
            call.written = (core.FAILED, 4)
            return
        if chance < .3:
            self.script.append(f'applylie {call.line} 6')
            self.say(call.line, call.key, did)
            self.says.append(f'{call.line} fails 6')
            call.written = (core.FAILED, 6)
        else:
            self.script.append(f'apply {call.line}')
            self.say(call.line, call.key, did)
            call.written = (core.WRITTEN, 0)
        self.change(call)

    def change(self, call):
        """The writer does what it was asked."""
        if call.change is None:
            self.store.pop(call.key, None)
        else:
            self.store[call.key] = call.change

    def process(self, call):
        processed = call.processed = Processed()
        words = [f'process {call.line}']
        if self.random.random() < .5:
            self.process_get(call, processed, words)
        chance = self.random.random()
        if chance < .4:
            value = self.random.choice(VALUES)
            words.append(f'set={value}')
            processed.effect = core.SET
            processed.set_value.set(raw(value))
        elif chance < .6:
            words.append('remove')
            processed.effect = core.EFFECT_REMOVE
        if processed.load == core.FAILED:
            processed.effect, processed.has_outcome = core.KEEP, False
        if self.random.random() < .15:
            words.append('fail=5')
            self.says.append(f'{call.line} fails 5')
            processed.effect, processed.code = core.EFFECT_FAILED, 5
        self.script.append(' '.join(words))
        call.must_write = self.shape.write_through and processed.effect in (core.SET, core.EFFECT_REMOVE) and processed.load != core.FAILED
        if not call.must_write:
            self.say(call.line, call.key, 'ready')
        elif processed.effect == core.SET:
            call.change = processed.set_value.get()
            self.say(call.line, call.key, f'write {word(call.change)}')
        else:
            self.say(call.line, call.key, 'delete')

    def process_get(self, call, processed, words):
        """The processor looks at its value, which may ask the loader."""
        value = call.entry
        words.append('get')
        if value is None and call.may_load:
            if self.random.random() < .3:
                words.insert(1, 'loadfail=9')
                self.says.append(f'{call.line} fails 9')
                processed.load, processed.load_code = core.FAILED, 9
                return
            value = self.store.get(call.key)
            self.say(call.line, call.key, f'reads {word(value)}')
            processed.load = core.NOTHING if value is None else core.FOUND
            processed.loaded.set(value or b'')
        self.says.append(f'{call.line} got {word(value)}')
        if value is not None:
            processed.has_outcome = True
            processed.outcome.set(value)

    def end(self, call):
        self.script.append(f'end {call.line}')
        self.commit(call)
        del self.calls[call.line]

    def commit(self, call):
        """The last phase of a call that was answered."""
        was_missing = call.key not in self.table
        ticket = call.number
        if call.processed is not None:
            if call.must_write:
                call.processed.write, call.processed.write_code = call.written
            out = self.desk.commit_process(ticket, call.processed)
        elif call.loaded is not None:
            out = self.desk.commit_load(ticket, *call.loaded)
        else:
            out = self.desk.commit_write(ticket, *call.written)
        self.done(call.line, call.key, was_missing and call.inserts() and out.reply < core.LOADER_FAILED, out.shared)
        self.misused(self.desk.withdraw, ticket)

    # What a step says, and what it leaves.

    def say(self, line, key, what):
        self.says.append(f'{line} {key} {what}')

    def reply(self):
        out = self.desk.out
        if out.reply == core.VALUE:
            return word(out.value.get())
        return ['ok', 'false', 'true', '-', '', f'LoaderFailed {out.code}', f'WriterFailed {out.code}', f'ProcessorFailed {out.code}'][out.reply]

    def place(self):
        """The place of a step, in one history of all generations."""
        return self.generation[1] + self.desk.out.place

    def done(self, line, key, inserts, shared=0):
        """A step was made, and so many joiners share it."""
        out = self.desk.out
        if out.moves & core.EVICTED:
            self.says.append(f'evict {out.victim.get().decode()} full at 0.{self.place() - 1}')
        self.say(line, key, f'is {self.reply()} at 0.{self.place()}')
        if out.moves & core.OWN_EVICTED_FULL:
            self.says.append(f'evict {key} full at 0.{self.place() + shared + 1}')
        self.follow(key, inserts)

    def follow(self, key, inserts):
        """The table follows the moves, and has what the core has."""
        out, moves = self.desk.out, self.desk.out.moves
        if moves & core.EVICTED:
            assert self.table.pop(out.victim.get().decode()) == out.evicted.get(), 'another value was evicted'
        if moves & core.REMOVED:
            assert self.table.pop(key) == out.left.get(), 'another value left'
        if moves & core.STORED:
            assert key not in self.table, 'a value was kept beside another'
            self.table[key] = self.desk.peek(key.encode())
        is_lost = inserts and not moves & core.STORED
        assert bool(moves & core.OWN_EVICTED_FULL) == is_lost, 'its own eviction'
        held = {key.decode(): value for key, value in self.desk.entries()}
        assert self.table == held, f'{self.table} is not {held}'

    @staticmethod
    def misused(call, *arguments):
        try:
            call(*arguments)
        except CoreError as error:
            assert error.code == core.MISUSE, error
        else:
            raise AssertionError('a ticket was used twice')


def differs(said, expected):
    """The first line that differs, or None."""
    for place, line in enumerate(expected):
        found = said[place] if place < len(said) else '(nothing)'
        if not (found.startswith(line[0]) if isinstance(line, tuple) else found == line):
            return f'line {place + 1}: jcache says "{found}", the library "{line}"'
    return None


def compare(program, player, seed):
    """Plays one script. How many lines agree; it exits where they don't."""
    player.play()
    player.judge()
    script = '\n'.join(player.script) + '\n'
    ran = subprocess.run([program, 'run'], input=script, stdout=subprocess.PIPE, stderr=subprocess.PIPE, universal_newlines=True)
    said = ran.stdout.split('\n')
    history = f'history {player.events()} legal'
    wrong = differs(said, player.says)
    if wrong is None and ran.returncode != 0:
        wrong = 'jcache failed'
    if wrong is None and history not in said[-3:]:
        wrong = f'jcache says "{said[-2]}", the library "{history}"'
    if wrong:
        sys.exit(f'{script}\nseed {seed}, {wrong}; status {ran.returncode} {ran.stderr}')
    return len(player.says)


def main(player, usage):
    """Plays scripts of such a player."""
    if len(sys.argv) != 4 or not os.access(sys.argv[1], os.X_OK):
        sys.exit(usage)
    program, first, count = sys.argv[1], int(sys.argv[2]), int(sys.argv[3])
    lines = sum(compare(program, player(seed), seed) for seed in range(first, first + count))
    print(f'{count} scripts, {lines} lines agree')


if __name__ == '__main__':
    main(Player, __doc__)
