#!/usr/bin/env python3
"""Writes a script for the benchmark to standard output: always the same one for the same words.

usage: generate.py KIND SIZE

KIND  plain     one stripe, nobody asked outside: get and put on few keys. The history fills up: then calls are refused
      phases    get, put and remove in phases, with read-through and write-through: begin, read or apply, end
      stripes   all eleven operations over 64 stripes, with read-through and write-through
      mixed     16 stripes of 4,096 entries, nobody asked outside: four gets to a put, of 10,000 keys
      joins     64 stripes with read-through: one get of a key loads, and 15 others join it and take its answer
      bulk      64 stripes, read-through and write-through: getall, putall and removeall of up to 1,024 keys, four calls
                under way at once; now and then a removeevery or a clear
      hits16, hits4096
                one stripe, nobody asked outside: gets of random keys among so many entries, which are all there
      evictions16, evictions4096
                one stripe that is full of so many entries, nobody asked outside: puts of new keys, each of which evicts
SIZE  2 for about 4 MiB, which is the most that `jcache run` reads, or as many calls as the history of one stripe
      takes: 50,000 gets, 28,000 puts; 1 for half of it

No line of a script has a fault. It ends with an audit."""
import sys

LIMIT = 4194304  # bytes of input
ROOM = 65536  # bytes kept for what ends a script
WINDOW = 16  # calls that are under way at once
LETTERS = 'abcdefghijklmnopqrstuvwxyz'
GETS, PUTS = 50000, 28000  # of the kinds `hits` and `evictions`
MOST = 4096  # entries of a stripe: both numbers of entries take as many puts before the calls that are measured


class Numbers:
    """Numbers that look random and are the same on every machine."""

    def __init__(self):
        self.state = 1

    def below(self, n):
        self.state = (self.state * 6364136223846793005 + 1442695040888963407) % 2**64
        return (self.state >> 33) % n


def keys_of(stripes, each, length):
    """So many keys for each stripe, all of one length."""
    found = [[] for _ in range(stripes)]
    missing = stripes * each
    number = 0
    while missing:
        tail, rest = '', number
        for _ in range(4):
            tail, rest = LETTERS[rest % 26] + tail, rest // 26
        key = ('key_' + '.' * length)[:length - 4] + tail
        home = sum(key.encode()) % stripes
        if len(found[home]) < each:
            found[home].append(key)
            missing -= 1
        number += 1
    return [key for keys in found for key in keys]


class Script:
    """A script so far, with what the world would hold: so it is known whom a call asks."""

    def __init__(self, size):
        self.lines, self.bytes, self.limit = [], 0, LIMIT // 2 * size - ROOM
        self.numbers, self.call, self.serial = Numbers(), 0, 0
        self.cache, self.store, self.steps = {}, {}, {}

    def put(self, line):
        self.lines.append(line)
        self.bytes += len(line) + 1

    def is_full(self):
        return self.bytes >= self.limit

    def open(self, stripes, capacity, history, options):
        self.stripes, self.capacity, self.history = stripes, capacity, history
        self.put(f'open {stripes} {capacity} {history}{options}')

    def value(self, length):
        self.serial += 1
        return f'{self.serial:07d}'.rjust(length, 'v')

    # One call of a window, with both options on.

    def begin(self, session, op, key, values):
        """The first phase. Answers the call's number, whom it asks, and what it leaves where nobody fails."""
        self.call += 1
        entry = self.cache.get(key)
        there, equal = entry is not None, bool(values) and entry == values[0]
        new = values[-1] if values else None
        asked, left = {
            'get': ('load' if not there else None, entry),
            'contains': (None, entry),
            'put': ('write', new),
            'getput': ('write', new),
            'putif': ('write' if not there else None, entry if there else new),
            'remove': ('write', None),
            'removeif': ('write' if equal else None, None if equal else entry),
            'getremove': ('write', None),
            'replace': ('write' if there else None, new if there else None),
            'replaceif': ('write' if equal else None, new if equal else entry),
            'getreplace': ('write' if there else None, new if there else None),
        }[op]
        self.put(' '.join(['begin', str(self.call), f's{session}', op, key] + values))
        if asked is None:
            self.step(key, left)
        return self.call, key, asked, left

    def answer(self, begun, fails):
        """What is said outside. Answers the entry that the call leaves."""
        call, key, asked, left = begun
        if asked == 'load':
            if fails:
                self.put(f'readfail {call} 7')
                return self.cache.get(key)
            self.put(f'read {call}')
            return self.store.get(key)
        if fails:
            self.put(f'applyfail {call} 9')
            return self.cache.get(key)
        self.put(f'apply {call}')
        self.keep(self.store, key, left)
        return left

    def end(self, begun, left):
        call, key, asked, _ = begun
        self.put(f'end {call}')
        self.step(key, left)

    def step(self, key, left):
        self.keep(self.cache, key, left)
        home = sum(key.encode()) % self.stripes
        self.steps[home] = self.steps.get(home, 0) + 1
        # a reservation needs three places beside those of the other calls under way
        assert self.steps[home] + 3 * WINDOW + 3 <= self.history, 'a history could be full'

    @staticmethod
    def keep(entries, key, value):
        if value is None:
            entries.pop(key, None)
        else:
            entries[key] = value

    def window(self, calls, fails):
        """Calls of different sessions on different keys: all begin, then all are answered, then all end."""
        begun = [self.begin(i + 1, op, key, values) for i, (op, key, values) in enumerate(calls)]
        asked = [b for b in begun if b[2] is not None]
        left = [self.answer(b, fails()) for b in asked]
        for b, value in zip(asked, left):
            self.end(b, value)

    def text(self):
        self.put('audit')
        assert self.bytes <= LIMIT
        return '\n'.join(self.lines) + '\n'


def plain(size):
    script = Script(size)
    script.open(1, 64, 65536, '')
    keys = keys_of(1, 16, 8)
    while not script.is_full():
        script.call += 1
        key = keys[script.numbers.below(len(keys))]
        session = script.numbers.below(4) + 1
        if script.numbers.below(2):
            script.put(f'begin {script.call} s{session} put {key} {script.value(9)}')
        else:
            script.put(f'begin {script.call} s{session} get {key}')
    return script.text()


def phases(size):
    script = Script(size)
    script.open(16, 64, 8192, ' read write')
    keys = keys_of(16, 8, 26)
    for key in keys:
        value = script.value(40)
        script.put(f'set {key} {value}')
        script.store[key] = value
    # each key in turn is got, which loads, then put, then removed
    while not script.is_full():
        for op in ('get', 'put', 'remove'):
            for first in range(0, len(keys), WINDOW):
                values = lambda: [script.value(40)] if op == 'put' else []
                script.window([(op, key, values()) for key in keys[first:first + WINDOW]], lambda: False)
    return script.text()


def stripes(size):
    script = Script(size)
    script.open(64, 64, 4096, ' read write')
    keys = keys_of(64, 8, 24)
    for key in keys[::2]:
        value = script.value(32)
        script.put(f'set {key} {value}')
        script.store[key] = value
    operations = ('get', 'get', 'get', 'contains', 'put', 'put', 'getput', 'putif', 'remove', 'removeif', 'getremove',
                  'replace', 'replaceif', 'getreplace')
    below = script.numbers.below
    while not script.is_full():
        # different keys, so no call of a window finds its key reserved
        start, calls = below(len(keys)), []
        for i in range(WINDOW):
            key, op = keys[(start + 37 * i) % len(keys)], operations[below(len(operations))]
            old = script.cache.get(key) if below(2) else None
            values = {'get': 0, 'contains': 0, 'remove': 0, 'getremove': 0, 'replaceif': 2}.get(op, 1)
            values = [script.value(32) for _ in range(values)]
            if op in ('removeif', 'replaceif') and old is not None:
                values[0] = old
            calls.append((op, key, values))
        script.window(calls, lambda: below(16) == 0)
    return script.text()


def mixed(size):
    script = Script(size)
    script.open(16, 4096, 65536, '')
    below = script.numbers.below
    while not script.is_full():
        script.call += 1
        key = f'key{below(10000):05d}'
        session = 1 + below(32)
        operation = f'put {key} value{below(100000):05d}' if below(5) == 0 else f'get {key}'
        script.put(f'begin {script.call} s{session} {operation}')
    return script.text()


def joins(size):
    script = Script(size)
    script.open(64, 64, 16384, ' read')
    steps = [0] * 64
    serial = 0
    while not script.is_full():
        key = f'key{serial:07d}'
        serial += 1
        home = sum(key.encode()) % 64
        steps[home] += WINDOW + 1  # and an eviction
        assert steps[home] <= script.history - 3 * WINDOW, 'a history could be full'
        calls = range(script.call + 1, script.call + WINDOW + 1)
        for i, call in enumerate(calls):
            script.put(f'begin {call} s{i + 1} get {key}')
        script.call += WINDOW
        script.put(f'say {calls[0]} {key}={script.value(32)}')
        script.put(f'end {calls[0]}')
        for call in calls[1:]:
            script.put(f'take {call}')
    return script.text()


class Bulk(Script):
    """Calls of many keys, with both options on. No key is reserved twice at once, so none is put off."""

    EACH = 32  # keys of a stripe: its reservations at once are no more

    def start(self, session, op, keys):
        """The first phases. Answers the call's number, whether it writes, the asked keys, and what they would become."""
        self.call += 1
        values = [self.value(8) if op == 'putall' else None for _ in keys]
        words = [key if value is None else f'{key}={value}' for key, value in zip(keys, values)]
        if op in ('removeevery', 'clear'):
            words = []
        self.put(' '.join(['begin', str(self.call), f's{session}', op] + words))
        asked = []
        for key, value in zip(keys, values):
            if op == 'clear' or op == 'getall' and key in self.cache:
                self.step(key, None if op == 'clear' else self.cache[key])
            else:
                asked.append((key, value))
        return self.call, op != 'getall', asked

    def reply(self, begun):
        """What is said outside, if anybody is asked. Answers what the keys become."""
        call, writes, asked = begun
        if not asked:
            return []
        fails = self.numbers.below(8) == 0
        if not writes:
            self.put(f'readfail {call} 7' if fails else f'read {call}')
            return [(key, None if fails else self.store.get(key)) for key, _ in asked]
        left = {asked[self.numbers.below(len(asked))][0] for _ in range(4)} if fails else set()
        # a writer that leaves some keys fails, or returns as if it hadn't
        how = [f'apply {call}', f'applyfail {call} 9'][self.numbers.below(2)] if fails else f'apply {call}'
        self.put(' '.join([how] + (['but'] + sorted(left) if left else [])))
        for key, value in asked:
            if key not in left:
                self.keep(self.store, key, value)
        return [(key, self.cache.get(key) if key in left else value) for key, value in asked]

    def commit(self, begun, becomes):
        if becomes:
            self.put(f'end {begun[0]}')
        for key, value in becomes:
            self.step(key, value)

    def round(self, calls):
        begun = [self.start(i + 1, op, keys) for i, (op, keys) in enumerate(calls)]
        becomes = [self.reply(b) for b in begun]
        for b, values in zip(begun, becomes):
            self.commit(b, values)
        assert max(self.steps.values()) + 3 * self.EACH <= self.history, 'a history could be full'


def bulk(size):
    script = Bulk(size)
    script.open(64, 64, 16384, ' read write')
    below = script.numbers.below
    keys = keys_of(64, script.EACH, 8)
    keys = [keys[i * 997 % len(keys)] for i in range(len(keys))]
    for key in keys[::2]:
        value = script.value(8)
        script.put(f'set {key} {value}')
        script.store[key] = value
    operations = ('getall', 'getall', 'getall', 'putall', 'putall', 'removeall')
    lengths = (1024, 512, 256, 1), (1024, 64, 128, 16), (700, 300, 500, 33), (2, 1000, 4, 512)
    rounds = 0
    while not script.is_full():
        rounds += 1
        if rounds % 16 == 0:
            every = sorted(script.cache, key=lambda key: (sum(key.encode()) % 64, key))
            script.round([(('removeevery', 'clear')[rounds // 16 % 2], every)])
            continue
        first, calls = below(len(keys)), []
        for length in lengths[below(len(lengths))]:
            calls.append((operations[below(len(operations))], [keys[(first + i) % len(keys)] for i in range(length)]))
            first += length
        script.round(calls)
    return script.text()


def filled(entries):
    """One stripe that is full of so many entries."""
    script = Script(2)
    script.open(1, entries, 65536, '')
    keys = [f'key{number:06d}' for number in range(entries)]
    for number in range(MOST):
        script.call += 1
        script.put(f'begin {script.call} s{number % 32 + 1} put {keys[number % entries]} {script.value(9)}')
    return script, keys


def hits(entries, size):
    script, keys = filled(entries)
    for _ in range(GETS // 2 * size):
        script.call += 1
        script.put(f'begin {script.call} s{script.call % 32 + 1} get {keys[script.numbers.below(entries)]}')
    return script.text()


def evictions(entries, size):
    script, _ = filled(entries)
    for number in range(PUTS // 2 * size):
        script.call += 1
        script.put(f'begin {script.call} s{script.call % 32 + 1} put new{number:06d} {script.value(9)}')
    return script.text()


KINDS = {
    'plain': plain,
    'phases': phases,
    'stripes': stripes,
    'mixed': mixed,
    'joins': joins,
    'bulk': bulk,
    'hits16': lambda size: hits(16, size),
    'hits4096': lambda size: hits(4096, size),
    'evictions16': lambda size: evictions(16, size),
    'evictions4096': lambda size: evictions(4096, size),
}


def main(words):
    if len(words) != 2 or words[0] not in KINDS or words[1] not in ('1', '2'):
        sys.exit(__doc__)
    sys.stdout.write(KINDS[words[0]](int(words[1])))


if __name__ == '__main__':
    main(sys.argv[1:])
