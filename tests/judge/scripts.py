"""Random scripts, made beside the judge that plays them, so that most lines fit: calls of all kinds in interleavings in which keys are
reserved for long, loads are joined, others write the store and invalidate keys, and stripes and histories are full."""
import calls
import lines
from judge import Player
from table import shown
from words import MANY_KEYS, ONE_KEY, Fault

KEYS = ['a', 'b', 'c', 'd', 'e', 'f', 'A', 'Z', '_', '.', '0', 'ab', 'ba', 'a.', 'but', 'get', 'keep', 'read', 's1', 'K' * 32]
VALUES = ['1', '2', '3', '~', 'x', '0', 'v_1', 'v' * 256]
CODES = ['0', '1', '7', '42', '999999999']
# Of each kind: how often, stripes, entries and events of a stripe, keys, sessions.
KINDS = {'small': (6, (1, 3), (1, 3), (16, 60), (2, 6), (1, 6)),
         'evicting': (6, (1, 1), (2, 3), (40, 200), (3, 6), (1, 2)),
         'full': (6, (1, 1), (1, 2), (16, 22), (1, 4), (1, 3)),
         'reserved': (4, (1, 2), (1, 2), (30, 100), (3, 6), (4, 8)),
         'joined': (4, (1, 2), (1, 4), (20, 100), (1, 3), (4, 8)),
         'roomy': (2, (1, 3), (2, 8), (60, 300), (3, 12), (2, 6)),
         'stripes': (1, (1, 64), (1, 3), (16, 40), (6, 20), (2, 6)),
         'limits': (0.7, (1, 1), (1, 100), (200, 600), (62, 75), (7, 9)),
         'long': (0.2, (1, 1), (1, 50), (200, 4000), (1024, 1025), (2, 4))}
LENGTHS = [8, 15, 25, 40, 60, 90]
FILLING = ['get', 'get', 'get', 'put', 'put', 'putif', 'contains', 'getall', 'putall', 'loadall']
"""Operations after which a key is cached more often than not."""


class Maker:
    """Makes one script."""

    def __init__(self, rng):
        self.rng, self.player, self.made, self.has_fault = rng, Player(), [], False
        self.kind = rng.choices(list(KINDS), [kind[0] for kind in KINDS.values()])[0]
        self.is_honest, self.is_quiet, self.is_told = rng.random() < 0.3, rng.random() < 0.3, rng.random() < 0.7

    @property
    def world(self):
        return self.player.world

    def chance(self, of):
        return self.rng.random() < of

    def between(self, limits):
        return self.rng.randint(*limits)

    # Words.

    def key(self):
        return self.rng.choice(self.keys)

    def some_keys(self):
        if self.kind == 'long' and self.chance(0.5):
            return self.keys
        if self.kind == 'limits' and self.chance(0.6):
            return self.keys[:self.rng.choice([63, 64, 65, len(self.keys)])]
        return self.rng.sample(self.keys, self.rng.randint(1, min(6, len(self.keys))))

    def value(self):
        return self.rng.choice(self.values)

    def code(self):
        return self.rng.choice(CODES)

    def equal_value(self, key):
        """The value that is cached of a key, or any."""
        cached = self.world.entries().get(key)
        return self.value() if cached is None or self.chance(0.4) else shown(cached)

    # Lines.

    def add(self, raw, keeps_fault):
        """Adds a line. One with a fault is left out, or ends the script, with that chance. Whether the script continues."""
        try:
            self.player.play(raw)
        except Fault:
            if self.chance(keeps_fault):
                self.made.append(raw)
                self.has_fault = True
                return False
            return True
        self.made.append(raw)
        return True

    def put(self, text, keeps_fault=1.0):
        return self.add(text.encode(), keeps_fault)

    def open(self):
        rng, (_, stripes, capacity, history, keys, sessions) = self.rng, KINDS[self.kind]
        count = self.between(keys)
        pool = KEYS if self.chance(0.5) else KEYS[:6]
        self.keys = rng.sample(pool, min(count, len(pool))) if count < 60 else [f'k{at}' for at in range(count)]
        self.values = rng.sample(VALUES, rng.randint(2, 4))
        self.sessions = [f's{at}' for at in rng.sample(range(1, 33), self.between(sessions))]
        flags = [flag for flag in ('read', 'write') if self.is_honest or self.chance(0.75)]
        if self.chance(0.2):
            self.put(rng.choice(['', '#', '# a comment']))
        self.put(' '.join(['open', *(str(self.between(limits)) for limits in (stripes, capacity, history)), *flags]))
        for key in self.keys[:40]:
            if self.chance(0.55):
                self.put(f'set {key} {self.value()}')
        if self.chance(0.1):
            self.put(rng.choice(['audit', 'untold', self.foreign_write(self.key()), f'invalidate {self.key()}']))
            self.put(f'set {self.key()} {self.value()}', 0.3)

    def crowd(self):
        """Loads of many keys, and calls that join them."""
        for session in self.sessions[:3]:
            self.put(f'begin {self.world.last_number + 1} {session} getall {" ".join(self.some_keys())}')

    def foreign_write(self, key):
        return f'foreign {key} {self.rng.choice([self.value(), self.value(), self.equal_value(key), self.equal_value(key), "-"])}'

    def reopen(self):
        flags = [flag for flag in ('read', 'write') if self.is_honest or self.chance(0.7)]
        return ' '.join(['reopen', str(self.between((1, 3))), str(self.between((1, 3))), str(self.between((16, 60))), *flags])

    def operation(self, name):
        """A call with its words."""
        if name in MANY_KEYS:
            if name in ('removeevery', 'clear'):
                return name
            words = [f'{key}={self.value()}' if name == 'putall' else key for key in self.some_keys()]
            return ' '.join([name, *([self.rng.choice(['keep', 'replace'])] if name == 'loadall' else []), *words])
        key = self.key()
        values = [self.value() for _ in ONE_KEY[name].split()[1:]]
        if name in ('removeif', 'replaceif'):
            values[0] = self.equal_value(key)
        return ' '.join([name, key, *values])

    def begin(self):
        """A call of a free session, or None."""
        rng = self.rng
        free = [session for session in self.sessions if int(session[1:]) not in self.world.sessions]
        if not free:
            return None
        often = {'joined': ['get', 'get', 'getall', 'loadall'], 'limits': list(MANY_KEYS), 'long': list(MANY_KEYS)}
        names = rng.choices([often.get(self.kind, FILLING), FILLING, list(ONE_KEY), list(MANY_KEYS)], [2, 4, 3, 1])[0]
        number = self.world.last_number + (1 if self.chance(0.9) else rng.randint(1, 50))
        return f'begin {number} {rng.choice(free)} {self.operation(rng.choice(names))}'

    def process(self, number, key):
        words, stored = ['process', str(number)], self.world.store.get(key)
        if self.chance(0.15):
            words.append('loadfail=' + self.code())
        elif self.chance(0.25):
            words.append('loadsay=' + (shown(stored) if self.is_honest or self.chance(0.4) else self.rng.choice([self.value(), '-'])))
        words += [self.rng.choice(['get', 'get', 'exists', 'remove', 'set=' + self.value(), 'set=' + self.value()])
                  for _ in range(self.rng.choice([0, 1, 1, 2, 2, 3, 4, 5]))]
        return ' '.join(words + ['fail=' + self.code()] * self.chance(0.12))

    def say(self, call, keys):
        """What the loader says: what the store has, if it is honest."""
        pairs = []
        for key in keys:
            stored = self.world.store.get(key)
            if self.is_honest or self.chance(0.4):
                pairs += [f'{key}={shown(stored)}'] if stored is not None else []
            elif self.chance(0.75):
                pairs.append(f'{key}={self.value()}')
        if self.chance(0.2) and not self.is_honest:
            pairs.append(f'{self.key()}={self.value()}')
        self.rng.shuffle(pairs)
        return ' '.join(['say', str(call.number), *pairs])

    def apply(self, call, keys):
        number, kind = call.number, self.rng.random()
        if kind < 0.65:
            return f'apply {number}'
        if kind < 0.72 or not call.is_bulk and kind < 0.87:
            return f'applyfail {number} {self.code()}'
        if call.is_bulk and kind < 0.92:
            left = [key for key in keys if self.chance(0.4)] + ['another'] * self.chance(0.1)
            self.rng.shuffle(left)
            form = self.rng.choice([f'apply {number} but', f'applyfail {number} {self.code()} but'])
            return ' '.join([form, *left]) if left or form.startswith('applyfail') else f'apply {number}'
        return f'apply {number}' if self.is_honest else f'applylie {number} {self.code()}'

    def fitting(self, call):
        """A line that fits a call, or None."""
        number, parts = call.number, call.parts
        loads, writes, runs = ([part.key for part in parts if getattr(part, name)()]
                               for name in ('awaits_loader', 'awaits_writer', 'awaits_processor'))
        started, joined = call.started(), call.among(calls.JOINED)
        options = []
        if loads:
            options += [(8, lambda: f'read {number}'), (2, lambda: self.say(call, loads)), (1, lambda: f'readfail {number} {self.code()}')]
        if runs:
            options.append((8, lambda: self.process(number, runs[0])))
        elif writes:
            options.append((8, lambda: self.apply(call, writes)))
        if started and not any(part.awaits() for part in started):
            options.append((8, lambda: f'end {number}'))
        if joined and not started:
            options.append((4, lambda: f'take {number}'))
        if not joined and not any(part.was_answered() for part in started):
            is_marked = any(self.world.stripe_of(part.key).is_marked(part.key) for part in started)
            options.append((4 if is_marked else 0.5, lambda: f'drop {number}'))
        if not joined and not started:
            options.append((5, lambda: f'more {number}'))
        return self.rng.choices(options, [weight for weight, _ in options])[0][1]() if options else None

    # What others do.

    def invalidate(self):
        """Of a reserved key, of a cached one, or of any."""
        reserved = [key for stripe in self.world.stripes for key in stripe.reserved]
        pool = self.rng.choice([reserved, reserved, list(self.world.entries()), self.keys]) or self.keys
        return f'invalidate {self.rng.choice(pool)}'

    def foreign(self):
        """A write by another program, and perhaps an invalidation after it."""
        known = [key for stripe in self.world.stripes for key in stripe.reserved] or list(self.world.entries())
        key = self.rng.choice(known) if known and self.chance(0.6) else self.key()
        continues = self.put(self.foreign_write(key))
        return continues and (not self.is_told or self.chance(0.6) or self.put(f'invalidate {key}', 0.3))

    def arbitrary(self):
        """A line that need not fit: of a call under way, or any."""
        if self.chance(0.3):
            return lines.odd_line(self.rng)
        number = self.rng.choice([*self.world.calls, self.rng.randint(0, self.world.last_number + 2)])
        words = ['end', 'drop', 'take', 'more', 'read', 'readfail 7', 'say', 'apply', 'applyfail 7', 'applylie 7', f'apply but {self.key()}',
                 'process get', 'invalidate', 'reopen', 'open', 'set', 'begin', f'applyfail 7 but {self.key()}']
        first, *rest = self.rng.choice(words).split()
        text = {'invalidate': self.invalidate, 'reopen': self.reopen, 'open': lambda: 'open 1 2 100', 'set': lambda: f'set {self.key()} 1',
                'begin': lambda: f'begin {number} {self.rng.choice(self.sessions)} get {self.key()}'}.get(first)
        return (text() if text else ' '.join([first, str(number), *rest])).encode()

    def look_at_end(self):
        """At a stripe whose history is almost full a look, which takes a place, or an invalidation; None if there is no such stripe."""
        ended = [stripe for stripe in self.world.stripes if stripe.free() < 3 and (stripe.entries or stripe.reserved)]
        free = [session for session in self.sessions if int(session[1:]) not in self.world.sessions]
        if not ended or not free:
            return None
        stripe = self.rng.choice(ended)
        marked = [key for key in stripe.reserved if stripe.is_marked(key)]
        key = self.rng.choice(marked if marked and self.chance(0.6) else list({**stripe.entries, **stripe.reserved}))
        look = f'begin {self.world.last_number + 1} {free[0]} {self.rng.choice(["get", "contains"])} {key}'
        return self.rng.choice([look, look, f'invalidate {key}'])

    def one(self):
        """One more line, or two. Whether the script continues."""
        under_way, kind = list(self.world.calls.values()), self.rng.random()
        if kind < 0.04:
            return self.add(self.arbitrary(), 0.08)
        if kind < 0.07:
            return self.put('untold')
        if kind < 0.10:
            return self.put('audit')
        if kind < 0.14 and self.is_told:
            return self.put(self.invalidate(), 0.3)
        if kind < 0.19 and not self.is_quiet:
            return self.foreign()
        if kind < 0.23 and not under_way:
            return self.put(self.reopen()) and self.put('untold')
        if kind < 0.40 and self.look_at_end():
            return self.put(self.look_at_end(), 0.3)
        call = self.rng.choice(under_way) if under_way and not self.chance(0.5 if len(under_way) < 3 else 0.25) else None
        text = self.begin() if call is None else self.fitting(call)
        return self.put(text or 'untold')

    def close(self):
        """Ends the calls under way, perhaps, and then looks."""
        for _ in range(self.rng.choice([0, 0, 20, 60])):
            if not self.world.calls:
                break
            text = self.fitting(self.rng.choice(list(self.world.calls.values())))
            if text is not None:
                self.put(text)
        self.put('audit')
        self.put('untold')
        for _ in range(self.rng.choice([0, 1, 3, 8])):
            if self.has_fault or not self.add(self.arbitrary(), 1.0):
                return

    def script(self):
        if self.chance(0.03):
            self.add(lines.odd_line(self.rng), 1.0)
        if self.world is None and not self.has_fault:
            self.open()
        if self.has_fault or self.world is None or not hasattr(self, 'keys'):
            return self.made
        if self.kind in ('limits', 'long') and self.chance(0.5):
            self.crowd()
        for _ in range(10 if self.kind == 'long' else self.rng.choice(LENGTHS)):
            if not self.one():
                return self.made
        self.close()
        return self.made


def random_script(rng):
    """The bytes of a script; a few are cut."""
    script = b''.join(raw + b'\n' for raw in Maker(rng).script())
    return script[:rng.randrange(len(script) + 1)] if rng.random() < 0.01 else script
