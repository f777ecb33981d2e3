"""Judges a fleet under work: three instances whose loaders are slow, and others who write. A key's value is how often it was changed.

The rules: (a) what is cached at rest is the store's; (b) what begins after a change was told is answered nothing older, nor, if the
connection was lost, what was committed before it was made anew; (c) no answer of an instance is older than one that it gave before; (d) no
change is lost.
"""
import random
import threading
import time

from cadwrelch import fleet

A = "a: what is cached at rest is the store's"
B = 'b: what was told is answered no older'
C = 'c: no answer is older than one before'
D = 'd: no change is lost'


class Checker:
    """keys: those of all instances. told: what is done with a key that was told, in place of forgetting it. pause: at most so many seconds
    between two calls of a thread. cuts: seconds between two ends of all listening connections, None for never."""

    def __init__(self, test, keys='abcd', told=None, pause=0.0, cuts=None):
        self.test, self.keys, self.pause, self.cuts = test, keys, pause, cuts
        self.lock, self.broken, self.counts = threading.Lock(), {}, dict.fromkeys(('gets', 'changes', 'told', 'connections', 'lost', 'conflicts'), 0)
        test.write(**dict.fromkeys(keys, '0'))
        self.instances = [Instance(self, number, told) for number in range(3)]

    def run(self, seconds):
        """Works for so long, and then looks whether the rules hold at rest. What was broken, and what was counted."""
        end = time.monotonic() + seconds
        threads = [threading.Thread(target=it.work, args=(end, seed)) for it in self.instances for seed in range(2)]
        for thread in threads:
            thread.start()
        self._write(end)
        for thread in threads:
            thread.join(60)
        for it in self.instances:
            it.rest()
        changes = sum(int(self.test.stored(key)) for key in self.keys)
        if changes != self.counts['changes']:
            self.note(D, f'{changes} of {self.counts["changes"]}')
        return self.broken, self.counts

    def _write(self, end):
        """Somebody without a cache."""
        rng, cut = random.Random(7), time.monotonic()
        while time.monotonic() < end:
            self.test.increment(rng.choice(self.keys))
            self.count('changes')
            if self.cuts is not None and time.monotonic() > cut + self.cuts:
                self.test.end_listeners()
                cut = time.monotonic()
            time.sleep(rng.random() * (0.004 + self.pause))

    def count(self, name, more=1):
        with self.lock:
            self.counts[name] += more

    def note(self, rule, what):
        """A rule is broken: the first time that it was."""
        with self.lock:
            self.broken.setdefault(rule, what)


class Instance:
    """An instance of a service whose loader is slow, and its log."""

    def __init__(self, checker, number, told):
        self.checker, self.test, self.number = checker, checker.test, number
        self.lock, self.seen, self.floors, self.next_floors = threading.Lock(), dict.fromkeys(checker.keys, 0), dict.fromkeys(checker.keys, 0), {}
        self.store, rng = self.test.comparing(), random.Random(number)
        self.load_many = load_many = self.store.load_many

        def late(keys):
            found = load_many(keys)
            if rng.random() < 0.3:
                time.sleep(0.03)
            return found

        self.store.load_many = late
        self.store.load = lambda key: late([key]).get(key)
        self.cache, self.fleet = self.test.make(self.store, patience=1.5, on_told=self.hear, on_state=self.turn)
        if told is not None:
            self.cache = self.fleet._cache = Other(self.cache, told)

    def hear(self, keys):
        """Each announcement of a key is of one change that wasn't told before."""
        for key in keys:
            if key in self.floors and self.test.counts_told:
                self.floors[key] += 1

    def turn(self, state):
        """What is in the store before the next connection is made isn't told, and still nothing older is answered from then on."""
        if state == 'suspended':
            self.next_floors = {key: int(found.value) for key, found in self.load_many(self.checker.keys).items()}
        elif state == 'live':
            self.floors.update(self.next_floors)

    def get(self, key):
        """A get, judged by what was told, and seen, before it began."""
        floor, seen = self.floors[key], self.seen[key]
        found = int(self.cache.get(key).value)
        self.checker.count('gets')
        with self.lock:
            self.seen[key] = max(self.seen[key], found)
        if found < floor:
            self.checker.note(B, f'{key} of instance {self.number}: {found} after {floor}')
        if found < seen:
            self.checker.note(C, f'{key} of instance {self.number}: {found} after {seen}')

    def work(self, end, seed):
        rng = random.Random(seed)
        tries = []

        def add(entry):
            tries.append(1)
            entry.value = entry.value.but(str(int(entry.value.value) + 1))

        while time.monotonic() < end:
            key = rng.choice(self.checker.keys)
            if rng.random() < 0.85:
                self.get(key)
            else:
                tries.clear()
                fleet.invoke(self.cache, key, add)
                self.checker.count('changes')
                self.checker.count('conflicts', len(tries) - 1)
            time.sleep(rng.random() * self.checker.pause)

    def rest(self):
        """When nobody writes any more."""
        self.fleet.catch_up(60)
        for key in self.cache.keys():
            cached = self.cache.hit(key)
            if cached is not None and cached.value != self.test.stored(key):
                self.checker.note(A, f'{key} of instance {self.number}: {cached.value}')
        for name, count in self.fleet.stats().items():
            if name in self.checker.counts:
                self.checker.count(name, count)
        self.fleet.close()


class Other:
    """A cache that is told of changes in another way."""

    def __init__(self, cache, told):
        self._cache, self._told = cache, told

    def invalidate(self, key):
        self._told(self._cache, key)

    def __getattr__(self, name):
        return getattr(self._cache, name)
