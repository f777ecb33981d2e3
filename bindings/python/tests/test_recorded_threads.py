"""Records of calls on threads, over a store that fails and lies, are explained by `jcache check`. Its program is JCACHE_PROGRAM, or that of
the sources; without it nothing is judged."""
import os
import random
import subprocess
import sys
import threading
import time
import unittest

import cadwrelch
from cadwrelch.recording import CallRecorder

HERE = os.path.dirname(os.path.abspath(__file__))
SOURCES = os.environ.get('CADWRELCH_SOURCES', os.path.dirname(HERE))
PROGRAM = os.environ.get('JCACHE_PROGRAM') or os.path.join(SOURCES, '..', '..', 'crates', 'jcache', 'out', 'jcache')
KEYS = ['k0', 'k1', 'k2']


class Broken(Exception):
    pass


class Interrupt(BaseException):
    """What ends a loader, a writer or a processor, as KeyboardInterrupt does."""


class Store:
    """A dict that takes its time. Some of its calls fail, and some writes are done and then fail."""

    def __init__(self, seed):
        self.held, self.random = {'k0': 'v0'}, random.Random(seed)

    def fail(self, percent):
        if self.random.random() < 0.4:
            time.sleep(self.random.random() * 0.0005)
        if self.random.random() * 100 < percent:
            raise self.random.choice([Broken, Broken, Interrupt])

    def load(self, key):
        self.fail(10)
        found = self.held.get(key)
        self.fail(0)
        return found

    def load_many(self, keys):
        self.fail(10)
        return {key: self.held[key] for key in keys if key in self.held}

    def write(self, key, value):
        self.fail(10)
        self.held[key] = value
        self.fail(6)

    def delete(self, key):
        self.fail(10)
        self.held.pop(key, None)
        self.fail(6)

    def write_many(self, entries):
        """It fails at some keys, of which it has written some."""
        left = [key for key in entries if self.random.random() < 0.3]
        self.held.update({key: entries[key] for key in entries if key not in left or self.random.random() < 0.3})
        self.fail(0)
        if left:
            raise cadwrelch.NotWritten(left)

    def delete_many(self, keys):
        left = [key for key in keys if self.random.random() < 0.3]
        for key in keys:
            if key not in left:
                self.held.pop(key, None)
        self.fail(0)
        if left:
            raise cadwrelch.NotWritten(left)


def processor(rng, value):
    steps = [rng.randrange(9) for _ in range(rng.randrange(1, 5))]

    def process(entry):
        for step in steps:
            if step < 3:
                try:
                    entry.value
                except cadwrelch.LoaderError:
                    if rng.random() < 0.5:
                        raise
            elif step == 3:
                entry.exists()
            elif step < 7:
                entry.value = value
            elif step == 7:
                del entry.value
            else:
                raise rng.choice([Broken, Interrupt])
        return value

    return process


def call(cache, rng, value, old):
    """A call of any kind."""
    key, some = rng.choice(KEYS), rng.sample(KEYS, rng.randrange(1, 4))
    return rng.choice([
        lambda: cache.get(key), lambda: cache.get(key), lambda: key in cache, lambda: cache.hit(key), lambda: cache.put(key, value),
        lambda: cache.get_and_put(key, value), lambda: cache.put_if_absent(key, value), lambda: cache.remove(key),
        lambda: cache.remove_if(key, old), lambda: cache.get_and_remove(key), lambda: cache.replace(key, value),
        lambda: cache.replace_if(key, old, value), lambda: cache.get_and_replace(key, value), lambda: cache.invoke(key, processor(rng, value)),
        lambda: cache.invoke(key, processor(rng, value)), lambda: cache.get_many(some),
        lambda: cache.put_many({each: f'{value}_{each}' for each in some}), lambda: cache.remove_many(some),
        lambda: cache.load_many(some, rng.random() < 0.5), cache.clear])()


def work(cache, seed, name):
    rng = random.Random(seed * 10 + name)
    for at in range(40):
        try:
            call(cache, rng, f'v{name}_{at}', f'v{rng.randrange(4)}_{max(0, at - rng.randrange(4))}')
        except (cadwrelch.CacheError, Broken, Interrupt):
            pass    # it is in the record


def record(seed):
    recorder, store = CallRecorder(), Store(seed)
    recorder.stored('k0', 'v0')
    cache = recorder.cache(cadwrelch.Cache(recorder.loader(store), recorder.writer(store), stripes=1, capacity=1 + seed % 2))
    threads = [threading.Thread(target=work, args=(cache, seed, name)) for name in range(4)]
    for thread in threads:
        thread.start()
    for thread in threads:
        thread.join()
    return recorder.text()


class RecordedThreads(unittest.TestCase):
    def setUp(self):
        self.addCleanup(sys.setswitchinterval, sys.getswitchinterval())

    @unittest.skipUnless(os.path.exists(PROGRAM), 'there is no jcache that judges')
    def test_records_are_explained(self):
        for seed in range(12):
            sys.setswitchinterval([1e-6, 1e-5, 1e-4][seed % 3])
            text = record(seed)
            said = subprocess.run([PROGRAM, 'check'], input=text, stdout=subprocess.PIPE, stderr=subprocess.STDOUT, universal_newlines=True)
            self.assertEqual(said.returncode, 0, f'seed {seed}: {said.stdout}\n{text}')


if __name__ == '__main__':
    unittest.main()
