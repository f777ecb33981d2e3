"""Lets threads call a cache of this repository's package for Python, or a naive one, over a slow store, and writes what was recorded.

usage: traffic.py SUBJECT FILE SEED [fail] [lie]     SUBJECT is `cache` or `naive`; of a hundred calls of the store so many fail"""
import random
import sys
import threading
import time

import cadwrelch
from cadwrelch.recording import CallRecorder

KEYS = ['k0', 'k1', 'k2']
CALLS = 24


class Broken(Exception):
    pass


class Store:
    """A dict that takes its time. Some of its calls fail, and some writes are done and then fail."""

    def __init__(self, fail, lie, seed):
        self.held, self.fail, self.lie, self.random = {}, fail, lie, random.Random(seed)

    def dawdle(self, percent):
        if self.random.random() < 0.4:
            time.sleep(self.random.random() * 0.0005)
        if self.random.random() * 100 < percent:
            raise Broken

    def load(self, key):
        self.dawdle(self.fail)
        found = self.held.get(key)
        self.dawdle(0)
        return found

    def load_many(self, keys):
        self.dawdle(self.fail)
        return {key: self.held[key] for key in keys if key in self.held}

    def write(self, key, value):
        self.dawdle(self.fail)
        self.held[key] = value
        self.dawdle(self.lie)

    def delete(self, key):
        self.dawdle(self.fail)
        self.held.pop(key, None)
        self.dawdle(self.lie)

    def many(self, keys, change):
        """Some of the keys of one call may fail."""
        left = [key for key in keys if self.random.random() * 100 < self.fail]
        for key in keys:
            if key not in left:
                change(key)
        self.dawdle(0)
        if left:
            raise cadwrelch.NotWritten(left)

    def write_many(self, entries):
        self.many(entries, lambda key: self.held.update({key: entries[key]}))

    def delete_many(self, keys):
        self.many(keys, lambda key: self.held.pop(key, None))


class Naive:
    """It looks, loads, and then puts; it writes, and then puts."""

    def __init__(self, loader, writer):
        self.held, self.loader, self.writer = {}, loader, writer

    def get(self, key, default=None):
        found = self.held.get(key)
        if found is None:
            found = self.loader.load(key)
            if found is not None:
                self.held[key] = found
        return default if found is None else found

    def put(self, key, value):
        self.writer.write(key, value)
        self.held[key] = value

    def remove(self, key):
        self.writer.delete(key)
        return self.held.pop(key, None) is not None


def processor(rng, value):
    """A processor that reads, sets, removes, and fails, or not."""
    steps = [rng.randrange(8) for _ in range(rng.randrange(1, 4))]

    def process(entry):
        for step in steps:
            if step < 3:
                entry.value
            elif step == 3:
                entry.exists()
            elif step < 6:
                entry.value = value
            elif step == 6:
                entry.remove()
            else:
                raise Broken
        return value

    return process


def all_calls(cache, rng, key, value, old):
    """What a call of each kind is."""
    some = rng.sample(KEYS, rng.randrange(1, 4))
    return [lambda: cache.get(key), lambda: cache.get(key), lambda: key in cache, lambda: cache.put(key, value),
            lambda: cache.get_and_put(key, value), lambda: cache.put_if_absent(key, value), lambda: cache.remove(key),
            lambda: cache.remove_if(key, old), lambda: cache.get_and_remove(key), lambda: cache.replace(key, value),
            lambda: cache.replace_if(key, old, value), lambda: cache.get_and_replace(key, value),
            lambda: cache.invoke(key, processor(rng, value)), lambda: cache.invoke(key, processor(rng, value)), lambda: cache.hit(key),
            lambda: cache.get_many(some), lambda: cache.put_many({each: f'{value}_{each}' for each in some}),
            lambda: cache.remove_many(some), lambda: cache.load_many(some, rng.random() < 0.5), cache.clear]


def work(cache, is_whole, seed, name):
    rng = random.Random(seed)
    for at in range(CALLS):
        key, value = rng.choice(KEYS), f'v{name}_{at}'
        calls = all_calls(cache, rng, key, value, f'v{name}_{at - 1}')
        try:
            rng.choice(calls if is_whole else [calls[0], calls[1], calls[3]])()
        except (cadwrelch.CacheError, Broken):
            pass    # it was recorded


def main(subject, path, seed, fail=0, lie=0):
    sys.setswitchinterval(random.Random(seed).choice([1e-6, 1e-5, 1e-4]))
    recorder, store = CallRecorder(), Store(fail, lie, seed)
    for key in KEYS[::2]:
        store.held[key] = 'v0'
        recorder.stored(key, 'v0')
    loader, writer = recorder.loader(store), recorder.writer(store)
    made = Naive(loader, writer) if subject == 'naive' else cadwrelch.Cache(loader, writer, stripes=1, capacity=2)
    cache = recorder.cache(made)
    threads = [threading.Thread(target=work, args=(cache, subject != 'naive', seed * 100 + name, name)) for name in range(4)]
    for thread in threads:
        thread.start()
    for thread in threads:
        thread.join()
    recorder.write(path)


main(*sys.argv[1:3], *map(int, sys.argv[3:]))
