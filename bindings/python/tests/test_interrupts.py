"""Exceptions that come from outside, as of a signal's handler: one at each bytecode of each call in turn. Whatever they meet, no key stays
reserved, what is cached is what the store has, and no later call is refused."""
import asyncio
import inspect
import os
import signal
import sys
import unittest

import cadwrelch
from cadwrelch import waiting

FOLDER = os.path.dirname(os.path.abspath(cadwrelch.__file__))


class Interrupt(BaseException):
    """What a handler raises."""


class One:
    """A store of one key. What it does is done before the interrupt, or after it: its own frames aren't interrupted."""

    def __init__(self):
        self.held = {}

    def load(self, key):
        return self.held.get(key)

    def write(self, key, value):
        self.held[key] = value

    def delete(self, key):
        self.held.pop(key, None)


class Many(One):
    """A store of many keys."""

    def load_many(self, keys):
        return {key: self.held[key] for key in keys if key in self.held}

    def write_many(self, items):
        self.held.update(items)

    def delete_many(self, keys):
        for key in keys:
            self.held.pop(key, None)


def add_one(entry):
    entry.value = (entry.value or 0) + 1


CALLS = {
    'get': lambda cache: cache.get('b'),
    'put': lambda cache: cache.put('a', 9),
    'replace_if': lambda cache: cache.replace_if('a', 1, 9),
    'remove': lambda cache: cache.remove('a'),
    'invoke': lambda cache: cache.invoke('a', add_one),
    'invoke that loads': lambda cache: cache.invoke('b', add_one),
    'invoke that removes': lambda cache: cache.invoke('a', lambda entry: entry.remove()),
    'get_many': lambda cache: cache.get_many('abc'),
    'put_many': lambda cache: cache.put_many({'a': 9, 'c': 9}),
    'remove_many': lambda cache: cache.remove_many('ac'),
    'load_many': lambda cache: cache.load_many('ab', replace=True),
    'clear': lambda cache: cache.clear(),
    'a function': lambda cache: cadwrelch.cached(cache, key=str)(cache._loader.load)('b'),
}


def interrupt(call, cache, number):
    """Makes a call, and raises an exception at this bytecode of the package's. It says whether there was one."""
    count = 0

    def trace(frame, event, _):
        nonlocal count
        if not frame.f_code.co_filename.startswith(FOLDER):
            return None
        frame.f_trace_opcodes, frame.f_trace_lines = True, False
        if event == 'opcode':
            count += 1
            if count == number:
                raise Interrupt
        return trace

    before = sys.gettrace()
    sys.settrace(trace)
    try:
        call(cache)
    except Interrupt:
        pass
    finally:
        sys.settrace(before)
    return count >= number


class Interrupts(unittest.TestCase):
    def interrupted(self, name, kind, number):
        store = kind()
        store.held.update(a=1, b=2)
        cache = cadwrelch.Cache(loader=store, writer=store, stripes=1, capacity=8)
        cache.get('a')
        was_interrupted = interrupt(CALLS[name], cache, number)
        for key in 'abc':
            found = cache.hit(key)
            self.assertIn(found, (None, store.held.get(key)), key)
            # These would wait for ever if the key were reserved.
            self.assertEqual(cache.get(key), store.held.get(key))
            cache.put(key, 5)
            cache.remove(key)
        self.assertTrue(cache._agrees())
        self.assertFalse(waiting.is_inside())
        return was_interrupted

    def test_at_each_bytecode(self):
        count = 0
        for kind in (One, Many):
            for name in CALLS:
                with self.subTest(name, kind=kind):
                    number = 1
                    while self.interrupted(name, kind, number):
                        number += 1
                    count += number
        self.assertGreater(count, 3000)


class TimeIsOver(Exception):
    """What a handler of a soft time limit raises. It is an Exception."""


def end_it(number, frame):
    raise TimeIsOver


class Limited(One):
    """A store that does what it is asked. Then comes the signal."""

    def load(self, key):
        return self.ended(super().load(key))

    def write(self, key, value):
        self.ended(super().write(key, value))

    def delete(self, key):
        self.ended(super().delete(key))

    def ended(self, found=None):
        if self.is_limited:
            signal.raise_signal(signal.SIGUSR1)
        return found


class Awaited:
    """The same for coroutines."""

    def __init__(self, store):
        self.store = store

    async def load(self, key):
        return self.store.load(key)

    async def write(self, key, value):
        self.store.write(key, value)

    async def delete(self, key):
        self.store.delete(key)


class Handlers(unittest.TestCase):
    """An Exception of a signal's handler that lands inside the store's own method isn't the store's."""

    calls = ('put', 'replace_if', 'remove', 'invoke', 'invoke that loads', 'put_many', 'remove_many', 'load_many', 'get', 'a function')

    def setUp(self):
        self.addCleanup(signal.signal, signal.SIGUSR1, signal.signal(signal.SIGUSR1, end_it))
        self.store = Limited()
        self.store.is_limited = False
        self.store.held.update(a=1, b=2)

    def end(self, cache, run):
        """A key that was being written isn't cached: the store may have either value."""
        for name in self.calls:
            with self.subTest(name):
                run(cache.put('a', 1))
                run(cache.load_many(['a']))
                cache.invalidate('b')
                self.store.is_limited = True
                with self.assertRaises(TimeIsOver):
                    run(CALLS[name](cache))
                self.store.is_limited = False
                for key in 'abc':
                    self.assertIn(cache.hit(key), (None, self.store.held.get(key)))
                self.assertEqual(run(cache.get('a')), self.store.held.get('a'))
        self.assertTrue(cache._agrees())

    def test_threads(self):
        self.end(cadwrelch.Cache(loader=self.store, writer=self.store, stripes=1), lambda result: result)

    def test_coroutines(self):
        store = Awaited(self.store)
        with asyncio.Runner() if hasattr(asyncio, 'Runner') else Loop() as runner:
            self.end(cadwrelch.AsyncCache(loader=store, writer=store, stripes=1), lambda it: runner.run(it) if inspect.isawaitable(it) else it)

    def test_what_the_store_raises_is_its_own(self):
        def fail(*_):
            raise TimeIsOver

        cache = cadwrelch.Cache(loader=fail, writer=fail)
        self.assertRaises(cadwrelch.LoaderError, cache.get, 'a')
        self.assertRaises(cadwrelch.WriterError, cache.put, 'a', 1)


class Loop:
    """asyncio.Runner, which is there from Python 3.11 on."""

    def __enter__(self):
        self.loop = asyncio.new_event_loop()
        return self

    def __exit__(self, *_):
        self.loop.close()

    def run(self, coroutine):
        return self.loop.run_until_complete(coroutine)


if __name__ == '__main__':
    unittest.main()
