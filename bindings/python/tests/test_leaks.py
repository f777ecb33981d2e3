"""What calls leave behind: no reference cycles, no memory, nothing that an allocation which fails has begun."""
import asyncio
import gc
import os
import subprocess
import sys
import unittest
import weakref

import cadwrelch
from cadwrelch import AsyncCache, Cache

from .stores import Broken

HERE = os.path.dirname(os.path.abspath(__file__))


class Value:
    pass


def processor(entry):
    raise Broken('the processor')


def reads(entry):
    return entry.value


def writes(entry):
    entry.value = Value()


# Each call, at a cache whose loader and writer fail.
CALLS = (
    lambda cache: cache.get('b'), lambda cache: cache.get_many('bc'), lambda cache: cache.load_many('bc'),
    lambda cache: cache.load_many('bc', replace=True), lambda cache: cache.put('a', Value()), lambda cache: cache.put_many({'a': Value(), 'b': Value()}),
    lambda cache: cache.get_and_put('a', Value()), lambda cache: cache.put_if_absent('b', Value()), lambda cache: cache.remove('a'),
    lambda cache: cache.remove_many('ab'), lambda cache: cache.get_and_remove('a'), lambda cache: cache.replace('a', Value()),
    lambda cache: cache.get_and_replace('a', Value()), lambda cache: cache.invoke('a', processor), lambda cache: cache.invoke('b', reads),
    lambda cache: cache.invoke('a', writes))


class Interrupt(BaseException):
    """What isn't an Exception. (A KeyboardInterrupt would end the loop.)"""


class Cycles(unittest.TestCase):
    """A failed call leaves nothing to the collector: its values, and the frames of its caller, are gone with the exception."""

    def setUp(self):
        gc.collect()
        gc.disable()
        self.addCleanup(gc.enable)

    def test_of_threads(self):
        for error in (Broken, KeyboardInterrupt):
            for number, call in enumerate(CALLS):
                def fails(*_):
                    raise error

                cache = Cache(fails, fails)
                for turn in range(2):
                    try:
                        call(cache)
                    except (cadwrelch.CacheError, error, Broken):
                        pass
                    self.assertEqual(gc.collect() if turn else 0, 0, (number, error))
                self.assertTrue(cache._agrees())

    def test_of_coroutines(self):
        async def main():
            for error in (Broken, Interrupt, asyncio.CancelledError):
                for number, call in enumerate(CALLS):
                    async def fails(*_):
                        raise error

                    cache = AsyncCache(fails, fails)
                    for turn in range(2):
                        try:
                            await call(cache)
                        except (cadwrelch.CacheError, error, Broken):
                            pass
                        await asyncio.sleep(0)
                        self.assertEqual(gc.collect() if turn else 0, 0, (number, error))
                    self.assertTrue(cache._agrees())

        asyncio.run(main())


class Memory(unittest.TestCase):
    def test_a_cache_that_refers_to_itself_is_collected(self):
        cache = Cache(loader=lambda key: cache and Value())
        cache['a'] = cache
        cache['b'] = value = Value()
        known = [weakref.ref(cache), weakref.ref(value)]
        del cache, value
        gc.collect()
        self.assertEqual([ref() for ref in known], [None, None])

    def test_values_are_let_go(self):
        cache = Cache(maxsize=1, stripes=1)
        known = []
        for key in range(5):
            value = Value()
            known.append(weakref.ref(value))
            cache[key] = value
            del value
        self.assertEqual([ref() is None for ref in known], [True] * 4 + [False])
        for change in (lambda: cache.put(4, 1), lambda: cache.remove(4), lambda: cache.clear(), lambda: cache.close()):
            change()
            self.assertIsNone(known[4]())

    @unittest.skipIf('libasan' in os.environ.get('LD_PRELOAD', ''), 'the address sanitizer keeps what is freed')
    def test_a_long_run_takes_no_more_memory(self):
        code = '''
import cadwrelch
def rss():
    with open('/proc/self/statm') as file:
        return int(file.read().split()[1]) * 4096
def fail(key, value=None):
    if key % 7 == 0:
        raise ValueError(key)
    return key
cache = cadwrelch.Cache(loader=fail, writer=fail, stripes=2, capacity=128)
def turn():
    for key in range(5000):
        for call in (lambda: cache.get(key), lambda: cache.put(key, key), lambda: cache.remove(key - 10), lambda: cache.get_many([key, key + 1])):
            try:
                call()
            except cadwrelch.CacheError:
                pass
turn()
before = rss()
turn()
turn()
print(rss() - before, cache._agrees())
'''
        ran = subprocess.run([sys.executable, '-c', code], stdout=subprocess.PIPE, universal_newlines=True, check=True, cwd=PARENT)
        grown, agrees = ran.stdout.split()
        self.assertLess(int(grown), 2_000_000)
        self.assertEqual(agrees, 'True')


PARENT = os.path.dirname(os.path.dirname(os.path.abspath(cadwrelch.__file__)))


try:
    import _testcapi
    HAS_HOOKS = hasattr(_testcapi, 'set_nomemory')
except ImportError:
    HAS_HOOKS = False


@unittest.skipUnless(HAS_HOOKS, 'this Python has no _testcapi')
class Allocations(unittest.TestCase):
    """Each allocation of Python's of each call fails in turn."""

    def test_each_call(self):
        ran = subprocess.run([sys.executable, os.path.join(HERE, 'no_memory.py')], stdout=subprocess.PIPE, stderr=subprocess.STDOUT,
                             universal_newlines=True, cwd=PARENT)
        self.assertEqual((ran.returncode, ran.stdout.splitlines()[-1:]), (0, ['all calls agree']), ran.stdout[-3000:])


if __name__ == '__main__':
    unittest.main()
