"""Entries that are reloaded when they are old (refresh_after), and answers "none" that are remembered (absent_for)."""
import asyncio
import gc
import logging
import threading
import unittest
import weakref

import cadwrelch
from cadwrelch import refresh, waiting

from .stores import Broken, Store, Waits
from .test_expiry import Clock


class Later:
    """An executor whose work is done when it is told to."""

    def __init__(self):
        self.work = []

    def submit(self, function, *arguments):
        self.work.append((function, arguments))

    def run(self):
        """Does what there is, and says how much that was."""
        work, self.work = self.work, []
        for function, arguments in work:
            function(*arguments)
        return len(work)


def run_on_a_thread(call):
    thread = threading.Thread(target=call, daemon=True)
    thread.start()
    thread.join(10)


class Aging(unittest.TestCase):
    def setUp(self):
        self.clock, self.later = Clock(), Later()
        self.store = Store({'a': 1, 'b': 2})

    def make(self, **words):
        words = {'loader': self.store, 'writer': self.store, 'timer': self.clock, 'stripes': 1, 'name': 'pages', **words}
        cache = cadwrelch.Cache(**words)
        self.addCleanup(lambda: self.assertTrue(cache.closed or cache._agrees()))
        return cache

    def refreshing(self, **words):
        return self.make(refresh_after=10, executor=self.later, **words)


class Refreshed(Aging):
    def test_a_get_of_an_old_entry_has_it_reloaded(self):
        cache = self.refreshing()
        cache.get('a')
        self.store.held['a'] = 'new'
        self.clock.now += 9.9
        self.assertEqual((cache.get('a'), self.later.run()), (1, 0))
        self.clock.now += 0.1
        self.assertEqual((cache.get('a'), cache['a'], cache.get_many('a')), (1, 1, {'a': 1}))
        self.assertEqual((self.later.run(), self.store.loads, cache.get('a')), (1, 2, 'new'))
        self.clock.now += 9.9
        self.assertEqual((cache.get('a'), self.later.run()), ('new', 0))
        self.clock.now += 0.1
        self.assertEqual((cache.get_many('a'), self.later.run()), ({'a': 'new'}, 1))
        self.clock.now += 10
        self.assertEqual(('a' in cache, cache.hit('a'), self.later.run()), (True, 'new', 0))
        self.assertEqual((cache._call(cadwrelch._core.GET, 'a')[1], self.later.run()), ('new', 1))
        cache.put('a', 3)
        self.assertEqual((cache.get('a'), self.later.run()), (3, 0))

    def test_a_put_waits_for_a_reload(self):
        asked, go, load = threading.Event(), threading.Event(), self.store.load

        def held(key):
            found = load(key)
            asked.set()
            go.wait(60)
            return found

        cache = self.refreshing(loader=held)
        go.set()
        cache.get('a')
        asked.clear(), go.clear()
        self.clock.now += 10
        self.assertEqual(cache.get('a'), 1)
        reload = threading.Thread(target=self.later.run)
        reload.start()
        asked.wait(60)
        self.assertEqual(cache.get('a'), 1)
        with Waits() as waits:
            put = threading.Thread(target=cache.put, args=('a', 'newer'))
            put.start()
            waits.of(1)
            go.set()
            put.join(60), reload.join(60)
        self.assertEqual((cache.get('a'), self.store.held['a']), ('newer', 'newer'))

    def test_a_reload_waits_for_nobody(self):
        cache = self.refreshing()
        cache.get('a')
        self.clock.now += 10
        cache.get('a')
        with Waits() as waits:
            cache.invoke('a', lambda entry: run_on_a_thread(self.later.run))
            self.assertFalse(waits._sleeps.acquire(blocking=False))
        self.assertEqual((self.store.loads, cache.get('a')), (1, 1))

    def test_a_reload_that_comes_to_nothing_leaves_the_entry(self):
        cache = self.refreshing()
        cache.get_many('ab')
        self.store.load_fails = Broken('down')
        self.clock.now += 10
        with self.assertLogs('cadwrelch', logging.WARNING) as logs:
            self.assertEqual((cache.get('a'), self.later.run(), cache.get('a'), self.later.run()), (1, 1, 1, 0))
        self.assertIn('an entry of the cache pages was not reloaded', logs.output[0])
        self.assertIn('down', logs.output[0])
        self.store.load_fails = None
        del self.store.held['b']
        self.clock.now += 10
        self.assertEqual((cache.get_many('ab'), self.later.run()), ({'a': 1, 'b': 2}, 2))
        self.assertEqual(cache.get('b'), 2)
        self.clock.now += 10
        cache.get('a')
        cache.close()
        self.assertEqual(self.later.run(), 1)

    def test_beside_expiry(self):
        cache = self.refreshing(ttl=30)
        cache.get('a')
        self.clock.now += 29
        self.assertEqual((cache.get('a'), self.later.run()), (1, 1))
        self.clock.now += 30
        self.store.held['a'] = 'newest'
        self.assertEqual((cache.get('a'), self.later.run()), ('newest', 0))

    def test_an_executor_that_fails(self):
        cache = self.refreshing()
        cache.get('a')
        self.later.submit = None
        self.clock.now += 10
        with self.assertLogs('cadwrelch', logging.WARNING):
            self.assertEqual(cache.get('a'), 1)

    def test_the_cache_s_own_threads(self):
        cache = self.make(refresh_after=10)
        keys = list(range(100))
        self.store.held.update((key, 1) for key in keys)
        cache.get_many(keys)
        loaded, load = threading.Semaphore(0), self.store.load
        self.store.held.update((key, 2) for key in keys)
        self.clock.now += 10
        self.assertEqual([cache.get(key) for key in keys], [1] * 100)
        reloader = weakref.ref(cache)
        for _ in range(6000):
            if [cache.get(key) for key in keys] == [2] * 100:
                break
            threading.Event().wait(0.01)
        self.assertEqual(self.store.loads, 200)
        del cache
        self.doCleanups()
        gc.collect()
        self.assertIsNone(reloader())

    def test_threads_that_can_not_be_started(self):
        threads, done = refresh.Threads('it'), []
        start, threading.Thread.start = threading.Thread.start, None
        try:
            self.assertRaises(TypeError, threads.submit, done.append, 1)
        finally:
            threading.Thread.start = start
        threads.submit(done.append, 2)
        for _ in range(6000):
            if done == [1, 2] and threads._count == 0:
                break
            threading.Event().wait(0.01)
        self.assertEqual((done, threads._count), ([1, 2], 0))


CALLS = {
    'put': lambda cache: cache.put('z', 5),
    'get_and_put': lambda cache: cache.get_and_put('z', 5),
    'put_if_absent': lambda cache: cache.put_if_absent('z', 5),
    'remove': lambda cache: cache.remove('z'),
    'remove_if': lambda cache: cache.remove_if('z', 5),
    'get_and_remove': lambda cache: cache.get_and_remove('z'),
    'replace': lambda cache: cache.replace('z', 5),
    'replace_if': lambda cache: cache.replace_if('z', 5, 6),
    'get_and_replace': lambda cache: cache.get_and_replace('z', 5),
    'contains': lambda cache: 'z' in cache,
    'get': lambda cache: cache.get('z', 'other'),
    'subscript': lambda cache: cache['z'],
    'hit': lambda cache: cache.hit('z'),
    'get_many': lambda cache: cache.get_many(['z', 'a']),
    'load_many': lambda cache: (cache.load_many(['z']), cache._all_keys()),
    'load_many replacing': lambda cache: cache.load_many(['z'], replace=True),
    'invoke': lambda cache: cache.invoke('z', lambda entry: (entry.exists(), entry.value)),
    'put_many': lambda cache: cache.put_many({'z': 5}),
    'remove_many': lambda cache: cache.remove_many(['z']),
    'clear': lambda cache: cache.clear(),
    'expire': lambda cache: cache.expire(),
    'keys': lambda cache: (cache.keys(), len(cache)),
    'invalidate': lambda cache: cache.invalidate('z'),
    'a function': lambda cache: cadwrelch.cached(cache, key=lambda: 'z')(lambda: 7)(),
}


class Absent(Aging):
    def remembering(self, **words):
        return self.make(absent_for=10, **words)

    def test_what_is_absent_is_remembered(self):
        cache = self.remembering()
        self.assertEqual([cache.get('z'), cache.get('z'), cache.get('z', 5), 'z' in cache, cache.get_many('az')], [None, None, 5, False, {'a': 1}])
        self.assertEqual((self.store.loads, cache.keys(), len(cache)), (2, ['a'], 1))
        self.clock.now += 10
        self.store.held['z'] = 26
        self.assertEqual((cache.get('z'), cache.get('a'), self.store.loads), (26, 1, 3))
        self.assertEqual((cache.get_many('xy'), cache.get('x'), self.store.loads), ({}, None, 5))

    def test_other_calls_find_nothing_too(self):
        for name, call in CALLS.items():
            seen = []
            for words in ({}, {'absent_for': 10}):
                self.store = Store({'a': 1})
                cache = self.make(**words)
                cache.get('z')
                loads = self.store.loads
                try:
                    answer = call(cache)
                except KeyError as error:
                    answer = repr(error)
                seen.append((answer, cache.keys(), self.store.held, self.store.writes, cache.stats()['puts'], cache.stats()['removals']))
                if words:
                    self.assertLessEqual(self.store.loads, loads + 1, name)
            self.assertEqual(*seen, name)

    def test_counts_are_those_of_gets_that_find_nothing(self):
        counts = []
        for words in ({}, {'absent_for': 10}):
            cache = self.make(**words)
            for key in 'zzaz':
                cache.get(key)
            cache.get_many('az')
            counts.append(cache.stats())
        self.assertEqual(*counts)

    def test_it_neither_ages_nor_lives_on(self):
        cache = self.remembering(tti=3, refresh_after=3, executor=self.later)
        cache.get('z')
        self.clock.now += 5
        self.assertEqual((cache.get('z'), self.store.loads), (None, 1))
        self.clock.now += 5
        cache.get('z')
        self.store.loads = 1
        for _ in range(9):
            self.clock.now += 1
            cache.get('z')
            cache.get_many('z')
        self.clock.now += 0.9
        self.assertEqual((cache.get('z'), self.later.run(), self.store.loads), (None, 0, 1))
        self.clock.now += 0.1
        self.assertEqual((cache.get('z'), self.store.loads), (None, 2))

    def test_clear_and_invalidate_forget_it(self):
        cache = self.remembering()
        for forget in (cache.clear, cache.invalidate_all, lambda: cache.invalidate('z')):
            cache.get('z')
            loads = self.store.loads
            forget()
            cache.get('z')
            self.assertEqual(self.store.loads, loads + 1)

    def test_joined_gets(self):
        go = threading.Event()
        loads = []
        cache = self.remembering(loader=lambda key: loads.append(key) or go.wait(60) and None, writer=None)
        found = []
        with Waits() as waits:
            gets = [threading.Thread(target=lambda: found.append(cache.get('z', 'none'))) for _ in range(3)]
            for get in gets:
                get.start()
            waits.of(2)
            go.set()
            for get in gets:
                get.join(60)
        self.assertEqual((found, cache.get('z'), loads), (['none'] * 3, None, ['z']))

    def test_it_takes_room(self):
        cache = self.remembering(capacity=3)
        for key in range(10):
            cache.get(key)
        self.assertEqual(len(cache._all_keys()), 3)
        cache.get(9)
        self.assertEqual(self.store.loads, 10)

    def test_expire_counts_entries_alone(self):
        cache = self.remembering(ttl=10)
        cache.get_many('az')
        self.clock.now += 10
        self.assertEqual((cache.expire(), cache._all_keys()), (1, []))


class Coroutines(unittest.IsolatedAsyncioTestCase):
    async def test_a_task_reloads(self):
        clock, held, inside = Clock(), {'a': 1}, []

        async def load(key):
            await asyncio.sleep(0)
            inside.append(key)
            return 1 / held['b'] if 'b' in held else held.get(key)

        cache = cadwrelch.AsyncCache(load, timer=clock, refresh_after=10, absent_for=10, name='pages')
        await cache.get('a')
        held['a'] = 2
        clock.now += 10
        self.assertEqual(await asyncio.gather(cache.get('a'), cache.get('a'), cache.get_many('a')), [1, 1, {'a': 1}])
        for _ in range(5):
            await asyncio.sleep(0)
        self.assertEqual((await cache.get('a'), len(inside)), (2, 2))
        held.clear()
        self.assertEqual([await cache.get('z'), await cache.get('z', 5), 'z' in cache, len(cache), len(inside)], [None, 5, False, 1, 3])
        held['b'] = 0
        clock.now += 10
        self.assertEqual(await cache.get('a'), 2)
        with self.assertLogs('cadwrelch', logging.WARNING):
            for _ in range(5):
                await asyncio.sleep(0)
        self.assertEqual((await cache.get('a'), cache._agrees()), (2, True))
        del held['b']
        self.assertIsNone(await cache.get('z'))
        loads = len(inside)
        await cache.clear()
        self.assertEqual((await cache.get('z'), len(inside)), (None, loads + 1))

    async def test_a_task_that_reloads_is_inside_of_no_other_call(self):
        clock, inside = Clock(), []

        async def load(key):
            inside.append(len(waiting.HELD.get()))
            return key

        cache = cadwrelch.AsyncCache(load, timer=clock, refresh_after=10)
        other = cadwrelch.AsyncCache(lambda key: cache.get('a'))
        await cache.get('a')
        clock.now += 10
        await other.get('b')
        await asyncio.sleep(0)
        self.assertEqual(inside, [1, 1])


if __name__ == '__main__':
    unittest.main()
