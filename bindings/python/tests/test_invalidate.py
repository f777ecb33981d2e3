"""Forgetting without asking the store: invalidate, invalidate_all, suspend and resume."""
import asyncio
import threading
import unittest

import cadwrelch

from .stores import Store, Waits


class Held(Store):
    """A store whose calls do their work, and then wait until they may answer."""

    def __init__(self, held):
        super().__init__(held)
        self.asked, self.go = threading.Semaphore(0), threading.Event()
        self.go.set()

    def done(self, answer=None):
        self.asked.release()
        assert self.go.wait(60)
        return answer

    def load(self, key):
        return self.done(super().load(key))

    def write(self, key, value):
        super().write(key, value)
        self.done()

    def delete(self, key):
        super().delete(key)
        self.done()


class Later:
    """A call on a thread of its own."""

    def __init__(self, call):
        self.call, self.answer = call, None
        self.thread = threading.Thread(target=self.run, daemon=True)
        self.thread.start()

    def run(self):
        try:
            self.answer = self.call()
        except Exception as error:
            self.answer = error

    def result(self):
        self.thread.join(60)
        assert not self.thread.is_alive()
        return self.answer


class Forgetting(unittest.TestCase):
    def setUp(self):
        self.store = Held({'a': 1, 'b': 2})
        self.cache = self.make()
        self.waits = Waits()
        self.waits.__enter__()
        self.addCleanup(self.waits.__exit__)

    def make(self, **words):
        cache = cadwrelch.Cache(loader=self.store, writer=self.store, **{'stripes': 1, **words})
        self.addCleanup(lambda: self.assertTrue(cache._agrees()))
        return cache

    def hold(self, call):
        """Begins a call whose loader or writer has done its work, and waits."""
        while self.store.asked.acquire(blocking=False):
            pass
        self.store.go.clear()
        later = Later(call)
        self.assertTrue(self.store.asked.acquire(timeout=60))
        return later

    def begin(self, *calls):
        """Begins calls that wait for another one."""
        begun = [Later(call) for call in calls]
        self.waits.of(len(calls))
        return begun

    def let_go(self, *calls):
        self.store.go.set()
        return [call.result() for call in calls]

    def test_a_free_key_is_loaded_anew_and_the_store_keeps_it(self):
        self.cache.get('a')
        self.store.held['a'] = 2
        self.assertEqual(self.cache.get('a'), 1)
        self.assertIsNone(self.cache.invalidate('a'))
        self.assertEqual((self.cache.keys(), len(self.cache), 'a' in self.cache, self.cache.hit('a')), ([], 0, False, None))
        self.assertEqual((self.cache.get('a'), self.store.writes), (2, 0))
        self.assertEqual(self.cache.stats(), {'hits': 1, 'misses': 2, 'puts': 0, 'removals': 0, 'evictions': 0})

    def test_a_key_that_nobody_knows(self):
        self.cache.invalidate('z')
        self.assertEqual(self.cache.keys(), [])
        self.assertRaises(TypeError, self.cache.invalidate, [])

    def test_what_begins_later_is_answered_by_no_load_that_read_before(self):
        first = self.hold(lambda: self.cache.get('a'))
        joined, = self.begin(lambda: self.cache.get('a'))
        self.store.held['a'] = 2
        self.cache.invalidate('a')
        self.assertEqual(('a' in self.cache, self.cache.hit('a'), self.cache.keys()), (False, None, []))
        later = self.begin(lambda: self.cache.get('a'), lambda: self.cache.get_many(['a']), lambda: self.cache.invoke('a', lambda it: it.value))
        self.assertEqual(self.let_go(first, joined, *later), [1, 1, 2, {'a': 2}, 2])
        self.assertEqual((self.cache.get('a'), self.store.loads), (2, 2))

    def test_no_other_key_waits(self):
        self.cache.get('b')
        first = self.hold(lambda: self.cache.get('a'))
        self.cache.invalidate('a')
        self.assertEqual((self.cache.get('b'), 'b' in self.cache), (2, True))
        self.assertEqual(self.let_go(first), [1])
        self.assertEqual(self.cache.keys(), ['b'])
        self.cache.load_many(['c', 'a'])
        self.assertEqual(set(self.cache.keys()), {'a', 'b'})

    def test_what_begins_later_is_answered_by_no_entry_beside_a_write(self):
        self.cache.get('a')
        put = self.hold(lambda: self.cache.put('a', 5))
        self.assertEqual(self.cache.get('a'), 1)
        self.cache.invalidate('a')
        self.store.held['a'] = 6
        later = self.begin(lambda: self.cache.get('a'), lambda: self.cache.get_many(['a']))
        self.assertEqual(self.let_go(put, *later), [None, 6, {'a': 6}])
        self.assertEqual(self.store.loads, 2)

    def test_a_write_that_fails_or_is_withdrawn_leaves_nothing(self):
        self.cache.get('a')
        put = self.hold(lambda: self.cache.put('b', 5))
        self.store.write_fails = OSError('no')
        self.cache.invalidate('b')
        failing = Later(lambda: self.cache.put('a', 5))
        self.cache.invalidate('a')
        self.assertIsInstance(self.let_go(put, failing)[1], cadwrelch.WriterError)
        self.assertEqual(self.cache.keys(), [])
        self.cache.get('a')
        call = self.cache._begin(cadwrelch._core.PUT, 'a', 7)
        self.cache.invalidate('a')
        call.withdraw()
        self.assertEqual(self.cache.keys(), [])

    def test_a_processor(self):
        self.cache.get('a')
        inside = []

        def process(entry):
            self.cache.invalidate('a')
            with self.assertRaises(cadwrelch.DeadlockError):
                self.cache.get('a')
            inside.append('a' in self.cache)
            entry.value += 1
            return entry.value

        self.assertEqual(self.cache.invoke('a', process), 2)
        self.assertEqual((inside, self.cache.keys(), self.store.held['a']), ([False], [], 2))

    def test_a_call_that_ends_after_a_second_one_began_keeps_its_own(self):
        first = self.hold(lambda: self.cache.get('a'))
        self.cache.invalidate('a')
        second, = self.begin(lambda: self.cache.get('a'))
        self.let_go(first, second)
        self.assertEqual((self.cache.keys(), self.store.loads), (['a'], 2))

    def test_the_next_call_is_kept(self):
        told = ['a']
        cache = cadwrelch.Cache(loader=lambda key: (key in told and cache.invalidate(key)) or 1, stripes=1)
        cache.get('a')
        self.assertEqual(cache.keys(), [])
        told.clear()
        cache.get('b')
        self.assertEqual(cache.keys(), ['b'])

    def test_all_keys(self):
        self.cache.load_many(['a'])
        first = self.hold(lambda: self.cache.get('b'))
        self.cache.invalidate_all()
        later, = self.begin(lambda: self.cache.get('b'))
        self.assertEqual(self.cache.keys(), [])
        self.store.held['b'] = 3
        self.assertEqual(self.let_go(first, later), [2, 3])
        self.assertEqual(self.cache.keys(), ['b'])

    def test_suspended_nothing_is_kept_and_loads_are_shared(self):
        self.cache.get('a')
        self.assertFalse(self.cache.suspended)
        self.cache.suspend()
        self.assertTrue(self.cache.suspended)
        self.assertEqual((self.cache.keys(), self.cache.get('a'), self.cache.get('a'), self.store.loads), ([], 1, 1, 3))
        self.cache.put('b', 2)
        self.cache.put_many({'c': 3})
        self.cache.invoke('d', lambda entry: setattr(entry, 'value', 4))
        self.assertEqual((self.cache.keys(), self.store.held), ([], {'a': 1, 'b': 2, 'c': 3, 'd': 4}))
        first = self.hold(lambda: self.cache.get('a'))
        joined, = self.begin(lambda: self.cache.get('a'))
        self.cache.resume()
        later, = self.begin(lambda: self.cache.get('a'))
        self.assertEqual(self.let_go(first, joined, later), [1, 1, 1])
        self.assertEqual((self.store.loads, self.cache.keys()), (5, ['a']))

    def test_suspended_without_a_writer(self):
        cache = self.make(write_through=False)
        cache.suspend()
        cache['a'] = 1
        cache.put_if_absent('b', 1)
        self.assertEqual(cache.keys(), [])
        cache.resume()
        cache['a'] = 1
        self.assertEqual(cache.keys(), ['a'])

    def test_an_entry_that_the_history_has_no_room_to_drop_is_hidden(self):
        cache = self.make(history=16, write_through=False)
        self.store.held.update(dict.fromkeys('cdefg', 3))
        cache.get('a')
        held = [self.hold(lambda key=key: cache.get(key)) for key in 'cdefg']
        self.store.held['a'] = 2
        cache.invalidate('a')
        self.assertEqual(('a' in cache, cache.hit('a'), cache.keys(), len(cache)), (False, None, [], 0))
        later, = self.begin(lambda: cache.get('a'))
        self.assertEqual(self.let_go(*held, later), [3] * 5 + [2])

    def test_a_closed_cache_does_nothing(self):
        cache = self.make()
        cache.close()
        for call in (cache.invalidate_all, cache.suspend, cache.resume, lambda: cache.invalidate('a')):
            self.assertIsNone(call())

    def test_a_function_whose_results_are_cached(self):
        calls = []
        function = cadwrelch.cached(self.cache)(lambda key: self.store.done(calls.append(key) or len(calls)))
        first = self.hold(lambda: function('x'))
        waits, = self.begin(lambda: function('x'))
        self.cache.invalidate(('x',))
        later, = self.begin(lambda: function('x'))
        first, waits, later = self.let_go(first, waits, later)
        self.assertEqual((first, later, function('x')), (1, 2, 2))


class Coroutines(unittest.IsolatedAsyncioTestCase):
    async def asyncSetUp(self):
        self.may_answer, self.value, self.loads = asyncio.Event(), 1, 0
        self.cache = cadwrelch.AsyncCache(loader=self.load, stripes=1)

    async def load(self, key):
        self.loads += 1
        found = self.value
        await self.may_answer.wait()
        return found

    async def begin(self, *calls):
        tasks = [asyncio.create_task(call) for call in calls]
        for _ in range(5):
            await asyncio.sleep(0)
        return tasks

    async def overtaken(self, call):
        """What calls are answered that began before the value changed, and after."""
        before = await self.begin(call(), call())
        self.value = 2
        self.cache.invalidate_all()
        after = await self.begin(call())
        self.may_answer.set()
        return await asyncio.gather(*before), await asyncio.gather(*after)

    async def test_a_load_that_read_before(self):
        self.assertEqual(await self.overtaken(lambda: self.cache.get('a')), ([1, 1], [2]))
        self.assertEqual((await self.cache.get('a'), self.loads), (2, 2))
        self.cache.invalidate('a')
        self.assertEqual((len(self.cache), 'a' in self.cache, self.cache.hit('a')), (0, False, None))

    async def test_a_function_whose_results_are_cached(self):
        function = cadwrelch.cached(self.cache)(self.load)
        before, after = await self.overtaken(lambda: function('a'))
        self.assertEqual((before[0], after), (1, [2]))

    async def test_suspended(self):
        self.may_answer.set()
        self.cache.suspend()
        self.assertEqual((await self.cache.get('a'), len(self.cache), self.cache.suspended), (1, 0, True))
        self.cache.resume()
        self.assertEqual((await self.cache.get('a'), len(self.cache), self.cache.suspended), (1, 1, False))
