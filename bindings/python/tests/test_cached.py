"""Functions whose results are cached."""
import asyncio
import functools
import gc
import inspect
import pickle
import unittest

import cadwrelch
from cadwrelch import NONE, AsyncCache, Cache, cached, hashkey

from .stores import Broken, Waits
from .test_threads import Gated, run

# A cache that asks a loader of its own joins loads; one that asks nobody waits for them.
CACHES = {'without a loader': lambda kind=Cache, **words: kind(**words),
          'with a loader': lambda kind=Cache, **words: kind(loader=unasked, **words)}


def unasked(key):
    raise AssertionError('the cache has asked its own loader')


class Functions(unittest.TestCase):
    def each(self, **words):
        """A cache of each kind."""
        caches = [make(**words) for make in CACHES.values()]
        self.addCleanup(lambda: self.assertEqual([cache._agrees() for cache in caches], [True, True]))
        return caches

    def test_a_result_is_kept(self):
        for cache in self.each():
            calls = []

            @cached(cache)
            def add(a, b=0, *, c=0):
                """Adds."""
                calls.append((a, b, c))
                return a + b + c

            self.assertEqual([add(1), add(1), add(1, 2), add(1, b=2), add(1, b=2), add(1, c=3, b=2), add(1, b=2, c=3)], [1, 1, 3, 3, 3, 6, 6])
            self.assertEqual(calls, [(1, 0, 0), (1, 2, 0), (1, 2, 0), (1, 2, 3)])
            self.assertEqual((cache.stats()['hits'], cache.stats()['misses']), (3, 4))
            self.assertIs(add.cache, cache)
            self.assertIs(add.cache_key, hashkey)
            self.assertEqual((add.__name__, add.__doc__, add.__wrapped__(5, 6)), ('add', 'Adds.', 11))
            self.assertEqual(inspect.signature(add), inspect.signature(add.__wrapped__))
            self.assertEqual(cache[add.cache_key(1, b=2)], 3)
            add.cache_clear()
            self.assertEqual((add(1), len(calls)), (1, 6))

    def test_none_is_kept(self):
        for cache in self.each():
            calls = []
            function = cached(cache)(calls.append)
            self.assertEqual([function('a'), function('a'), calls], [None, None, ['a']])
            self.assertIs(cache.hit(('a',)), NONE)
            self.assertEqual((repr(NONE), bool(NONE)), ('cadwrelch.NONE', False))
            self.assertIs(pickle.loads(pickle.dumps(NONE)), NONE)

    def test_keys(self):
        cache = Cache()
        double = cached(cache, key=functools.partial(hashkey, 'double'))(lambda x: 2 * x)
        square = cached(cache, lambda x: ('square', x))(lambda x: x * x)
        self.assertEqual([double(3), square(3), double(3), square(3), len(cache)], [6, 9, 6, 9, 2])
        self.assertRaises(TypeError, double, [])
        self.assertEqual(hashkey(1, x=2, a=3), hashkey(1, a=3, x=2))
        self.assertNotEqual(hashkey(1, 'x', 2), hashkey(1, x=2))

    def test_a_method(self):
        class Page:
            @cached(Cache(), key=lambda self, name: name)
            def read(self, name):
                return self, name

        first, second = Page(), Page()
        self.assertEqual(first.read('a'), (first, 'a'))
        self.assertEqual(second.read('a'), (first, 'a'))

    def test_what_it_raises_is_raised_as_it_is_and_not_kept(self):
        for cache in self.each():
            for error in (Broken('no'), cadwrelch.LoaderError('of another cache'), KeyboardInterrupt()):
                def fail():
                    raise error

                function = cached(cache)(fail)
                for _ in range(2):
                    with self.assertRaises(type(error)) as caught:
                        function()
                    self.assertIs(caught.exception, error)
                    self.assertEqual((caught.exception.__cause__, len(cache)), (None, 0))

    def joined(self, cache, answer):
        asked = Gated()
        asked.answer = answer
        function = cached(cache)(asked)
        with Waits() as waits:
            results = run(*[lambda: function('a')] * 8)
            waits.of(7)
            asked.may_answer.set()
            return results(), asked.loads

    def test_calls_of_one_key_at_a_time_are_one_call(self):
        for cache in self.each():
            self.assertEqual(self.joined(cache, 7), ([7] * 8, 1))
        for cache in self.each():
            self.assertEqual(self.joined(cache, None), ([None] * 8, 1))
        for cache in self.each():
            error = Broken('no')
            self.assertEqual(self.joined(cache, error), ([error] * 8, 1))

    def test_who_has_waited_for_an_interrupted_call_calls_itself(self):
        for cache in self.each():
            answers = [KeyboardInterrupt(), 5]

            class Interrupted(Gated):
                def __call__(self, key):
                    self.answer = answers[self.loads]
                    return super().__call__(key)

            asked = Interrupted()
            function = cached(cache)(asked)
            with Waits() as waits:
                first = run(lambda: function('a'))
                self.assertTrue(asked.asked.wait(60))
                second = run(lambda: function('a'))
                waits.of(1)
                asked.may_answer.set()
                self.assertEqual((first(), second()), ([answers[0]], [5]))

    def test_a_get_of_the_cache_joins_a_call(self):
        asked = Gated()
        cache = CACHES['with a loader']()
        function = cached(cache)(asked)
        with Waits() as waits:
            called = run(lambda: function('a'))
            self.assertTrue(asked.asked.wait(60))
            got = run(lambda: cache.get(('a',)), lambda: cache.get_many([('a',)]))
            waits.of(2)
            asked.may_answer.set()
            self.assertEqual((called(), got()), ([7], [7, {('a',): 7}]))

    def test_a_function_that_calls_itself(self):
        for cache in self.each(stripes=4):
            @cached(cache)
            def fibonacci(n):
                return n if n < 2 else fibonacci(n - 1) + fibonacci(n - 2)

            self.assertEqual(fibonacci(40), 102334155)

            @cached(cache, key=lambda: 'endless')
            def endless():
                return endless()

            self.assertRaises(cadwrelch.DeadlockError, endless)

        deep = cached(Cache(stripes=1, history=16))(lambda n: n and deep(n - 1))
        with self.assertRaisesRegex(cadwrelch.DeadlockError, 'more stripes, or a history of up to 260'):
            deep(100)
        self.assertTrue(deep.cache._agrees())

    def test_expiry(self):
        now = [0.0]
        calls = []
        function = cached(Cache(ttl=lambda key, value: key[0], timer=lambda: now[0]))(lambda life: calls.append(life) or life)
        for life in (10, 20):
            function(life)
        now[0] = 15
        function(10), function(20)
        self.assertEqual(calls, [10, 20, 10])

    def test_a_writer_is_not_asked(self):
        cache = Cache(writer=unasked)
        self.assertEqual(cached(cache)(lambda: 3)(), 3)

    def test_what_it_takes(self):
        async def coroutine():
            pass

        for wrong in ({}, None, Cache, print):
            self.assertRaises(TypeError, cached, wrong)
        self.assertRaises(TypeError, cached, Cache(), key='name')
        self.assertRaisesRegex(TypeError, 'takes an AsyncCache', cached(Cache()), coroutine)

    def test_closed(self):
        cache = Cache()
        function = cached(cache)(lambda: 3)
        cache.close()
        self.assertRaises(cadwrelch.ClosedError, function)


class Coroutines(unittest.IsolatedAsyncioTestCase):
    def setUp(self):
        self.caches = [CACHES[name](AsyncCache) for name in CACHES]

    def tearDown(self):
        for cache in self.caches:
            self.assertTrue(cache._agrees())

    async def test_a_result_is_kept(self):
        for cache in self.caches:
            calls = []

            @cached(cache)
            async def twice(x, *, y=None):
                """Doubles."""
                calls.append(x)
                return None if x is None else 2 * x

            self.assertEqual([await twice(1), await twice(1), await twice(None), await twice(None), calls], [2, 2, None, None, [1, None]])
            self.assertEqual((cache.stats()['hits'], cache.stats()['misses']), (2, 2))
            self.assertEqual((twice.cache, twice.cache_key, twice.__doc__), (cache, hashkey, 'Doubles.'))
            self.assertTrue(inspect.iscoroutinefunction(twice))
            await twice.cache_clear()
            self.assertEqual((await twice(1, y=2), await twice.__wrapped__(4), calls), (2, 8, [1, None, 1, 4]))

    async def joined(self, cache, end):
        """Ten calls of one key; what end does to the first one."""
        may_answer, calls = asyncio.Event(), []

        @cached(cache)
        async def slow(x):
            calls.append(x)
            await may_answer.wait()
            return end()

        tasks = [asyncio.create_task(slow('a')) for _ in range(10)]
        for _ in range(5):
            await asyncio.sleep(0)
        self.assertEqual(calls, ['a'])
        return tasks, may_answer, calls

    async def test_calls_of_one_key_at_a_time_are_one_call(self):
        for cache in self.caches:
            tasks, may_answer, calls = await self.joined(cache, lambda: 5)
            may_answer.set()
            self.assertEqual((await asyncio.gather(*tasks), calls), ([5] * 10, ['a']))

    async def test_what_it_raises_is_raised_as_it_is(self):
        for cache in self.caches:
            error = Broken('no')

            def fail():
                raise error

            tasks, may_answer, calls = await self.joined(cache, fail)
            may_answer.set()
            self.assertEqual((await asyncio.gather(*tasks, return_exceptions=True), calls, len(cache)), ([error] * 10, ['a'], 0))

    async def test_who_has_waited_for_a_cancelled_call_calls_itself(self):
        for cache in self.caches:
            tasks, may_answer, calls = await self.joined(cache, lambda: 5)
            tasks[0].cancel()
            for _ in range(5):
                await asyncio.sleep(0)
            self.assertEqual(calls, ['a', 'a'])
            may_answer.set()
            results = await asyncio.gather(*tasks, return_exceptions=True)
            self.assertIsInstance(results[0], asyncio.CancelledError)
            self.assertEqual(results[1:], [5] * 9)

    async def test_a_function_that_calls_itself(self):
        for cache in self.caches:
            @cached(cache)
            async def fibonacci(n):
                return n if n < 2 else sum(await asyncio.gather(fibonacci(n - 1), fibonacci(n - 2)))

            self.assertEqual(await fibonacci(30), 832040)

            @cached(cache, key=lambda: 'endless')
            async def endless():
                return await endless()

            with self.assertRaises(cadwrelch.DeadlockError):
                await endless()


class Cycles(unittest.TestCase):
    def test_a_failure_leaves_nothing_to_the_collector(self):
        def fail():
            raise Broken('no')

        async def fail_later():
            raise Broken('no')

        def call():
            try:
                function()
            except Broken:
                pass

        def call_later():
            try:
                asyncio_function().send(None)
            except Broken:
                pass

        function, asyncio_function = cached(Cache())(fail), cached(AsyncCache())(fail_later)
        for one in (call, call_later):
            one()
            gc.collect()
            gc.disable()
            try:
                one()
                self.assertEqual(gc.collect(), 0, one)
            finally:
                gc.enable()


if __name__ == '__main__':
    unittest.main()
