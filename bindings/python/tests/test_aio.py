"""Coroutines that share a cache."""
import asyncio
import contextvars
import copy
import gc
import pickle
import threading
import unittest
from unittest import mock

import cadwrelch

from .stores import Broken, Waits


class Gated:
    """A store whose calls wait until they may answer."""

    def __init__(self):
        self.loads = []
        self.held = {}
        self.may_answer = asyncio.Event()
        self.fails = None

    async def load(self, key):
        self.loads.append(key)
        await self.may_answer.wait()
        if self.fails is not None:
            raise self.fails
        return self.held.get(key, f'value of {key}')

    async def write(self, key, value):
        await self.may_answer.wait()
        if self.fails is not None:
            raise self.fails
        self.held[key] = value

    async def delete(self, key):
        await self.may_answer.wait()
        self.held.pop(key, None)


async def turns(count=5):
    for _ in range(count):
        await asyncio.sleep(0)


class Coroutines(unittest.IsolatedAsyncioTestCase):
    async def asyncSetUp(self):
        self.store = Gated()
        self.cache = cadwrelch.AsyncCache(loader=self.store, writer=self.store, stripes=2, capacity=128)

    async def asyncTearDown(self):
        await turns()
        self.assertTrue(self.cache._agrees())
        await self.cache.aclose()

    async def test_a_thousand_gets_of_a_key_are_one_load(self):
        gets = [asyncio.create_task(self.cache.get('a')) for _ in range(1000)]
        await turns()
        self.assertEqual(self.store.loads, ['a'])
        self.store.may_answer.set()
        self.assertEqual(await asyncio.gather(*gets), ['value of a'] * 1000)
        self.assertEqual(self.store.loads, ['a'])
        self.assertEqual(self.cache.hit('a'), 'value of a')

    async def test_joined_calls_share_the_failure(self):
        self.store.fails = Broken('no')
        gets = [asyncio.create_task(self.cache.get('a')) for _ in range(20)]
        await turns()
        self.store.may_answer.set()
        for result in await asyncio.gather(*gets, return_exceptions=True):
            self.assertIsInstance(result, cadwrelch.LoaderError)
            self.assertIs(result.__cause__, self.store.fails)
        self.assertEqual(self.store.loads, ['a'])

    async def test_a_cancelled_load_is_made_by_who_has_joined_it(self):
        gets = [asyncio.create_task(self.cache.get('a')) for _ in range(10)]
        await turns()
        gets[0].cancel()
        await turns()
        self.assertEqual(self.store.loads, ['a', 'a'])
        self.store.may_answer.set()
        results = await asyncio.gather(*gets, return_exceptions=True)
        self.assertIsInstance(results[0], asyncio.CancelledError)
        self.assertEqual(results[1:], ['value of a'] * 9)

    async def test_a_cancelled_join_leaves_the_others(self):
        gets = [asyncio.create_task(self.cache.get('a')) for _ in range(10)]
        await turns()
        for get in gets[3:6]:
            get.cancel()
        await turns()
        self.store.may_answer.set()
        results = await asyncio.gather(*gets, return_exceptions=True)
        self.assertEqual([type(result) for result in results], [str] * 3 + [asyncio.CancelledError] * 3 + [str] * 4)
        self.assertEqual(self.store.loads, ['a'])

    async def test_a_write_goes_on_when_its_caller_is_cancelled(self):
        put = asyncio.create_task(self.cache.put('a', 1))
        await turns()
        put.cancel()
        with self.assertRaises(asyncio.CancelledError):
            await put
        self.assertNotIn('a', self.cache)
        self.store.may_answer.set()
        await turns(20)
        self.assertEqual((self.store.held, self.cache.hit('a')), ({'a': 1}, 1))

    async def test_aclose_waits_for_a_write(self):
        put = asyncio.create_task(self.cache.put('a', 1))
        await turns()
        put.cancel()
        closing = asyncio.create_task(self.cache.aclose())
        await turns()
        self.assertFalse(closing.done())
        self.store.may_answer.set()
        await closing
        self.assertEqual(self.store.held, {'a': 1})

    async def test_a_put_waits_for_the_load_of_its_key(self):
        get = asyncio.create_task(self.cache.get('a'))
        await turns()
        put = asyncio.create_task(self.cache.put('a', 2))
        await turns()
        self.store.may_answer.set()
        self.assertEqual((await get, await put, await self.cache.get('a')), ('value of a', None, 2))

    async def test_other_keys_go_on(self):
        get = asyncio.create_task(self.cache.get('a'))
        await turns()
        self.store.held['b'] = 1
        other = asyncio.create_task(self.cache.get('b'))
        await turns()
        self.assertEqual(self.store.loads, ['a', 'b'])
        self.store.may_answer.set()
        self.assertEqual((await get, await other), ('value of a', 1))

    async def test_a_loader_that_waits_for_itself(self):
        async def load(key):
            return await asyncio.gather(cache.get(key), cache.get('other'))

        cache = cadwrelch.AsyncCache(loader=load)
        with self.assertRaises(cadwrelch.LoaderError) as caught:
            await asyncio.wait_for(cache.get('a'), 10)
        cause = caught.exception
        while cause.__cause__ is not None:
            cause = cause.__cause__
        self.assertIsInstance(cause, cadwrelch.DeadlockError)

    async def test_a_look_waits_for_no_room(self):
        """Five loads and a join take all sixteen places of a history."""
        cache = cadwrelch.AsyncCache(loader=self.store, stripes=1, history=16)
        await cache.put('there', 1)
        gets = [asyncio.create_task(cache.get(key)) for key in ('a', 'b', 'c', 'd', 'e', 'a')]
        await turns()
        waits = asyncio.create_task(cache.get('there'))
        await turns()
        self.assertFalse(waits.done())
        self.assertEqual(('there' in cache, 'a' in cache, len(cache), cache.keys(), cache.hit('there')), (True, False, 1, ['there'], None))
        self.store.may_answer.set()
        await asyncio.gather(*gets, waits)
        self.assertEqual((cache.hit('there'), cache._agrees()), (1, True))

    async def test_a_failed_write(self):
        self.store.may_answer.set()
        self.store.fails = Broken('no')
        with self.assertRaises(cadwrelch.WriterError):
            await self.cache.put('a', 1)
        self.assertNotIn('a', self.cache)

    async def test_invoke(self):
        self.store.may_answer.set()

        async def count(entry, by):
            entry.value = len(await entry.load()) + by
            return entry.value

        self.assertEqual(await self.cache.invoke('a', count, 2), 12)
        self.assertEqual((self.store.held, self.store.loads), ({'a': 12}, ['a']))
        self.assertEqual(await self.cache.invoke('a', lambda entry: entry.value), 12)

    async def test_a_forgotten_coroutine_gives_its_key_back(self):
        get = self.cache.get('a')
        get.send(None)
        del get
        gc.collect()
        self.store.may_answer.set()
        self.assertEqual(await asyncio.wait_for(self.cache.get('a'), 10), 'value of a')

    async def test_close_wakes_who_waits_to_begin(self):
        get = asyncio.create_task(self.cache.get('a'))
        await turns()
        put = asyncio.create_task(self.cache.put('a', 2))
        await turns()
        self.cache.close()
        with self.assertRaises(cadwrelch.ClosedError):
            await put
        self.store.may_answer.set()
        self.assertEqual(await get, 'value of a')

    async def test_loops_of_threads_share_a_load(self):
        found = []

        async def load(key):
            await asyncio.to_thread(waits.of, 3)
            return threading.get_ident()

        cache = cadwrelch.AsyncCache(loader=load)
        threads = [threading.Thread(target=lambda: found.append(asyncio.run(cache.get('a')))) for _ in range(4)]
        with Waits() as waits:
            for thread in threads:
                thread.start()
            await asyncio.to_thread(lambda: [thread.join(60) for thread in threads])
        self.assertEqual((len(found), len(set(found))), (4, 1))
        self.assertTrue(cache._agrees())

    async def test_conditional_changes(self):
        self.store.may_answer.set()
        cache, held = self.cache, self.store.held
        for call, reply, now in (
                (lambda: cache.put_if_absent('a', 1), True, 1), (lambda: cache.put_if_absent('a', 2), False, 1),
                (lambda: cache.replace('a', 3), True, 3), (lambda: cache.replace('b', 3), False, 3),
                (lambda: cache.replace_if('a', 2, 4), False, 3), (lambda: cache.replace_if('a', 3, 4), True, 4),
                (lambda: cache.get_and_put('a', 5), 4, 5), (lambda: cache.get_and_put('c', 5), None, 5),
                (lambda: cache.get_and_replace('a', 6), 5, 6), (lambda: cache.get_and_replace('b', 6), None, 6),
                (lambda: cache.remove_if('a', 5), False, 6), (lambda: cache.remove_if('a', 6), True, None),
                (lambda: cache.put('a', 7), None, 7), (lambda: cache.get_and_remove('a'), 7, None),
                (lambda: cache.get_and_remove('a'), None, None), (lambda: cache.put('a', 8), None, 8),
                (lambda: cache.remove('a'), True, None), (lambda: cache.remove('a'), False, None)):
            self.assertEqual((await call(), cache.hit('a'), held.get('a')), (reply, now, now))
        for call in (lambda: cache.put('a', None), lambda: cache.remove_if('a', None), lambda: cache.replace_if('a', None, 1),
                     lambda: cache.put_many({'a': None})):
            with self.assertRaises(ValueError):
                await call()

    async def test_looks(self):
        self.store.may_answer.set()
        await self.cache.put_many({'a': 1, 'b': 2})
        self.assertEqual((sorted(self.cache), sorted(self.cache.keys()), len(self.cache), self.cache.expire()), (['a', 'b'], ['a', 'b'], 2, 0))
        self.assertEqual(self.cache.stats()['puts'], 2)
        await self.cache.clear()
        self.assertEqual((len(self.cache), bool(self.cache), self.store.held), (0, True, {'a': 1, 'b': 2}))
        self.assertFalse(self.cache.closed)

    async def test_a_default(self):
        cache = cadwrelch.AsyncCache(ttl=60)
        self.assertEqual((await cache.get('a'), await cache.get('a', 5)), (None, 5))
        async with cache:
            await cache.put('a', 1, ttl=0)
            self.assertIsNone(await cache.get('a'))
        self.assertTrue(cache.closed)
        with self.assertRaises(cadwrelch.ClosedError):
            await cache.get('a')

    async def test_two_loads_of_a_loader_that_waits_for_itself(self):
        """A loader waits for two others at once; one of them waits for it."""
        go = asyncio.Event()

        async def load(key):
            if key == 'one':
                return await asyncio.gather(cache.get('two'), cache.get('three'))
            await go.wait()
            return await cache.get('one') if key == 'two' else key

        cache = cadwrelch.AsyncCache(loader=load)
        others = [asyncio.create_task(cache.get(key)) for key in ('two', 'three')]
        await turns()
        one = asyncio.create_task(cache.get('one'))
        await turns()
        go.set()
        results = await asyncio.wait_for(asyncio.gather(one, *others, return_exceptions=True), 60)
        self.assertEqual([type(result) for result in results], [cadwrelch.LoaderError, cadwrelch.LoaderError, str])
        self.assertIsInstance(results[1].__cause__, cadwrelch.DeadlockError)
        self.assertTrue(cache._agrees())

    async def test_a_cache_is_neither_copied_nor_pickled(self):
        for call in (copy.copy, copy.deepcopy, pickle.dumps):
            self.assertRaises(TypeError, call, self.cache)


class Ends(unittest.TestCase):
    """Loops that end while calls of theirs run."""

    def setUp(self):
        self.store = Gated()
        self.store.held['a'] = 1
        self.cache = cadwrelch.AsyncCache(loader=self.store, writer=self.store)

    def in_a_loop(self, *calls):
        """Runs calls in a loop of their own until they ask the store, and ends it."""
        async def main():
            self.store.may_answer = asyncio.Event()
            self.store.may_answer.set()
            await self.cache.get('a')
            self.store.may_answer.clear()
            tasks = [asyncio.create_task(call()) for call in calls]
            await turns()
            for task in tasks:
                task.cancel()
            await turns()
            return tasks

        return main()

    def get_again(self):
        async def main():
            self.store.may_answer = asyncio.Event()
            self.store.may_answer.set()
            return await asyncio.wait_for(self.cache.get('a'), 60)

        return asyncio.run(main())

    CHANGES = (lambda cache: cache.put('a', 2), lambda cache: cache.remove('a'), lambda cache: cache.put_many({'a': 2}),
               lambda cache: cache.remove_many(['a']), lambda cache: cache.invoke('a', lambda entry: setattr(entry, 'value', 2)))

    def test_a_write_whose_task_a_closing_loop_cancels_leaves_no_entry(self):
        for change in self.CHANGES:
            with self.subTest(change):
                asyncio.run(self.in_a_loop(lambda: change(self.cache)))
                self.assertIsNone(self.cache.hit('a'))
                # The store has it, or had it: nobody knows.
                self.store.held['a'] = 3
                self.assertEqual(self.get_again(), 3)
                self.assertTrue(self.cache._agrees())

    def test_a_write_whose_loop_is_closed_without_being_cancelled_leaves_no_entry(self):
        for change in self.CHANGES:
            with self.subTest(change):
                loop = asyncio.new_event_loop()
                loop.run_until_complete(self.in_a_loop(lambda: change(self.cache)))
                loop.close()
                self.store.held['a'] = 3
                # A put waits for the key.
                async def main():
                    self.store.may_answer = asyncio.Event()
                    self.store.may_answer.set()
                    await asyncio.wait_for(self.cache.put('a', 4), 60)
                    return await self.cache.get('a')

                with self.assertLogs('asyncio'):
                    self.assertEqual(asyncio.run(main()), 4)
                    gc.collect()
                self.assertTrue(self.cache._agrees())

    def test_aclose_waits_for_a_write_of_another_loop(self):
        asked, may_write = threading.Event(), threading.Event()

        async def write(key, value):
            asked.set()
            await asyncio.to_thread(may_write.wait, 60)
            held[key] = value

        held = {}
        cache = cadwrelch.AsyncCache(writer=write)
        writes = threading.Thread(target=lambda: asyncio.run(cache.put('a', 1)))
        with Waits() as waits:
            closes = threading.Thread(target=lambda: asyncio.run(cache.aclose()))
            writes.start()
            self.assertTrue(asked.wait(60))
            closes.start()
            waits.of(1)
            may_write.set()
            writes.join(60)
            closes.join(60)
        self.assertEqual(held, {'a': 1})

    def test_a_coroutine_that_is_closed_in_another_context(self):
        for call in (lambda: self.cache.get('b'), lambda: self.cache.get_many(['b', 'c']), lambda: self.cache.load_many(['b'])):
            async def main():
                self.store.may_answer = asyncio.Event()
                coroutine = call()
                contextvars.Context().run(coroutine.send, None)
                other = asyncio.create_task(self.cache.get('b'))
                await turns()
                coroutine.close()
                del coroutine
                await turns()
                self.store.may_answer.set()
                return await asyncio.wait_for(other, 60)

            with mock.patch('sys.unraisablehook') as unraisable:
                self.assertEqual(asyncio.run(main()), 'value of b')
            self.assertEqual(unraisable.call_args_list, [])
            asyncio.run(self.cache.clear())
            self.assertTrue(self.cache._agrees())


if __name__ == '__main__':
    unittest.main()
