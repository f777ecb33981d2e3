"""Calls of many keys: of threads and of coroutines, with loaders and writers of one key and of many."""
import asyncio
import pickle
import threading
import unittest

import cadwrelch
from cadwrelch import BulkError, DeadlockError, LoaderError, NotWritten, WriterError

from .stores import Broken, Waits
from .test_threads import run


class One:
    """A store whose calls take one key. What fails says so; what is slow waits until it may answer."""

    def __init__(self, held=()):
        self.held = dict(held)
        self.failing = {}
        self.asked = []
        self.wait = lambda key: None

    def load(self, key):
        self.note('load', key)
        return self.held.get(key)

    def write(self, key, value):
        self.note('write', key)
        self.held[key] = value

    def delete(self, key):
        self.note('delete', key)
        self.held.pop(key, None)

    def note(self, what, key):
        self.asked.append((what, key))
        self.wait(key)
        if key in self.failing:
            raise self.failing[key]


class Many(One):
    """A store whose calls take many keys. It does what it can."""

    def load_many(self, keys):
        self.asked.append(('load', *keys))
        for key in keys:
            if key in self.failing:
                raise self.failing[key]
        return {key: self.held[key] for key in [*keys, 'not asked for'] if key in self.held}

    def write_many(self, items):
        self.asked.append(('write', *items))
        self.held.update({key: value for key, value in items.items() if key not in self.failing})
        self.end(items)

    def delete_many(self, keys):
        self.asked.append(('delete', *keys))
        for key in keys:
            if key not in self.failing:
                self.held.pop(key, None)
        self.end(keys)

    def end(self, keys):
        failed = [key for key in keys if key in self.failing]
        for key in failed:
            if not isinstance(self.failing[key], Exception):
                raise self.failing[key]
        if failed:
            raise NotWritten(failed) from self.failing[failed[0]]


def awaited(store):
    """The same store for coroutines."""
    class Later:
        pass

    later = Later()
    for name in ('load', 'write', 'delete', 'load_many', 'write_many', 'delete_many'):
        if hasattr(store, name):
            async def call(*arguments, method=getattr(store, name)):
                await asyncio.sleep(0)
                return method(*arguments)

            setattr(later, name, call)
    return later


class Shared:
    """What is the same of threads and coroutines. self.run makes a call."""

    def made(self, kind, held=(), **words):
        store = kind(held)
        cache = self.cache(store, **words)
        self.addCleanup(lambda: self.assertTrue(cache._agrees()))
        return store, cache

    def failed(self, call):
        with self.assertRaises(BulkError) as caught:
            self.run_(call)
        return caught.exception

    def test_get_many(self):
        for kind in (One, Many):
            store, cache = self.made(kind, {'a': 1, 'b': 2, 'not asked for': 3})
            self.run_(cache.get('a'))
            self.assertEqual(self.run_(cache.get_many(['a', 'b', 'c', 'b'])), {'a': 1, 'b': 2})
            self.assertEqual(self.run_(cache.get_many([])), {})
            self.assertEqual(self.run_(cache.get_many(iter('ab'))), {'a': 1, 'b': 2})
            self.assertNotIn('not asked for', cache)
            wanted = [('load', 'a'), ('load', 'b'), ('load', 'c')] if kind is One else [('load', 'a'), ('load', 'b', 'c')]
            self.assertEqual(store.asked, wanted)

    def test_put_many_and_remove_many(self):
        for kind in (One, Many):
            store, cache = self.made(kind)
            entries = {f'key{i}': i for i in range(300)}
            self.run_(cache.put_many(entries))
            self.assertEqual((store.held, self.run_(cache.get_many(entries))), (entries, entries))
            self.run_(cache.remove_many(entries))
            self.assertEqual((store.held, len(cache)), ({}, 0))
            self.run_(cache.remove_many(['a', 'a']))

    def test_load_many(self):
        for kind in (One, Many):
            store, cache = self.made(kind, {'a': 1, 'b': 2})
            self.run_(cache.load_many('abc'))
            store.held.update(a=3, b=4)
            self.run_(cache.load_many('ab'))
            self.assertEqual(self.run_(cache.get_many('ab')), {'a': 1, 'b': 2})
            self.run_(cache.load_many('ab', replace=True))
            self.assertEqual(self.run_(cache.get_many('ab')), {'a': 3, 'b': 4})

    def test_a_bad_key_spoils_no_other_one(self):
        store, cache = self.made(One, {'a': 1, 'b': 2})
        store.failing['bad'] = Broken('no')
        error = self.failed(cache.get_many(['a', 'bad', 'b', 'none']))
        self.assertEqual((error.failed, error.found, error.__cause__), (['bad'], {'a': 1, 'b': 2}, store.failing['bad']))
        self.assertEqual((str(error), sorted(cache.keys())), (f"a key failed ('bad', cache {cache.name})", ['a', 'b']))
        again = pickle.loads(pickle.dumps(error))
        self.assertEqual((again.failed, again.found), (error.failed, error.found))

    def test_a_load_of_many_keys_that_fails(self):
        store, cache = self.made(Many, {'a': 1})
        self.run_(cache.get('a'))
        store.failing['b'] = Broken('no')
        error = self.failed(cache.get_many('abcdef'))
        self.assertEqual((sorted(error.failed), error.found, error.__cause__), (list('bcdef'), {'a': 1}, store.failing['b']))
        self.assertRegex(str(error), r"^5 keys failed \('.', '.', '.', '.', '.', cache \d+\)$")

    def test_a_load_of_many_keys_that_returns_no_mapping(self):
        store, cache = self.made(Many)
        store.load_many = lambda keys: None
        error = self.failed(self.cache(store).get_many('ab'))
        self.assertRegex(str(error.__cause__), 'load_many returns a mapping: None was returned')

    def test_a_writer_that_fails_at_some_keys(self):
        for kind, call, at_least in ((One, 'put', 'a'), (Many, 'put', 'ac'), (One, 'remove', 'a'), (Many, 'remove', 'ac')):
            store, cache = self.made(kind, dict.fromkeys('abc', 0))
            self.run_(cache.get_many('abc'))
            store.failing['b'] = Broken('no')
            error = self.failed(cache.put_many(dict.fromkeys('abc', 1)) if call == 'put' else cache.remove_many('abc'))
            self.assertIs(error.__cause__, store.failing['b'])
            self.assertIn('b', error.failed)
            self.assertFalse(set(at_least) & set(error.failed))
            # What failed is as it was; cache and store agree in any case.
            self.assertEqual({key: cache.hit(key) for key in 'abc'}, {key: store.held.get(key) for key in 'abc'})

    def test_a_writer_that_is_interrupted(self):
        for kind, call in ((One, 'put'), (Many, 'put'), (One, 'remove'), (Many, 'remove')):
            store, cache = self.made(kind, dict.fromkeys('abc', 0))
            self.run_(cache.get_many('abc'))
            store.failing['b'] = self.interrupt()
            with self.assertRaises(self.interrupt):
                self.run_(cache.put_many(dict.fromkeys('abc', 1)) if call == 'put' else cache.remove_many('abc'))
            self.assertNotIn('b', cache)
            for key in cache.keys():
                self.assertEqual(cache.hit(key), store.held.get(key))

    def test_a_life_of_each_value(self):
        now = [0.0]
        for kind in (One, Many):
            now[0] = 0.0
            store, cache = self.made(kind, {'a': 10, 'b': None}, ttl=lambda key, value: value, timer=lambda: now[0])
            self.run_(cache.get_many('ab'))
            self.run_(cache.put_many({'c': 20, 'd': 0}))
            now[0] = 15
            self.assertEqual(cache.keys(), ['c'])

    def test_a_life_that_fails(self):
        def life(key, value):
            if value == 2:
                raise Broken('no life')
            return 10

        store, cache = self.made(Many, {'a': 1, 'b': 2}, ttl=life)
        error = self.failed(cache.get_many('ab'))
        self.assertEqual((error.failed, error.found), (['b'], {'a': 1}))
        with self.assertRaises(Broken):
            self.run_(cache.put_many({'b': 2}))

    def test_closed(self):
        store, cache = self.made(Many)
        cache.close()
        for call in (cache.get_many('ab'), cache.put_many({'a': 1}), cache.remove_many('ab'), cache.load_many('ab')):
            with self.assertRaises(cadwrelch.ClosedError):
                self.run_(call)


class Lazy:
    """Calls of a Cache as coroutines are: made when they are run."""

    def __init__(self, cache):
        self._cache = cache

    def __getattr__(self, name):
        method = getattr(self._cache, name)
        if name not in ('get', 'get_many', 'put_many', 'remove_many', 'load_many'):
            return method
        return lambda *arguments, **words: lambda: method(*arguments, **words)

    def __contains__(self, key):
        return key in self._cache

    def __len__(self):
        return len(self._cache)


class Threads(Shared, unittest.TestCase):
    interrupt = KeyboardInterrupt

    def cache(self, store, **words):
        return Lazy(cadwrelch.Cache(loader=store, writer=store, **words))

    def run_(self, call):
        return call()

    def test_a_round_starts_each_key_that_it_can(self):
        """Beside a slow put(1), put_many({1, 2, 3}) writes 2 and 3 at once."""
        began, may_go = threading.Event(), threading.Event()
        store = One()

        def wait(key):
            if (store.asked.count(('write', 1)), key) == (1, 1):
                began.set()
                may_go.wait(60)

        store.wait = wait
        cache = cadwrelch.Cache(loader=store, writer=store, stripes=1)
        with Waits() as waits:
            slow = run(lambda: cache.put(1, 'slow'))
            self.assertTrue(began.wait(60))
            many = run(lambda: cache.put_many({1: 'a', 2: 'b', 3: 'c'}))
            waits.of(1)
            self.assertEqual(store.held, {2: 'b', 3: 'c'})
            may_go.set()
            self.assertEqual((slow(), many()), ([None], [None]))
        self.assertEqual((store.held, cache.get_many([1, 2, 3])), ({1: 'a', 2: 'b', 3: 'c'},) * 2)

    def test_a_call_inside_another_one(self):
        cache = cadwrelch.Cache(loader=lambda key: cache.get_many(['other', key]) if key == 'a' else key)
        with self.assertRaises(LoaderError) as caught:
            cache.get('a')
        error = caught.exception.__cause__
        self.assertEqual((error.failed, error.found, type(error.__cause__)), (['a'], {'other': 'other'}, DeadlockError))
        self.assertTrue(cache._agrees())


class Interrupt(BaseException):
    """What isn't an Exception. (A KeyboardInterrupt would end the loop.)"""


class Coroutines(Shared, unittest.TestCase):
    interrupt = Interrupt

    def setUp(self):
        self.loop = asyncio.new_event_loop()
        self.addCleanup(self.loop.close)

    def cache(self, store, **words):
        return cadwrelch.AsyncCache(loader=awaited(store), writer=awaited(store), **words)

    def run_(self, call):
        return self.loop.run_until_complete(call)

    def gated(self, held=()):
        """A cache whose store waits until it may answer."""
        store, may_go = One(held), asyncio.Event()
        later = awaited(store)
        for name in ('load', 'write', 'delete'):
            async def call(*arguments, name=name, method=getattr(later, name)):
                began.append((name, arguments[0]))
                await may_go.wait()
                return await method(*arguments)

            began = []
            setattr(later, name, call)
        return cadwrelch.AsyncCache(loader=later, writer=later, stripes=1), store, may_go, began

    async def turns(self):
        for _ in range(8):
            await asyncio.sleep(0)

    def test_a_round_starts_each_key_that_it_can(self):
        async def main():
            cache, store, may_go, began = self.gated()
            slow = asyncio.create_task(cache.put(1, 'slow'))
            await self.turns()
            many = asyncio.create_task(cache.put_many({1: 'a', 2: 'b', 3: 'c'}))
            await self.turns()
            self.assertEqual(began, [('write', 1), ('write', 2), ('write', 3)])
            may_go.set()
            await asyncio.gather(slow, many)
            return store.held, await cache.get_many([1, 2, 3])

        self.assertEqual(self.run_(main()), ({1: 'a', 2: 'b', 3: 'c'},) * 2)

    def test_loads_of_one_key_are_awaited_at_once(self):
        async def main():
            cache, store, may_go, began = self.gated(dict.fromkeys('abcd', 1))
            alone = asyncio.create_task(cache.get('a'))
            await self.turns()
            many = [asyncio.create_task(cache.get_many('abc')), asyncio.create_task(cache.get_many('bcd'))]
            await self.turns()
            self.assertEqual(sorted(began), [('load', key) for key in 'abcd'])
            may_go.set()
            return await asyncio.gather(alone, *many)

        self.assertEqual(self.run_(main()), [1, dict.fromkeys('abc', 1), dict.fromkeys('bcd', 1)])

    def test_a_cancelled_load_is_made_by_who_has_joined_it(self):
        async def main():
            cache, store, may_go, began = self.gated(dict.fromkeys('abc', 1))
            first, second = [asyncio.create_task(cache.get_many(keys)) for keys in ('abc', 'bc')]
            third = asyncio.create_task(cache.get('b'))
            await self.turns()
            self.assertEqual(len(began), 3)
            first.cancel()
            await self.turns()
            self.assertEqual(sorted(began[3:]), [('load', 'b'), ('load', 'c')])
            may_go.set()
            results = await asyncio.gather(first, second, third, return_exceptions=True)
            self.assertIsInstance(results[0], asyncio.CancelledError)
            self.assertTrue(cache._agrees())
            return results[1:]

        self.assertEqual(self.run_(main()), [dict.fromkeys('bc', 1), 1])

    def test_a_cancelled_call_that_waits_is_gone(self):
        async def main():
            cache, store, may_go, began = self.gated({'a': 1})
            get = asyncio.create_task(cache.get('a'))
            await self.turns()
            waiting = [asyncio.create_task(cache.get_many('a')), asyncio.create_task(cache.put_many({'a': 2})),
                       asyncio.create_task(cache.remove_many('a'))]
            await self.turns()
            for task in waiting:
                task.cancel()
            may_go.set()
            results = await asyncio.gather(get, *waiting, return_exceptions=True)
            self.assertTrue(cache._agrees())
            return [type(result) for result in results], store.held

        self.assertEqual(self.run_(main()), ([int] + [asyncio.CancelledError] * 3, {'a': 1}))

    def test_a_write_goes_on_when_its_caller_is_cancelled(self):
        async def main():
            cache, store, may_go, began = self.gated({'b': 1})
            tasks = [asyncio.create_task(cache.put_many({'a': 1})), asyncio.create_task(cache.remove_many('b'))]
            await self.turns()
            for task in tasks:
                task.cancel()
            await asyncio.gather(*tasks, return_exceptions=True)
            may_go.set()
            await cache.aclose()
            return store.held

        self.assertEqual(self.run_(main()), {'a': 1})

    def test_a_writer_of_one_key_that_fails_at_one(self):
        store, cache = self.made(One)
        store.failing['b'] = Broken('no')
        error = self.failed(cache.put_many(dict.fromkeys('abc', 1)))
        self.assertEqual((error.failed, store.held), (['b'], {'a': 1, 'c': 1}))
        with self.assertRaises(WriterError) as caught:
            self.run_(cache.put('b', 1))
        self.assertRegex(str(caught.exception), r"^the writer failed \(key 'b', cache \d+\)$")

    def test_a_call_inside_another_one(self):
        async def load(key):
            return await cache.get_many(['other', key]) if key == 'a' else key

        cache = cadwrelch.AsyncCache(loader=load)
        with self.assertRaises(LoaderError) as caught:
            self.run_(cache.get('a'))
        error = caught.exception.__cause__
        self.assertEqual((error.failed, error.found, type(error.__cause__)), (['a'], {'other': 'other'}, DeadlockError))
        self.assertTrue(cache._agrees())


if __name__ == '__main__':
    unittest.main()
