"""Threads that share a cache."""
import gc
import random
import threading
import unittest

import cadwrelch

from .stores import Broken, Store, Waits


def run(*calls):
    """Runs each call on a thread of its own, and returns what they return or raise."""
    results = [None] * len(calls)

    def one(place, call):
        try:
            results[place] = call()
        except BaseException as error:
            results[place] = error

    threads = [threading.Thread(target=one, args=it) for it in enumerate(calls)]
    for thread in threads:
        thread.start()
    return lambda: [thread.join(60) for thread in threads] and results


class Gated:
    """A loader that says when it is asked, and answers when it is told to."""

    def __init__(self):
        self.asked = threading.Event()
        self.may_answer = threading.Event()
        self.answer = 7
        self.loads = 0

    def __call__(self, key):
        self.loads += 1
        self.asked.set()
        self.may_answer.wait(60)
        if isinstance(self.answer, BaseException):
            raise self.answer
        return self.answer


class Joins(unittest.TestCase):
    def setUp(self):
        self.loader = Gated()
        self.cache = cadwrelch.Cache(loader=self.loader, stripes=1)

    def joined(self):
        with Waits() as waits:
            results = run(*[lambda: self.cache.get('a')] * 8)
            waits.of(7)
            self.loader.may_answer.set()
            results = results()
        self.assertEqual(self.loader.loads, 1)
        self.assertTrue(self.cache._agrees())
        return results

    def test_joined_calls_make_one_load(self):
        self.assertEqual(self.joined(), [7] * 8)

    def test_joined_calls_share_the_failure(self):
        self.loader.answer = Broken('no')
        results = self.joined()
        self.assertTrue(all(isinstance(result, cadwrelch.LoaderError) and result.__cause__ is self.loader.answer for result in results))

    def test_other_keys_go_on(self):
        results = run(lambda: self.cache.get('a'))
        self.assertTrue(self.loader.asked.wait(60))
        self.cache['b'] = 1
        self.assertEqual(self.cache['b'], 1)
        waits = run(lambda: self.cache.put('a', 2))
        self.loader.may_answer.set()
        self.assertEqual((results(), waits()), ([7], [None]))
        self.assertEqual(self.cache['a'], 2)

    def test_a_close_wakes_who_waits_to_begin(self):
        results = run(lambda: self.cache.get('a'))
        self.assertTrue(self.loader.asked.wait(60))
        with Waits() as waits:
            put = run(lambda: self.cache.put('a', 2))
            waits.of(1)
            self.cache.close()
            self.assertIsInstance(put()[0], cadwrelch.ClosedError)
        self.loader.may_answer.set()
        self.assertEqual(results(), [7])
        self.assertTrue(self.cache._agrees())


class Deadlocks(unittest.TestCase):
    def test_a_loader_that_waits_for_itself(self):
        cache = cadwrelch.Cache(loader=lambda key: cache.get(key))
        with self.assertRaises(cadwrelch.LoaderError) as caught:
            cache.get('a')
        self.assertIsInstance(caught.exception.__cause__, cadwrelch.DeadlockError)
        self.assertTrue(cache._agrees())

    def test_a_call_of_many_keys_that_waits_for_itself(self):
        store = Store()
        store.write_fails = Broken('no write')
        cache = cadwrelch.Cache(loader=lambda key: cache.put_many({'other': 1, key: 2}), writer=store)
        with self.assertRaises(cadwrelch.LoaderError) as caught:
            cache.get('a')
        stopped = caught.exception.__cause__
        self.assertEqual((stopped.failed, stopped.__cause__), (['other', 'a'], store.write_fails))
        self.assertTrue(cache._agrees())

    def test_loaders_that_wait_for_each_other(self):
        barrier = threading.Barrier(2)

        def load(key):
            barrier.wait(60)
            return cache.get({'left': 'right', 'right': 'left'}[key])

        cache = cadwrelch.Cache(loader=load)
        results = run(lambda: cache.get('left'), lambda: cache.get('right'))()
        causes = []
        for result in results:
            while result is not None:
                causes.append(type(result))
                result = getattr(result, '__cause__', None)
        self.assertIn(cadwrelch.DeadlockError, causes)
        self.assertTrue(cache._agrees())


class Calling:
    """Whose methods call a cache, one of them at a time on a thread."""

    cache = None
    calls = {}
    inside = threading.local()

    def __init__(self, number):
        self.number = number

    def call_the_cache(self, what):
        if getattr(self.inside, 'is_on', False) or self.cache.closed:
            return
        self.inside.is_on = True
        self.calls[what] = self.calls.get(what, 0) + 1
        try:
            self.cache.put('own', 1)
            self.cache.get('other')
            self.cache.remove('own')
        except cadwrelch.DeadlockError:
            # The thread has a call out, and the stripe has no room.
            pass
        self.inside.is_on = False


class Key(Calling):
    def __hash__(self):
        self.call_the_cache('hash')
        return 7

    def __eq__(self, other):
        self.call_the_cache('eq of a key')
        return isinstance(other, Key) and other.number == self.number

    def __del__(self):
        self.call_the_cache('del of a key')


class Value(Calling):
    def __eq__(self, other):
        self.call_the_cache('eq of a value')
        return other.number == self.number

    def __del__(self):
        self.call_the_cache('del of a value')


class Reentrant(unittest.TestCase):
    """Keys and values whose own methods call the cache: nothing of the user's runs with a lock held, or these would never end."""

    def work(self, cache):
        for number in range(30):
            cache.get(Key(number % 6))
            cache.put(Key(number % 6), Value(2))
            cache.replace_if(Key(number % 6), Value(2), Value(3))
            cache.put_many({Key(number % 6): Value(4)})
            cache.invoke(Key(number % 6), lambda entry: setattr(entry, 'value', Value(5)))
            cache.get_many([Key(1), Key(2), Key(1)])
            cache.remove_if(Key(number % 6), Value(5))
            cache.remove(Key(number % 6))
        cache.clear()

    def test_a_key_that_needs_room_in_the_middle_of_a_round(self):
        """Five keys of a round take fifteen of sixteen places when the sixth one asks for three."""
        raised = []

        class Asks(str):
            def __hash__(self):
                try:
                    cache.put('own', 1)
                except cadwrelch.DeadlockError as error:
                    raised.append(error)
                return str.__hash__(self)

        cache = cadwrelch.Cache(loader=lambda key: 1, stripes=1, history=16)
        self.assertEqual(cache.get_many([*'abcde', Asks('f')]), dict.fromkeys('abcdef', 1))
        self.assertEqual(len(raised), 1)
        self.assertTrue(cache._agrees())

    def test_methods_of_keys_and_values_may_call_the_cache(self):
        Calling.cache = cache = cadwrelch.Cache(loader=lambda key: Value(1), stripes=1, capacity=3)
        self.assertEqual(run(lambda: self.work(cache), lambda: self.work(cache))(), [None, None])
        self.assertTrue(cache._agrees())
        cache.close()
        self.assertEqual(sorted(Calling.calls), ['del of a key', 'del of a value', 'eq of a key', 'eq of a value', 'hash'])
        # Its keys and values are gone, with their finalizers.
        gc.collect()
        Calling.cache = cadwrelch.Cache()


class Shaky(Store):
    """It fails one call of 16, and has changed nothing then."""

    def __init__(self):
        super().__init__()
        self.random = random.Random(1)

    def _fails(self):
        if self.random.random() < 1 / 16:
            raise Broken('by chance')

    def load(self, key):
        self._fails()
        return super().load(key)

    def write(self, key, value):
        self._fails()
        super().write(key, value)

    def delete(self, key):
        self._fails()
        super().delete(key)


def add_one(entry):
    entry.value = (entry.value or 0) + 1


class Stress(unittest.TestCase):
    def one_call(self, cache, chance):
        key, value = chance.randrange(60), chance.randrange(1000)
        few = [chance.randrange(60) for _ in range(4)]
        calls = [lambda: cache.get(key)] * 6 + [
            lambda: cache.put(key, value), lambda: cache.remove(key), lambda: cache.put_if_absent(key, value),
            lambda: cache.replace_if(key, value, value + 1), lambda: cache.invoke(key, add_one), lambda: cache.get_many(few),
            lambda: cache.put_many(dict.fromkeys(few, value)), lambda: cache.remove_many(few)]
        try:
            chance.choice(calls)()
        except cadwrelch.CacheError:
            pass

    def long_run(self, **words):
        store = Shaky()
        cache = cadwrelch.Cache(loader=store, writer=store, **words)

        def work(seed):
            chance = random.Random(seed)
            for _ in range(1000):
                self.one_call(cache, chance)

        results = run(*[lambda seed=seed: work(seed) for seed in range(6)])()
        self.assertEqual(results, [None] * 6)
        self.assertTrue(cache._agrees())
        self.assertEqual({key: store.held.get(key) for key in cache.keys()}, cache.get_many(cache.keys()))
        self.assertLessEqual(len(cache), words['capacity'])

    def test_cached_is_stored(self):
        self.long_run(stripes=2, capacity=16)

    def test_in_little_room(self):
        self.long_run(stripes=1, capacity=2, history=16)


if __name__ == '__main__':
    unittest.main()
