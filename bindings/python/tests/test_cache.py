"""Operations, with what may go wrong, as far as the table of cases (test_cases.py) doesn't say it."""
import os
import subprocess
import sys
import tempfile
import unittest

import cadwrelch

from .stores import Broken, Store

HERE = os.path.dirname(os.path.abspath(__file__))


def cache_of(store, **words):
    words.setdefault('stripes', 2)
    words.setdefault('capacity', 16)
    return cadwrelch.Cache(loader=store.load, writer=store, **words)


class Operations(unittest.TestCase):
    def setUp(self):
        self.store = Store({'a': 1})
        self.cache = cache_of(self.store)

    def tearDown(self):
        self.assertTrue(self.cache._agrees())

    def test_get(self):
        self.assertEqual(self.cache.get('a'), 1)
        self.assertEqual(self.cache['a'], 1)
        self.assertIsNone(self.cache.get('b'))
        self.assertEqual(self.cache.get('b', 5), 5)
        with self.assertRaises(KeyError):
            self.cache['b']
        self.assertEqual(self.store.loads, 4)
        self.assertEqual(self.cache.stats(), {'hits': 1, 'misses': 4, 'puts': 0, 'removals': 0, 'evictions': 0})

    def test_subscripts(self):
        self.cache['a'] = 2
        self.cache['b'] = [3]
        self.assertEqual((self.store.held, self.cache['b']), ({'a': 2, 'b': [3]}, [3]))
        del self.cache['a'], self.cache['b'], self.cache['d']
        self.assertEqual(self.store.held, {})

    def test_none_is_no_value(self):
        for call in (lambda: self.cache.put('a', None), lambda: self.cache.put_many({'a': None}),
                     lambda: self.cache.remove_if('a', None), lambda: self.cache.replace_if('a', 1, None)):
            self.assertRaises(ValueError, call)

    def test_keys_are_hashable(self):
        self.assertRaises(TypeError, self.cache.get, [])
        self.cache[('a', 1)] = 2
        self.cache[-1] = 'minus one'
        self.cache[-2] = 'minus two'
        self.assertEqual((self.cache[('a', 1)], self.cache[-1], self.cache[-2]), (2, 'minus one', 'minus two'))
        self.assertEqual(hash(-1), hash(-2))

    def test_without_a_store_it_is_a_map(self):
        with cadwrelch.Cache() as cache:
            self.assertIsNone(cache.get('a'))
            cache['a'] = 1
            self.assertEqual(cache['a'], 1)

    def test_callables(self):
        held = {}
        with cadwrelch.Cache(loader=held.get, writer=held.__setitem__) as cache:
            cache['a'] = 1
            cache.remove('b')
            self.assertEqual(held, {'a': 1, 'b': None})

    def test_a_store_may_be_falsy(self):
        class Held(Store, dict):
            """An empty dict: its truth is False."""

        store = Held({'a': 1})
        with cadwrelch.Cache(loader=store, writer=store) as cache:
            cache['b'] = cache['a']
            self.assertEqual((bool(store), store.held), (False, {'a': 1, 'b': 1}))

    def test_iterates_over_what_is_cached(self):
        self.assertEqual(list(self.cache), [])
        self.cache['b'] = 2
        self.assertEqual((list(self.cache), self.store.loads), (['b'], 0))

    def test_an_empty_cache_is_true(self):
        self.assertTrue(self.cache)


class Failures(unittest.TestCase):
    def setUp(self):
        self.store = Store({'a': 1})
        self.cache = cache_of(self.store)
        self.cache.get('a')

    def tearDown(self):
        self.assertTrue(self.cache._agrees())

    def test_loader(self):
        self.store.load_fails = Broken('no load')
        with self.assertRaises(cadwrelch.LoaderError) as caught:
            self.cache['b']
        self.assertIs(caught.exception.__cause__, self.store.load_fails)
        self.store.load_fails = None
        self.assertIsNone(self.cache.get('b'))

    def test_writer(self):
        self.store.write_fails = Broken('no write')
        cache = self.cache
        for call in (lambda: cache.put('a', 9), lambda: cache.get_and_put('a', 9), lambda: cache.put_if_absent('b', 9),
                     lambda: cache.remove('a'), lambda: cache.remove_if('a', 1), lambda: cache.get_and_remove('a'),
                     lambda: cache.replace('a', 9), lambda: cache.replace_if('a', 1, 9), lambda: cache.get_and_replace('a', 9)):
            with self.assertRaises(cadwrelch.WriterError) as caught:
                call()
            self.assertIs(caught.exception.__cause__, self.store.write_fails)
        self.assertEqual(cache['a'], 1)
        self.assertNotIn('b', cache)

    def test_what_is_no_exception_goes_on(self):
        for error in (KeyboardInterrupt(), SystemExit()):
            self.store.load_fails = self.store.write_fails = error
            for call in (lambda: self.cache.get('b'), lambda: self.cache.put('a', 2), lambda: self.cache.get_many('bcb'),
                         lambda: self.cache.remove_many('ab'), lambda: self.cache.invoke('b', lambda entry: entry.value)):
                self.cache.hit('a')
                with self.assertRaises(type(error)):
                    call()
                self.assertTrue(self.cache._agrees())

    def test_a_writer_that_was_interrupted_leaves_no_entry(self):
        """Nobody knows what the store has."""
        cache, store = self.cache, self.store
        for call in (lambda: cache.put('a', 9), lambda: cache.get_and_put('a', 9), lambda: cache.remove('a'), lambda: cache.remove_if('a', 1),
                     lambda: cache.get_and_remove('a'), lambda: cache.replace('a', 9), lambda: cache.replace_if('a', 1, 9),
                     lambda: cache.get_and_replace('a', 9), lambda: cache.invoke('a', lambda entry: setattr(entry, 'value', 9)),
                     lambda: cache.put_many({'a': 9}), lambda: cache.remove_many('a')):
            store.held['a'] = 1
            cache.load_many('a', replace=True)
            store.write_fails = KeyboardInterrupt()
            self.assertRaises(KeyboardInterrupt, call)
            self.assertEqual((cache.hit('a'), 'a' in cache, len(cache), cache.keys()), (None, False, 0, []))
            store.write_fails = None
            store.held['a'] = 2
            self.assertEqual((cache['a'], cache.hit('a'), cache.replace_if('a', 2, 1), cache.hit('a')), (2, 2, True, 1))
            self.assertTrue(cache._agrees())
            store.write_fails = KeyboardInterrupt()
            self.assertRaises(KeyboardInterrupt, call)
            self.assertEqual((cache['a'], cache.hit('a')), (1, 1))
            self.assertRaises(KeyboardInterrupt, cache.put, 'a', 4)
            self.assertEqual((cache.expire(), cache._agrees()), (1, True))

    def test_closed(self):
        self.cache.close()
        self.assertTrue(self.cache.closed)
        cache = self.cache
        for call in (lambda: cache.get('a'), lambda: cache.put('a', 1), lambda: cache.remove('a'), lambda: 'a' in cache, cache.stats,
                     cache.keys, cache.clear, lambda: cache.get_many('ab'), lambda: cache.invoke('a', print)):
            self.assertRaises(cadwrelch.ClosedError, call)
        cache.close()

    def test_a_key_that_can_not_be_compared(self):
        class Odd:
            def __hash__(self):
                return hash('a')

            def __eq__(self, other):
                raise Broken('no comparison')

        self.assertRaises(Broken, self.cache.get, Odd())
        self.assertRaises(Broken, self.cache.put, Odd(), 1)


class Processors(unittest.TestCase):
    def setUp(self):
        self.store = Store({'a': 1})
        self.cache = cache_of(self.store)

    def tearDown(self):
        self.assertTrue(self.cache._agrees())

    def test_sees_loads_sets_and_removes(self):
        def process(entry, more):
            self.assertFalse(entry.exists())
            old = entry.value
            self.assertTrue(entry.exists())
            entry.value = 5
            entry.value = old + more
            return entry.key, old

        self.assertEqual(self.cache.invoke('a', process, 2), ('a', 1))
        self.assertEqual((self.store.held, self.store.loads, self.store.writes), ({'a': 3}, 1, 1))
        self.cache.invoke('a', lambda entry: entry.remove())
        self.assertEqual((self.store.held, len(self.cache)), ({}, 0))

    def test_its_exception_is_the_caller_s(self):
        def process(entry):
            entry.value = 5
            raise Broken('no')

        self.assertRaises(Broken, self.cache.invoke, 'a', process)
        self.assertEqual((self.store.held, len(self.cache)), ({'a': 1}, 0))

    def test_a_failed_load_is_the_reply(self):
        self.store.load_fails = Broken('no load')

        def process(entry):
            for _ in range(2):
                self.assertRaises(cadwrelch.LoaderError, lambda: entry.value)
            entry.value = 5

        with self.assertRaises(cadwrelch.LoaderError) as caught:
            self.cache.invoke('a', process)
        self.assertIs(caught.exception.__cause__, self.store.load_fails)
        self.assertEqual((self.store.loads, len(self.cache)), (1, 0))


class Bulk(unittest.TestCase):
    def setUp(self):
        self.store = Store({'a': 1, 'b': 2})
        self.cache = cache_of(self.store, capacity=400)

    def tearDown(self):
        self.assertTrue(self.cache._agrees())

    def test_put_and_remove_many(self):
        entries = {f'key{i}': i for i in range(150)}
        self.cache.put_many(entries)
        self.assertEqual(len(self.store.held), 152)
        self.assertEqual(self.cache.get_many(entries), entries)
        self.cache.remove_many(entries)
        self.assertEqual((self.store.held, len(self.cache)), ({'a': 1, 'b': 2}, 0))

    def test_a_writer_that_fails_in_part(self):
        class Odd(Store):
            def write_many(self, items):
                odd = [key for key in items if key % 2]
                self.held.update({key: value for key, value in items.items() if key not in odd})
                raise cadwrelch.NotWritten(odd)

        store = Odd()
        cache = cache_of(store)
        with self.assertRaises(cadwrelch.BulkError) as caught:
            cache.put_many({key: key for key in range(10)})
        self.assertEqual(sorted(caught.exception.failed), [1, 3, 5, 7, 9])
        self.assertEqual(sorted(cache.keys()), [0, 2, 4, 6, 8])
        store.write_fails = Broken('no delete')
        with self.assertRaises(cadwrelch.BulkError) as caught:
            cache.remove_many([0, 2])
        self.assertIs(caught.exception.__cause__, store.write_fails)
        self.assertEqual(caught.exception.failed, [0, 2])
        self.assertTrue(cache._agrees())


    def test_a_call_that_is_stopped_says_what_failed_first(self):
        class Last(Store):
            def write_many(self, items):
                cache.close()
                raise self.write_fails

        store = Last()
        store.write_fails = Broken('no write')
        cache = cache_of(store)
        entries = dict.fromkeys(range(200), 1)
        with self.assertRaises(cadwrelch.BulkError) as caught:
            cache.put_many(entries)
        self.assertIs(caught.exception.__cause__, store.write_fails)
        self.assertEqual(sorted(caught.exception.failed), sorted(entries))


class Example(unittest.TestCase):
    def test_numbers_are_found_again(self):
        with tempfile.TemporaryDirectory() as folder:
            command = [sys.executable, os.path.join(HERE, '..', 'examples', 'visits.py'), os.path.join(folder, 'visits.db'), '6']
            for turn in (1, 2):
                ran = subprocess.run(command, stdout=subprocess.PIPE, universal_newlines=True, check=True)
                self.assertEqual(ran.stdout, f'home={8 * turn} news={8 * turn} about={8 * turn}\n')


if __name__ == '__main__':
    unittest.main()
