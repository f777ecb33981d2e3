"""Entries that expire: the call that meets one clears it first, as a step of its own."""
import math
import threading
import time
import unittest

import cadwrelch

from .stores import Store, Waits


class Clock:
    """A timer that stands still."""

    def __init__(self):
        self.now = 1000.0

    def __call__(self):
        return self.now


class Expiry(unittest.TestCase):
    def setUp(self):
        self.clock = Clock()
        self.store = Store({'a': 1})

    def cache(self, **words):
        cache = cadwrelch.Cache(loader=self.store, writer=self.store, stripes=2, capacity=16, timer=self.clock, **words)
        self.addCleanup(lambda: self.assertTrue(cache._agrees()))
        return cache

    def test_time_to_live(self):
        cache = self.cache(ttl=10)
        self.assertEqual((cache['a'], cache['a'], self.store.loads), (1, 1, 1))
        self.clock.now += 9.9
        self.assertEqual((cache['a'], self.store.loads), (1, 1))
        self.clock.now += 0.1
        self.store.held['a'] = 2
        self.assertEqual((cache['a'], self.store.loads), (2, 2))

    def test_a_write_begins_a_new_life(self):
        cache = self.cache(ttl=10)
        cache['a'] = 2
        self.clock.now += 9
        cache['a'] = 3
        self.clock.now += 9
        self.assertEqual((cache['a'], self.store.loads), (3, 0))

    def test_time_to_idle(self):
        cache = self.cache(tti=10)
        cache['a'] = 2
        for _ in range(5):
            self.clock.now += 9
            self.assertEqual(cache['a'], 2)
        self.clock.now += 10
        self.assertNotIn('a', cache)

    def test_both(self):
        cache = self.cache(ttl=20, tti=10)
        cache['a'] = 2
        self.clock.now += 9
        self.assertEqual(cache.hit('a'), 2)
        self.clock.now += 9
        self.assertEqual(cache.hit('a'), 2)
        self.clock.now += 2
        self.assertIsNone(cache.hit('a'))

    def test_of_a_put_alone(self):
        cache = self.cache(ttl=10)
        cache.put('a', 2, ttl=1)
        cache.put('b', 3, ttl=math.inf)
        cache['c'] = 4
        self.clock.now += 5
        self.assertEqual([cache.hit(key) for key in 'abc'], [None, 3, 4])
        self.clock.now += 1e6
        self.assertEqual([cache.hit(key) for key in 'abc'], [None, 3, None])

    def test_a_callable_says_it(self):
        lives = {1: 10, 2: None, 3: 0}
        cache = self.cache(ttl=lambda key, value: lives[value])
        cache['b'] = 2
        cache['c'] = 3
        cache.get('a')
        self.assertEqual([cache.hit(key) for key in 'abc'], [1, 2, None])
        self.clock.now += 10
        self.assertEqual([cache.hit(key) for key in 'abc'], [None, 2, None])
        cache.invoke('b', lambda entry: setattr(entry, 'value', 1))
        self.assertEqual(cache.hit('b'), 1)
        self.clock.now += 10
        self.assertIsNone(cache.hit('b'))

    def test_what_has_expired_is_not_there(self):
        cache = self.cache(ttl=10)
        cache['a'] = 2
        cache['b'] = 3
        self.clock.now += 10
        self.assertEqual((len(cache), cache.keys(), list(cache), 'a' in cache), (0, [], [], False))
        self.assertTrue(cache.put_if_absent('a', 4))
        self.assertFalse(cache.replace('b', 5))
        self.assertFalse(cache.remove_if('b', 3))
        self.assertIsNone(cache.get_and_put('b', 6))
        self.clock.now += 10
        self.assertFalse(cache.remove('a'))
        self.assertEqual(cache.invoke('b', lambda entry: entry.exists()), False)

    def test_expire_clears_all_at_once(self):
        dropped = []

        class Value:
            def __del__(self):
                dropped.append(cache.hit('b'))

        cache = cadwrelch.Cache(stripes=2, ttl=10, timer=self.clock)
        cache['a'] = Value()
        self.clock.now += 5
        cache['b'] = 2
        self.clock.now += 5
        self.assertEqual((cache.expire(), dropped), (1, [2]))
        self.assertEqual(cache.keys(), ['b'])

    def test_nothing_is_cleared_while_it_is_reserved(self):
        asked, may_answer = threading.Event(), threading.Event()

        def write(key, value):
            asked.set()
            may_answer.wait(60)

        cache = cadwrelch.Cache(loader=lambda key: 'loaded', writer=write, ttl=10, timer=self.clock)
        cache.get('a')
        put = threading.Thread(target=lambda: cache.put('a', 'written'))
        put.start()
        self.assertTrue(asked.wait(60))
        self.clock.now += 10
        self.assertEqual(cache.expire(), 0)
        self.assertNotIn('a', cache)
        got = []
        get = threading.Thread(target=lambda: got.append(cache.get('a')))
        with Waits() as waits:
            get.start()
            waits.of(1)
            self.assertEqual(got, [])
            may_answer.set()
            put.join(60)
            get.join(60)
        self.assertEqual(got, ['written'])
        self.assertTrue(cache._agrees())

    def test_wrong_times(self):
        for words in ({'ttl': -1}, {'ttl': math.nan}, {'tti': 0}, {'ttl': 'a day'}):
            self.assertRaises((ValueError, TypeError), cadwrelch.Cache, **words)

    def test_the_system_s_clock(self):
        cache = cadwrelch.Cache(ttl=3600)
        cache['a'] = 1
        cache.put('b', 1, ttl=1e-9)
        began = time.monotonic_ns()
        while time.monotonic_ns() - began < 2:
            pass
        self.assertEqual((cache.hit('a'), cache.hit('b')), (1, None))

    def test_a_timer_that_fails(self):
        cache = self.cache(ttl=10)
        cache['a'] = 2
        for wrong, kind in ((math.nan, ValueError), (1e300, ValueError), ('soon', TypeError)):
            self.clock.now = wrong
            self.assertRaises(kind, cache.hit, 'a')
            self.assertRaises(kind, cache.put, 'a', 3)
            self.assertRaises(kind, cache.keys)
        self.clock.now = 1000.0
        self.assertEqual(cache.hit('a'), 2)

    def test_a_timer_that_fails_when_the_store_has_changed(self):
        def write(key, value):
            if value == 2:
                self.clock.now = 'soon'

        cache = cadwrelch.Cache(writer=write, ttl=10, timer=self.clock)
        cache['a'] = 1
        self.assertRaises(TypeError, cache.put, 'a', 2)
        self.clock.now = 1000.0
        self.assertIsNone(cache.hit('a'))
        self.assertNotIn('a', cache)
        self.assertTrue(cache._agrees())

    def test_times_that_are_far_apart(self):
        cache = self.cache(ttl=math.inf, tti=1e300)
        cache['a'] = 2
        self.clock.now = -3.9e9
        cache.put('b', 3, ttl=8.9e9)
        cache.put('c', 3, ttl=1e18)
        self.clock.now = 3.9e9
        self.assertEqual([cache.hit(key) for key in 'abc'], [2, 3, 3])


if __name__ == '__main__':
    unittest.main()
