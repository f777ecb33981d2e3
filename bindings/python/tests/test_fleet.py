"""A fleet without an engine: when it keeps what, and whom it tells."""
import asyncio
import threading
import unittest

import cadwrelch
from cadwrelch import fleet
from cadwrelch.fleet import ALL

from .engines import until


class Told(fleet.Announcements):
    """Announcements by hand."""

    def __init__(self):
        super().__init__()
        self.lock, self.keys, self.log = threading.Lock(), [], []
        self.refuses = self.answers = None
        self.is_silent = self.is_asked = self.is_cut = False

    def open(self, patience):
        self.log.append('open')
        if self.refuses is not None:
            raise self.refuses
        self.is_cut = self.is_asked = False

    def tell(self, *keys):
        with self.lock:
            self.keys += keys
        self.wake()

    def wait(self, seconds):
        if not self.keys:
            self._is_ready(seconds)
        if self.is_cut:
            raise ConnectionError('cut')
        with self.lock:
            told, self.keys = self.keys, []
        if self.is_asked and not self.is_silent:
            self.is_asked = False
        return told

    def probe(self):
        self.log.append('probe')
        self.is_asked = True
        self.wake()

    def is_answered(self):
        return not self.is_asked

    def close(self):
        self.log.append('close')


class Fleets(unittest.TestCase):
    def setUp(self):
        self.held, self.told, self.states, self.heard = {'a': 1, 'b': 2}, Told(), [], []
        self.cache = cadwrelch.Cache(loader=self.held.get, name='pages')

    def make(self, **words):
        words = {'beat': 0.05, 'patience': 5, 'retry': 0.02, 'on_state': self.states.append, 'on_told': self.heard.append, **words}
        made = fleet.Fleet(self.cache, self.told, **words)
        self.addCleanup(made.close)
        return made

    def test_what_is_told_is_forgotten(self):
        self.cache.get('a')
        self.held['a'] = 3
        made = self.make()
        self.assertEqual((self.cache.get('a'), made.is_live, made.state, made.error), (3, True, 'live', None))
        self.cache.get('b')
        self.held['a'] = 4
        self.told.tell('a', 'a', 'z')
        until(lambda: self.heard)
        self.assertEqual((self.cache.keys(), self.cache.get('a'), self.heard), (['b'], 4, [['a', 'a', 'z']]))
        self.told.tell(ALL)
        until(lambda: len(self.heard) == 2)
        self.assertEqual(self.cache.keys(), [])
        self.cache.get('a')
        made.close()
        self.assertEqual((self.cache.keys(), self.cache.get('a'), len(self.cache), self.states), ([], 4, 0, ['live', 'closed']))
        counts = made.stats()
        self.assertEqual([counts[name] for name in ('told', 'all', 'connections', 'lost', 'state')], [4, 1, 1, 0, 'closed'])
        self.assertTrue(made.catch_up(10))

    def test_a_lost_connection(self):
        made = self.make()
        self.cache.get('a')
        self.told.refuses = ConnectionError('down')
        with self.assertLogs('cadwrelch.fleet'):
            self.told.is_cut = True
            self.told.wake()
            until(lambda: self.states == ['live', 'suspended'])
        self.assertEqual((self.cache.get('a'), self.cache.keys(), self.cache.suspended, made.is_live), (1, [], True, False))
        until(lambda: str(made.error) == 'down')
        self.assertFalse(made.wait_until_live(0.01))
        self.told.refuses = None
        self.assertTrue(made.wait_until_live(60))
        self.cache.get('a')
        self.assertEqual((self.cache.keys(), made.error, made.stats()['connections']), (['a'], None, 2))

    def test_silence(self):
        made = self.make(patience=0.2)
        self.cache.get('a')
        until(lambda: made.stats()['answer_time'] is not None)
        self.told.is_silent = True
        with self.assertLogs('cadwrelch.fleet') as logs:
            until(lambda: 'suspended' in self.states)
        self.assertIn('the cache pages hears of no changes: no answer for 0.2 seconds', logs.output[0])
        self.told.is_silent = False
        self.assertTrue(made.wait_until_live(60))

    def test_grace(self):
        made = self.make(grace=0.3)
        self.cache.get('a')
        self.told.refuses = ConnectionError('down')
        with self.assertLogs('cadwrelch.fleet'):
            self.told.is_cut = True
            self.told.wake()
            until(lambda: 'lost' in self.states)
        self.held['a'] = 5
        self.assertIn((self.cache.get('a'), made.state), [(1, 'lost'), (5, 'suspended')])
        until(lambda: self.states == ['live', 'lost', 'suspended'])
        self.assertEqual((self.cache.get('a'), made.is_live), (5, False))

    def test_catch_up(self):
        made = self.make(beat=50)
        self.cache.get('a')
        self.assertEqual((made.catch_up(60), self.told.log), (True, ['open', 'probe']))
        self.told.is_silent = True
        self.assertFalse(made.catch_up(0.02))
        self.told.is_silent = False
        self.told.wake()
        self.assertTrue(made.catch_up(60))

    def test_what_is_wrong_is_told_at_once(self):
        self.told.refuses = fleet.FleetError('there is no table pages')
        self.assertRaisesRegex(fleet.FleetError, 'there is no table pages', self.make)
        self.assertEqual((self.cache.suspended, self.cache.get('a'), self.told.log), (True, 1, ['open', 'close']))
        for words, told in (({'beat': 0}, 'beat is 0: it has to be longer than 0'), ({'grace': -1}, 'grace is -1: it has to be')):
            self.assertRaisesRegex(ValueError, told, self.make, **words)

    def test_an_engine_that_can_not_be_reached_at_first(self):
        self.told.refuses = ConnectionError('down')
        with self.assertLogs('cadwrelch.fleet'):
            made = self.make()
        self.assertEqual((made.state, str(made.error), self.cache.get('a'), len(self.cache)), ('suspended', 'down', 1, 0))
        self.told.refuses = None
        self.assertTrue(made.wait_until_live(60))

    def test_listeners_that_fail(self):
        with self.assertLogs('cadwrelch.fleet'):
            made = self.make(on_state=lambda state: 1 / 0, on_told=lambda keys: 1 / 0)
            self.cache.get('a')
            self.told.tell('a')
            until(lambda: len(self.cache) == 0)
        self.assertTrue(made.catch_up(60))

    def test_a_cache_of_coroutines(self):
        async def load(key):
            return self.held.get(key)

        async def main():
            self.assertEqual(await self.cache.get('a'), 1)
            self.held['a'] = 2
            self.told.tell('a')
            while await self.cache.get('a') != 2:
                await asyncio.sleep(0.01)

        self.cache = cadwrelch.AsyncCache(load)
        self.make()
        asyncio.run(asyncio.wait_for(main(), 60))

    def test_invoke_goes_on_after_a_conflict(self):
        conflicts = [fleet.Conflict(), fleet.Conflict()]

        def write(key, value):
            if conflicts:
                cache.invalidate(key)
                raise conflicts.pop()
            self.held[key] = value

        cache = cadwrelch.Cache(loader=self.held.get, writer=write)

        def add(entry, more):
            entry.value += more
            return entry.value

        self.assertEqual((fleet.invoke(cache, 'a', add, 5), self.held['a']), (6, 6))
        conflicts[:] = [fleet.Conflict(), OSError()]
        with self.assertRaises(cadwrelch.WriterError) as caught:
            fleet.invoke(cache, 'a', add, 5)
        self.assertIsInstance(caught.exception.__cause__, OSError)
        conflicts[:] = [fleet.Conflict()] * 3
        self.assertRaises(cadwrelch.WriterError, fleet.invoke, cache, 'a', add, 5, attempts=3)


if __name__ == '__main__':
    unittest.main()
