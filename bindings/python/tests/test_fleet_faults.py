"""What goes wrong with fleets before a PostgreSQL and a Redis, and what it leaves."""
import os
import signal
import subprocess
import sys
import threading
import time
import unittest
from unittest import mock

import cadwrelch

from . import engines, fleets
from .engines import until

if engines.Postgres.missing() is None:
    import psycopg2

    from cadwrelch.fleet import decoding

BEAT, PATIENCE = 0.1, 0.4


class OfAll:
    """What holds for each engine."""

    def test_an_instance_that_is_killed(self):
        """In the middle of its work. The others go on, also at its keys, and the server keeps nothing of it."""
        self.write(a='0', b='0')
        (one, made), (two, _) = self.make(), self.make()
        before = self.listeners()
        process = subprocess.Popen([sys.executable, '-m', 'tests.fleet_instance', type(self).__name__, self.address(), 'a', 'b'],
                                   stdout=subprocess.PIPE, env={**os.environ, 'PYTHONPATH': os.pathsep.join(sys.path)})
        self.addCleanup(process.stdout.close)
        try:
            self.assertEqual(process.stdout.readline(), b'live\n')
            self.assertEqual(len(self.listeners() - before), len(before) // 2)
            until(lambda: min(int(one.get('a')), int(two.get('b'))) > 10)
        finally:
            process.send_signal(signal.SIGKILL)
            process.wait(60)
        until(lambda: self.listeners() == before)
        self.assertTrue(made.catch_up(60))
        self.assertEqual(one.get_many('ab'), {'a': self.stored('a'), 'b': self.stored('b')})
        one.put('a', 'mine')
        self.sees(two, a='mine')
        self.assertEqual(made.stats()['lost'], 0)

    def test_a_connection_that_ends(self):
        states = []
        cache, made = self.make(on_state=states.append)
        self.write(a='1')
        cache.get('a')
        with self.assertLogs('cadwrelch.fleet'):
            self.end_listeners()
            until(lambda: states[-2:] == ['suspended', 'live'])
        self.write(a='2')
        self.sees(cache, a='2')
        self.assertEqual(made.stats()['lost'], 1)

    def test_an_engine_that_is_restarted(self):
        for way in ('fast', 'immediate'):
            states = []
            cache, made = self.make(on_state=states.append, retry=0.05)
            self.write(a='1')
            cache.get('a')
            with self.assertLogs('cadwrelch.fleet'):
                self.running.stop(way)
                until(lambda: states == ['live', 'suspended'])
                with self.assertRaises(cadwrelch.LoaderError):
                    cache.get('a')
                self.assertFalse(made.is_live)
                self.running.begin()
                self.assertTrue(made.wait_until_live(60))
            self.reconnect()
            self.assertEqual(cache.get('a'), self.stored('a'))
            self.write(a='2')
            self.sees(cache, a='2')
            made.close()

    def test_a_silent_connection(self):
        """The oldest answer. A machine that does much else is too late with all that it does: then it is tried again."""
        ages = []
        while not ages or ages[-1] > BEAT + PATIENCE + 0.2:
            self.assertLess(len(ages), 20, ages)
            ages.append(self.oldest())

    def oldest(self):
        """How old the answers get while a connection says nothing."""
        proxy, store = self.proxy(), self.store()
        cache, made = self.make(store, self.told(store, self.listener(proxy)), beat=BEAT, patience=PATIENCE)
        self.write(a='1')
        cache.get('a')
        made.catch_up(60)
        with self.assertLogs('cadwrelch.fleet'):
            cache.get('a')
            proxy.flow.clear()
            self.write(a='2')
            wrote = began = last = time.monotonic()
            while cache.get('a') == '1':
                last, began = began, time.monotonic()
                self.assertLess(began, wrote + 60)
            until(lambda: made.state == 'suspended')
        self.assertEqual((cache.get('a'), len(cache)), ('2', 0))
        proxy.cut()
        self.assertTrue(made.wait_until_live(60))
        self.write(a='3')
        self.sees(cache, a='3')
        made.close()
        return last - wrote

    def test_a_write_whose_reply_is_lost(self):
        """It fails, and the store has it: the old value isn't answered."""
        proxy = self.proxy()
        self.write(a='1')
        store = self.store(proxy)
        cache, _ = self.make(store, self.skipping(store))
        self.assertEqual(cache.get('a'), '1')
        is_connected, may_put = threading.Event(), threading.Event()

        def work():
            store.load('b')
            is_connected.set()
            may_put.wait(60)
            self.assertRaises(cadwrelch.WriterError, cache.put, 'a', '2')

        put = threading.Thread(target=work)
        put.start()
        is_connected.wait(60)
        proxy.flow.clear()
        may_put.set()
        until(lambda: self.stored('a') == '2')
        proxy.cut()
        put.join(60)
        self.assertEqual(cache.get('a'), '2')

    def test_a_flood(self):
        """So many changes at a time are worked off, or all is forgotten and it begins anew."""
        keys = ['k1', 'k50000', 'k100000']
        self.flood(100_000, '1')
        cache, made = self.make()
        self.assertEqual(cache.get_many(keys), dict.fromkeys(keys, '1'))
        self.flood(100_000, '2')
        self.sees(cache, **dict.fromkeys(keys, '2'))
        self.assertTrue(made.catch_up(60))
        self.write(k1='3')
        self.sees(cache, k1='3', k100000='2')

    def test_a_transaction_of_many_keys(self):
        keys = [f'k{number}' for number in range(3000)]
        self.write_together(keys, '1')
        cache, made = self.make()
        cache.get_many(keys)
        self.write_together(keys, '2')
        self.assertTrue(made.catch_up(60))
        self.assertEqual(cache.get_many(keys), dict.fromkeys(keys, '2'))


class OfTables(OfAll):
    """What holds for both ways of PostgreSQL."""

    def address(self):
        return self.running.dsn

    def listeners(self):
        return {pid for pid, in self.sql("select pid from pg_stat_activity where application_name = 'cadwrelch-fleet'")}

    def test_a_cascade(self):
        """Keys of another table, and triggers of somebody else."""
        heard = []
        self.sql('create table others (key text primary key); insert into others select chr(96 + g) from generate_series(1, 5) g')
        self.sql('insert into pages select key, key from others; alter table pages add foreign key (key) references others on delete cascade '
                 'on update cascade')
        self.sql("create or replace function also() returns trigger language plpgsql as $$ begin update pages set value = 'too' where key = 'e'; "
                 "return null; end $$; create trigger also after update on pages for each row when (new.key = 'd') execute function also()")
        cache, made = self.make(on_told=heard.extend)
        for sql, told in (("delete from others where key = 'a'", ['a']), ("update others set key = 'z' where key = 'b'", ['b', 'z']),
                          ("update pages set value = 'x' where key = 'd'", ['d', 'e'])):
            heard.clear()
            cache.get_many('abcdez')
            self.sql(sql)
            self.assertTrue(made.catch_up(60))
            self.assertEqual(sorted(heard), told, sql)
        self.assertEqual(cache.get_many('abcdez'), {'c': 'c', 'd': 'x', 'e': 'too', 'z': 'b'})


class Postgres(OfTables, fleets.Postgres, unittest.TestCase):
    pass


class Decoding(OfTables, fleets.Decoding, unittest.TestCase):
    def test_a_slot_keeps_nothing(self):
        """It ends with its instance, and the server may forget the log that was read."""
        _, made = self.make()
        self.make()[1].close()
        until(lambda: len(self.slots()) == 1)
        (_, before), = self.slots()
        self.write(a='1')
        (after,), = self.sql('select pg_current_wal_lsn()')
        until(lambda: self.sql('select confirmed_flush_lsn >= %s from pg_replication_slots', after) == [(True,)])
        self.assertEqual((self.sql('select %s::pg_lsn < %s', before, after), made.stats()['lost']), ([(True,)], 0))
        made.close()
        until(lambda: self.slots() == [])

    def test_an_instance_that_does_not_read(self):
        """The server ends its slot, and keeps no log for it."""
        source = self.store().decoded()
        self.addCleanup(source.close)
        with mock.patch.object(decoding, 'UNREAD_MILLIS', 500):
            source.open(60)
        self.assertEqual(len(self.slots()), 1)
        until(lambda: self.slots() == [])
        with self.assertRaises(psycopg2.Error):
            while True:
                source.wait(60)

    def slots(self):
        return self.sql("select slot_name, confirmed_flush_lsn from pg_replication_slots where slot_name like 'cadwrelch%'")


class Redis(OfAll, fleets.Redis, unittest.TestCase):
    def address(self):
        return self.running.socket

    def listeners(self):
        return {each['id'] for each in self.client.client_list(_type='pubsub')}

    def test_changes_that_are_no_writes_of_a_client(self):
        heard = []
        cache, made = self.make(on_told=heard.extend)
        for change, told in ((lambda: self.client.pexpireat('v:a', 1), {'a': None}), (lambda: self.client.rename('v:b', 'v:a'), {'a': '0', 'b': None}),
                             (lambda: self.client.eval("redis.call('set', 'v:c', 'x')", 0), {'c': 'x'}),
                             (lambda: self.client.copy('v:c', 'v:b', replace=True), {'b': '0'}), (lambda: self.client.swapdb(0, 1), {})):
            self.client.mset(dict.fromkeys(('v:a', 'v:b', 'v:c'), '0'))
            made.catch_up(60)
            self.assertEqual(cache.get_many('abc'), dict.fromkeys('abc', '0'))
            heard.clear()
            change()
            self.assertTrue(made.catch_up(60))
            self.assertEqual((sorted(set(heard)), {key: cache.get(key) for key in told}), (sorted(told), told))
        # What isn't told.
        self.assertEqual((cache.get('a'), self.stored('a')), ('0', None))


if __name__ == '__main__':
    unittest.main()
