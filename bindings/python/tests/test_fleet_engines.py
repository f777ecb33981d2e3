"""Fleets before a PostgreSQL and a Redis, which the tests start. Without an engine, or its driver, its tests are left out, with a line.

    FLEET_SECONDS=3600 python3 -m unittest tests.test_fleet_engines.Decoding.test_the_rules_hold

has the checker (fleet_checker) work for so long, in place of Decoding also before Postgres or Redis, on a part of a processor, and prints
what it counted. All listening connections are ended every 20 seconds meanwhile.
"""
import contextlib
import importlib.resources
import io
import logging
import os
import re
import threading
import time
import unittest
from unittest import mock

import cadwrelch
from cadwrelch import fleet

from . import engines, fleets
from .engines import until
from .fleet_checker import A, B, Checker
from .fleets import SOURCES

if engines.Postgres.missing() is None:
    import psycopg2

    from cadwrelch.fleet import decoding, postgres
if engines.Redis.missing() is None:
    from cadwrelch.fleet import redis

PAGE = os.path.join(SOURCES, '..', '..', 'docs', 'FLEET.md')
LONG = float(os.environ.get('FLEET_SECONDS', 0))


class OfAll:
    """What holds for each engine."""

    def page(self, pattern, *replaced):
        """What the examples of the page print that have such lines, one after the other."""
        if not os.path.isfile(PAGE):
            self.skipTest('there is no docs/FLEET.md')
        with open(PAGE, encoding='utf-8') as file:
            blocks = [block for block in re.findall(r'```python\n(.*?)```', file.read(), re.DOTALL) if re.search(pattern, block, re.DOTALL)]
        names, printed = {}, io.StringIO()
        for block in blocks:
            for old, new in replaced:
                block = block.replace(old, new)
            with contextlib.redirect_stdout(printed):
                exec(block, names)
        self.assertTrue(blocks)
        return printed.getvalue().splitlines()

    def test_what_others_write_is_seen(self):
        (one, _), (two, _) = self.make(), self.make()
        self.write(a='1', b='2')
        self.assertEqual((one.get_many('abc'), two.get('a')), ({'a': '1', 'b': '2'}, '1'))
        self.write(a='3')
        self.sees(one, a='3')
        self.sees(two, a='3')
        one.put('a', '4')
        self.sees(two, a='4')
        one.put_many({'a': '5', 'b': '6'})
        self.sees(two, a='5', b='6')
        one.remove('a')
        self.sees(two, a=None, b='6')
        self.clear()
        self.sees(two, a=None, b=None)
        self.assertTrue(one._agrees() and two._agrees())

    def test_what_was_written_before_it_heard_is_seen(self):
        store = self.store()
        cache = cadwrelch.Cache(loader=store)
        self.write(a='1')
        cache.get('a')
        self.write(a='2')
        self.assertEqual(cache.get('a'), '1')
        with fleet.Fleet(cache, self.told(store)) as made:
            self.assertEqual((made.state, cache.get('a')), ('live', '2'))

    def test_catch_up(self):
        cache, made = self.make()
        for number in range(30):
            self.write(a=str(number))
            self.assertTrue(made.catch_up(60))
            self.assertEqual(cache.get('a'), str(number))

    def test_no_increment_is_lost(self):
        self.write(a='0')
        caches = [self.make(self.comparing())[0] for _ in range(2)]

        def add(entry):
            entry.value = entry.value.but(str(int(entry.value.value) + 1))

        def work(cache):
            for _ in range(50):
                fleet.invoke(cache, 'a', add)

        threads = [threading.Thread(target=work, args=(cache,)) for cache in caches for _ in range(2)]
        for thread in threads:
            thread.start()
        for _ in range(50):
            self.increment('a')
        for thread in threads:
            thread.join(60)
        self.assertEqual(self.stored('a'), '250')

    def test_the_rules_hold(self):
        if LONG:
            logging.disable()
            self.addCleanup(logging.disable, logging.NOTSET)
            broken, counts = Checker(self, pause=0.025, cuts=20).run(LONG)
            print(f'{type(self).__name__}, {LONG:.0f} s: {counts}, broken: {broken}', flush=True)
            self.assertEqual(broken, {})
            return
        gets = 0
        for seconds in (3, 6, 12):
            with self.assertLogs('cadwrelch.fleet'):
                broken, counts = Checker(self, cuts=1).run(seconds)
            self.assertEqual(broken, {})
            gets += counts['gets']
            if gets > 100:
                break

    def breaks(self, rule, told):
        """The judge sees what it is there for, however slow the machine is."""
        seen = {}
        for seconds in (1, 3, 9, 27):
            seen.update(Checker(self, told=told).run(seconds)[0])
            if rule in seen:
                return
        self.fail(f'not seen to be broken: {rule}, but {seen}')

    def test_the_rules_are_broken_without_announcements(self):
        self.breaks(A, lambda cache, key: None)


class OfTables(OfAll):
    """What holds for both ways of PostgreSQL."""

    def heard(self, made, heard, sql):
        """What is told of a statement."""
        self.assertTrue(made.catch_up(60))
        heard.clear()
        self.sql(sql)
        self.assertTrue(made.catch_up(60))
        return sorted((key for keys in heard for key in keys), key=str)

    def test_the_rules_are_broken_if_busy_keys_are_skipped(self):
        def drop(cache, key):
            call = cache._begin(cadwrelch._core.CLEAR_KEY, key)
            assert not isinstance(call, cadwrelch._core.Call)

        self.breaks(B, drop)

    def test_rows(self):
        cache, _ = self.make(self.comparing())
        self.write(a='1', b='1')
        a, b = cache.get('a'), cache.get('b')
        self.write(b='theirs')
        with self.assertRaises(cadwrelch.BulkError) as caught:
            cache.put_many({'a': a.but('2'), 'b': b.but('2')})
        self.assertEqual((sorted(caught.exception.failed), self.stored('a'), self.stored('b')), (['a', 'b'], '1', 'theirs'))
        self.assertIsInstance(caught.exception.__cause__, fleet.Conflict)
        self.assertEqual(cache.get('b').value, 'theirs')
        cache['n'] = postgres.Row('1', postgres.Row.NEW)
        with self.assertRaises(cadwrelch.WriterError):
            cache['n'] = postgres.Row('2', postgres.Row.NEW)
        self.assertEqual(cache['n'].value, '1')

    def refused(self, told, dsn=None, patience=30, **words):
        store = postgres.PostgresStore(dsn or self.running.dsn, words.pop('table', 'pages'), **words)
        cache = cadwrelch.Cache(loader=store)
        with self.assertRaisesRegex(fleet.FleetError, told):
            fleet.Fleet(cache, self.told(store), patience=patience)
        self.assertTrue(cache.suspended)
        return store

    def guest(self):
        """A user who may do nothing."""
        self.sql('drop role if exists guest; create role guest login')
        self.addCleanup(self.sql, 'drop owned by guest; drop role guest')
        return self.running.dsn.replace('user=fleet', 'user=guest')

    def test_the_table_that_has_to_be_there(self):
        store = self.refused('there is no table missing in the database', table='missing')
        self.assertRaisesRegex(fleet.FleetError, "of the table missing can't be made: there is no such table", self.install, store)
        self.refused('the table pages has no column id, but key, value', key='id')
        self.write(a='1')
        self.refused("the key 'a' of the table pages can't be read", parse=int)
        for kind, sample, told in (('int', '1', "1 of the table others is announced as '1': .* as parse=int"), ('char(3)', "'x'", "'x  ' .* as 'x'")):
            self.sql(f'drop table if exists others; create table others (key {kind} primary key, value text)')
            for change in ('', f'insert into others values ({sample}, null)'):
                self.sql(change) if change else None
                store = postgres.PostgresStore(self.running.dsn, 'others')
                self.install(store)
                self.refused('the key ' + (told if change or kind == 'int' else told.replace('x', '1')), table='others')
        self.sql('drop table others; create table others (key uuid primary key, value text)')
        self.install(postgres.PostgresStore(self.running.dsn, 'others'))
        self.make(postgres.PostgresStore(self.running.dsn, 'others'))
        self.assertRaisesRegex(ValueError, 'its name is too long', postgres.PostgresStore, '', 'x' * 60)

    def test_a_key_that_can_not_be_read_is_all(self):
        def parse(text):
            if text == 'x':
                raise ValueError
            return text

        heard = []
        with self.assertLogs('cadwrelch.fleet'):
            _, made = self.make(self.store(parse=parse), on_told=heard.extend)
            self.write(x='1', b='2')
            made.catch_up(60)
        self.assertEqual(heard, [fleet.ALL, 'b'])

    def test_keys_of_another_type_and_names_that_are_quoted(self):
        self.sql("""drop table if exists "odd ""% table"; create table "odd ""% table" (note text, "the 'key" int primary key, value text)""")
        store = postgres.PostgresStore(self.running.dsn, 'odd "% table', key="the 'key", parse=int)
        self.install(store)
        heard = []
        cache, made = self.make(store, on_told=heard.append)
        cache.put(7, 'seven')
        self.assertEqual((self.heard(made, heard, 'update "odd ""% table" set value = \'8\', note = \'it\''), cache.get(7)), ([7], '8'))
        self.sql('drop table "odd ""% table"')


class Postgres(OfTables, fleets.Postgres, unittest.TestCase):
    def test_the_triggers_are_those_of_java(self):
        java = os.path.join(SOURCES, '..', 'java', 'fleet', 'src', 'cadwrelch', 'fleet', 'triggers.sql')
        if not os.path.isfile(java):
            self.skipTest('there are no sources of Java')
        with open(java, encoding='utf-8') as file:
            self.assertEqual(importlib.resources.files('cadwrelch.fleet').joinpath('triggers.sql').read_text(), file.read())

    def test_the_page(self):
        self.write(visits='41')
        printed = self.page(r'PostgresStore\((?!.*decoded)', ("'dbname=shop'", repr(self.running.dsn)))
        self.assertEqual((sorted(printed), self.stored('home'), self.stored('visits')), (["['home']", 'text'], 'text', '42'))

    def test_statements_of_many_rows(self):
        heard = []
        _, made = self.make(on_told=heard.append)
        for sql, told in (("insert into pages select 'k' || g, '' from generate_series(1, 1000) g", 1000),
                          ("update pages set value = 'x'", 1000), ("insert into pages values ('z', '')", 1),
                          ("update pages set value = 'y'", fleet.ALL), ("update pages set key = 'y' where key = 'z'", 2),
                          ('delete from pages', fleet.ALL), ("insert into pages values (repeat('k', 2000), '')", 1), ('truncate pages', fleet.ALL)):
            keys = self.heard(made, heard, sql)
            self.assertEqual(keys if told is fleet.ALL else len(keys), [fleet.ALL] if told is fleet.ALL else told, sql)

    def test_what_is_told_and_what_is_not(self):
        heard = []
        _, made = self.make(on_told=heard.append)
        for sql, told in (("copy pages from program 'printf \"c\\t1\\n\"'", ['c']),
                          ("do $$ begin begin insert into pages values ('r', ''); raise 'no'; exception when raise_exception then end; end $$", []),
                          ("set session_replication_role = replica; insert into pages values ('s', ''); reset session_replication_role", ['s']),
                          ("alter table pages disable trigger all; insert into pages values ('d', ''); "
                           'alter table pages enable always trigger cadwrelch_insert', [])):
            self.assertEqual(self.heard(made, heard, sql), told, sql)
        with self.assertRaises(psycopg2.Error):
            self.sql("begin; insert into pages values ('p', ''); prepare transaction 'two phases'")
        self.sql('rollback')

    def test_own_changes(self):
        for skips, told in ((False, ['a', 'b']), (True, [])):
            heard, store = [], self.store()
            cache, made = self.make(store, store.announcements(skips_own=skips), on_told=heard.append)
            cache.put('a', '1')
            cache.put('b', '1')
            made.catch_up(60)
            self.assertEqual(([key for keys in heard for key in keys], sorted(cache.keys())), (told, [] if told else ['a', 'b']))

    def test_what_has_to_be_so(self):
        self.sql('create table others (key text primary key, value text)')
        store = self.refused("the table others doesn't announce its changes", table='others')
        store.install()
        self.sql('alter table others disable trigger cadwrelch_update')
        self.refused("the table others doesn't announce its changes", table='others')
        store = self.refused('the user may not read the table pages: grant select on it to that user', self.guest())
        self.assertRaisesRegex(fleet.FleetError, 'the user has to own the table', store.install)
        # Announcements of another database don't come, as those through a pooler of transactions don't.
        connect = psycopg2.connect
        with mock.patch.object(postgres.psycopg2, 'connect', lambda dsn, **words: connect(dsn, **words) if 'async_' in words else
                               connect(dsn.replace('dbname=postgres', 'dbname=template1'), **words)):
            self.refused('what is announced doesn\'t come .* it goes through a pooler of transactions', patience=0.5)


class Decoding(OfTables, fleets.Decoding, unittest.TestCase):
    def test_the_page(self):
        printed = self.page('decoded', ("'dbname=shop'", repr(self.running.dsn)))
        self.assertIn('text', printed)
        self.assertEqual(self.stored('home'), 'text')

    def test_statements_of_many_rows(self):
        heard = []
        _, made = self.make(on_told=heard.append)
        for sql, told in (("insert into pages select 'k' || g, '' from generate_series(1, 1000) g", 1000), ("update pages set value = 'x'", 1000),
                          ("insert into pages values ('z', '')", 1), ("update pages set value = 'y'", fleet.ALL),
                          ("update pages set key = 'y' where key = 'z'", 2), ('delete from pages', fleet.ALL), ('truncate pages', fleet.ALL)):
            keys = self.heard(made, heard, sql)
            self.assertEqual(keys if told is fleet.ALL else len(keys), [fleet.ALL] if told is fleet.ALL else told, sql)

    def test_a_key_that_is_stored_apart(self):
        """An update that leaves such a key has it nowhere but in the row before."""
        self.sql('alter table pages alter key set storage external, alter value set storage plain')
        heard = []
        _, made = self.make(on_told=heard.append)
        for sql in ("insert into pages values (repeat('k', 2500), repeat('v', 1000))", "update pages set value = 'x'", 'delete from pages'):
            self.assertEqual(self.heard(made, heard, sql), ['k' * 2500], sql)

    def test_what_is_told_and_what_is_not(self):
        heard = []
        self.sql('create table others (key text primary key)')
        _, made = self.make(on_told=heard.append)
        for sql, told in (("copy pages from program 'printf \"c\\t1\\n\"'", ['c']),
                          ("do $$ begin begin insert into pages values ('r', ''); raise 'no'; exception when raise_exception then end; end $$", []),
                          ("do $$ begin begin insert into pages values ('n', ''); exception when raise_exception then end; end $$", ['n']),
                          ("set session_replication_role = replica; insert into pages values ('s', ''); reset session_replication_role", ['s']),
                          ("alter table pages disable trigger all; insert into pages values ('d', '')", ['d']),
                          ("insert into others values ('x')", []),
                          ("update pages set key = 'e' where key = 'd'; alter table pages replica identity full", ['d', 'e']),
                          ("update pages set key = 'f' where key = 'e'; delete from pages where key = 'f'", ['e', 'f']),
                          ("alter table pages add column more int; insert into pages values ('m', '', 1)", ['m']),
                          ("set synchronous_commit = off; insert into pages values ('o', ''); reset synchronous_commit", ['o'])):
            self.assertEqual(self.heard(made, heard, sql), told, sql)

    def test_two_phases(self):
        heard = []
        cache, made = self.make(on_told=heard.append)
        self.write(p='1')
        cache.get('p')
        self.assertEqual(self.heard(made, heard, "begin; update pages set value = '2'; savepoint s; insert into pages values ('q', ''); "
                                                 "prepare transaction 'two phases'"), [])
        self.assertEqual(cache.get('p'), '1')
        self.assertEqual((self.heard(made, heard, "commit prepared 'two phases'"), cache.get('p')), (['p', 'q'], '2'))

    def unseen(self, key, value):
        """A commit that is flushed, and that nobody sees until the thread is let go: it waits for a standby that there isn't."""
        def set_standbys(name):
            self.sql(f"alter system set synchronous_standby_names = '{name}'")
            self.sql('select pg_reload_conf()')
            with contextlib.closing(psycopg2.connect(self.running.dsn)) as other, other.cursor() as cursor:
                until(lambda: cursor.execute('show synchronous_standby_names') or cursor.fetchone()[0] == name)

        def work():
            with contextlib.closing(psycopg2.connect(self.running.dsn)) as other, other, other.cursor() as cursor:
                cursor.execute('set synchronous_commit = on; update pages set value = %s where key = %s', (value, key))

        self.sql('set synchronous_commit = local')
        set_standbys('nobody')
        thread = threading.Thread(target=work)
        thread.start()
        until(lambda: self.sql("select 1 from pg_stat_activity where wait_event = 'SyncRep'"))

        def let_go():
            set_standbys('')
            thread.join(60)

        self.addCleanup(let_go)
        return let_go

    def test_a_change_is_told_once_it_is_seen(self):
        heard = []
        self.write(a='1', b='1')
        cache, _ = self.make(patience=60, on_told=heard.append)
        cache.get_many('ab')
        let_go = self.unseen('a', '2')
        self.write(b='2')
        # The change is decoded, and waits.
        until(lambda: len(self.source._waiting) >= 2)
        self.assertEqual((cache.get('a'), cache.get('b'), heard), ('1', '1', []))
        let_go()
        self.sees(cache, a='2', b='2')
        self.assertEqual([key for keys in heard for key in keys], ['a', 'b'])

    def test_a_change_that_is_told_too_early_breaks_the_rule(self):
        """The control of the test before."""
        heard = []
        self.write(a='1')
        with mock.patch.object(decoding._Snapshot, 'sees', lambda snapshot, number: True):
            cache, made = self.make(patience=60, on_told=heard.append)
            cache.get('a')
            let_go = self.unseen('a', '2')
            until(lambda: heard)
            self.assertEqual(cache.get('a'), '1')
            let_go()
            self.assertTrue(made.catch_up(60))
        self.assertEqual((cache.get('a'), self.stored('a')), ('1', '2'))

    def test_what_is_committed_as_it_begins_is_seen(self):
        """A commit that is in the log before the slot begins isn't told: nothing is read until all see it."""
        self.write(a='1')
        let_go = self.unseen('a', '2')
        store = self.store()
        cache = cadwrelch.Cache(loader=store)
        with self.assertLogs('cadwrelch.fleet'):
            made = fleet.Fleet(cache, self.told(store), patience=0.5)
        self.addCleanup(made.close)
        self.assertEqual((made.state, cache.get('a'), len(cache)), ('suspended', '1', 0))
        self.assertRegex(str(made.error), "hasn't ended yet")
        let_go()
        self.assertTrue(made.wait_until_live(60))
        self.assertEqual((cache.get('a'), cache.hit('a')), ('2', '2'))

    def test_numbers_of_transactions(self):
        def seen(text, *numbers):
            snapshot = decoding._Snapshot(text)
            return [snapshot.sees(number) for number in numbers]

        self.assertEqual(seen('10:20:10,15', 9, 10, 14, 15, 19, 20, 21), [True, False, True, False, True, False, False])
        self.assertEqual(seen('10:10:', 9, 10, 11), [True, False, False])
        source = decoding.DecodedAnnouncements(self.store(), self.running.dsn)
        snapshots = ['10:20:10,15', '15:30:15,25', '20:31:20,25', 'no more']
        source._ask, source._end = lambda query: [snapshots.pop(0)], time.monotonic() + 60
        source._await_ended()
        self.assertEqual(snapshots, ['no more'])
        # The lower half begins anew.
        first = 3 << 32
        self.assertEqual(seen(f'{first - 5}:{first + 5}:{first - 5},{first + 1}', 2**32 - 6, 2**32 - 5, 2**32 - 4, 0, 1, 4, 5),
                         [True, False, True, True, False, True, False])

    def test_what_has_to_be_so(self):
        self.sql('create table others (key text primary key, value text); create unlogged table pages_unlogged (key text primary key, value text)')
        self.addCleanup(self.sql, 'drop table pages_unlogged')
        self.refused("the table others isn't published", table='others')
        self.refused("pages_unlogged isn't an ordinary table", table='pages_unlogged')
        self.sql("alter publication cadwrelch_pages set (publish = 'insert, update')")
        self.refused("the table pages isn't published, or not with all its changes: publish\\(\\) does that")
        self.store().publish()
        self.sql('alter table pages add column id int unique; alter table pages replica identity nothing')
        for change in ('alter table pages drop constraint pages_pkey', 'alter table pages alter id set not null',
                       'alter table pages replica identity using index pages_id_key'):
            store = self.refused('the table pages has no replica identity that has the column key: it needs that as its primary key')
            self.assertRaisesRegex(fleet.FleetError, 'the table pages has no replica identity', store.publish)
            self.sql(change)
        self.sql('alter table pages replica identity full')
        store = self.refused('the user may not read the table pages', self.guest())
        self.assertRaisesRegex(fleet.FleetError, 'the user has to own the table', store.publish)
        self.sql('grant select on pages to guest')
        self.refused('the user may not replicate: alter role .. replication', self.running.dsn.replace('user=fleet', 'user=guest'))

    def test_a_server_that_is_not_set_up(self):
        other = self.engine('wal_level=replica')
        self.addCleanup(other.end)
        self.connection.close()
        self.connection = psycopg2.connect(other.dsn)
        self.connection.autocommit = True
        self.sql('create table pages (key text primary key, value text)')
        self.refused('wal_level is replica, and has to be logical', other.dsn)
        other.stop()
        other.begin('wal_level=logical', 'max_replication_slots=1', 'max_wal_senders=2')
        self.connection = psycopg2.connect(other.dsn)
        self.connection.autocommit = True
        store = postgres.PostgresStore(other.dsn, 'pages')
        store.publish()
        with fleet.Fleet(cadwrelch.Cache(loader=store), store.decoded()) as made:
            self.assertTrue(made.is_live)
            self.refused('no slot is free: max_replication_slots has to be more', other.dsn)
        other.stop()
        other.begin('wal_level=logical', 'max_replication_slots=2', 'max_wal_senders=1')
        with fleet.Fleet(cadwrelch.Cache(loader=store), store.decoded()) as made:
            self.assertTrue(made.is_live)
            self.refused('no sender of the log is free: max_wal_senders has to be more', other.dsn)

    def test_a_transaction_that_is_open(self):
        """There is no slot before it ends; no attempt stays behind in the server."""
        self.sql("begin; insert into pages values ('a', '1')")
        store = self.store()
        with self.assertLogs('cadwrelch.fleet'):
            made = fleet.Fleet(cadwrelch.Cache(loader=store), self.told(store), patience=0.5, retry=0.05)
            self.addCleanup(made.close)
            self.assertEqual((made.state, str(made.error)), ('suspended', "a transaction that has written, in any database of the server, hasn't "
                                                             'ended yet: until then there is no slot'))
        self.sql('commit')
        self.assertTrue(made.wait_until_live(60))
        self.assertEqual(self.sql("select count(*) from pg_stat_activity where application_name = 'cadwrelch-fleet'"), [(2,)])


class Redis(OfAll, fleets.Redis, unittest.TestCase):
    # A busy key that is skipped is told once more by a later write, and several writes are told as one: b can't be counted here.

    def test_the_page(self):
        printed = self.page(r'RedisStore\(redis', ('redis.Redis()', f'redis.Redis(unix_socket_path={self.running.socket!r})'))
        self.assertIn('text', printed)
        self.assertEqual(self.client.get('pages:home'), b'text')

    def test_reads(self):
        cache, _ = self.make(self.comparing())
        self.write(a='1', b='1')
        a, b = cache.get('a'), cache.get('b')
        self.write(b='theirs')
        with self.assertRaises(cadwrelch.BulkError) as caught:
            cache.put_many({'a': a.but('2'), 'b': b.but('2')})
        self.assertEqual((caught.exception.failed, self.stored('a'), self.stored('b'), cache.get('b').value), (['b'], '2', 'theirs', 'theirs'))
        cache['n'] = redis.Read('1', b'')
        with self.assertRaises(cadwrelch.WriterError):
            cache['n'] = redis.Read('2', b'')

    def test_what_has_to_be_so(self):
        self.client.execute_command('ACL', 'SETUSER', 'guest', 'on', 'nopass', '~*', '+get', '+ping')
        self.addCleanup(self.client.execute_command, 'ACL', 'DELUSER', 'guest')
        store = redis.RedisStore(self.running.client(username='guest', password='x'), 'v:')
        with self.assertRaisesRegex(fleet.FleetError, r'the user may not do what a fleet needs .*\+client\|tracking'):
            fleet.Fleet(cadwrelch.Cache(loader=store), store.announcements())
        other = self.engine()
        self.addCleanup(other.end)
        other.client().execute_command('REPLICAOF', '127.0.0.1', '1')
        store = redis.RedisStore(other.client(), 'v:')
        with self.assertRaisesRegex(fleet.FleetError, 'the server is a replica'):
            fleet.Fleet(cadwrelch.Cache(loader=store), store.announcements())


if __name__ == '__main__':
    unittest.main()
