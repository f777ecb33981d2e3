"""What the tests of fleets have of each engine: instances of a service before it, and others who write."""
import os
import unittest

import cadwrelch
from cadwrelch import fleet

from . import engines
from .engines import until

if engines.Postgres.missing() is None:
    import psycopg2

    from cadwrelch.fleet import postgres
if engines.Redis.missing() is None:
    import redis as driver

    from cadwrelch.fleet import redis

SOURCES = os.environ.get('CADWRELCH_SOURCES', os.path.join(os.path.dirname(os.path.abspath(__file__)), '..'))
_LEFT_OUT = set()


class WithEngine:
    """Each test has a store; make() makes an instance of the service: a cache and its fleet."""

    @classmethod
    def setUpClass(cls):
        missing = cls.engine.missing()
        if missing is not None:
            if cls.engine not in _LEFT_OUT:
                print(f'left out: {cls.engine.__name__} ({missing})')
            _LEFT_OUT.add(cls.engine)
            raise unittest.SkipTest(missing)
        cls.running = cls.engine()
        cls.addClassCleanup(cls.running.end)

    def make(self, store=None, announcements=None, **words):
        """Its patience is endless, unless said: whatever else the machine does, no connection is lost by the way."""
        store, words = store or self.store(), {'patience': 60, **words}
        cache = cadwrelch.Cache(loader=store, writer=store, stripes=1)
        self.source = announcements or self.told(store)
        made = fleet.Fleet(cache, self.source, **words)
        self.addCleanup(made.close)
        self.assertTrue(made.wait_until_live(60), made.error)
        return cache, made

    def proxy(self):
        proxy = engines.Proxy(self.running.socket, self.running.socket.rpartition('/')[2])
        self.addCleanup(proxy.end)
        return proxy

    def sees(self, cache, **wanted):
        """What somebody else has written is told before long."""
        until(lambda: not any(cache.hit(key) not in (None, value) for key, value in wanted.items()))
        self.assertEqual({key: cache.get(key) for key in wanted}, wanted)


class Postgres(WithEngine):
    """A table whose triggers announce."""
    engine = engines.Postgres
    counts_told = True

    def setUp(self):
        self.connection = psycopg2.connect(self.running.dsn)
        self.connection.autocommit = True
        self.addCleanup(self.connection.close)
        self.sql('drop table if exists pages, others; create table pages (key text primary key, value text not null)')
        self.install(self.store())

    def install(self, store):
        store.install()

    def told(self, store, dsn=None):
        """The announcements of a store."""
        return store.announcements(dsn)

    def skipping(self, store):
        """The same without own ones, if there is such a thing."""
        return store.announcements(self.running.dsn, skips_own=True)

    def sql(self, text, *arguments):
        with self.connection.cursor() as cursor:
            cursor.execute(text, arguments or None)
            return cursor.fetchall() if cursor.description else None

    def store(self, proxy=None, **words):
        return postgres.PostgresStore(self.running.dsn if proxy is None else self.listener(proxy), 'pages', **words)

    def comparing(self):
        return self.store(rows=True)

    def listener(self, proxy):
        return f'host={proxy.folder} user=fleet dbname=postgres'

    def write(self, **values):
        for key, value in values.items():
            self.sql('insert into pages values (%s, %s) on conflict (key) do update set value = excluded.value', key, value)

    def write_together(self, keys, value):
        self.sql('begin')
        for key in keys:
            self.sql('insert into pages values (%s, %s) on conflict (key) do update set value = excluded.value', key, value)
        self.sql('commit')

    def flood(self, count, value):
        self.sql("insert into pages select 'k' || g, %s from generate_series(1, %s) g on conflict (key) do update set value = excluded.value", value,
                 count)

    def increment(self, key):
        self.sql('update pages set value = (value::int + 1)::text where key = %s', key)

    def stored(self, key):
        rows = self.sql('select value from pages where key = %s', key)
        return rows[0][0] if rows else None

    def clear(self):
        self.sql('truncate pages')

    def end_listeners(self):
        self.sql("select pg_terminate_backend(pid) from pg_stat_activity where application_name = 'cadwrelch-fleet'")

    def reconnect(self):
        """After the engine was restarted."""
        self.connection.close()
        self.connection = psycopg2.connect(self.running.dsn)
        self.connection.autocommit = True
        self.addCleanup(self.connection.close)


class Decoding(Postgres):
    """The same, without triggers: by logical decoding."""

    def install(self, store):
        store.publish()

    def told(self, store, dsn=None):
        return store.decoded(dsn)

    def skipping(self, store):
        return store.decoded(self.running.dsn)


class Redis(WithEngine):
    """Keys that have a prefix."""
    engine = engines.Redis
    counts_told = False
    """Several changes of a key in one turn of the server are told as one."""

    def setUp(self):
        self.client = self.running.client()
        self.client.flushall()

    def told(self, store, client=None):
        return store.announcements(client)

    def skipping(self, store):
        return store.announcements(self.client)

    def store(self, proxy=None, **words):
        return redis.RedisStore(self.client if proxy is None else self.listener(proxy), 'v:', **words)

    def comparing(self):
        return self.store(reads=True)

    def listener(self, proxy):
        return driver.Redis(unix_socket_path=proxy.path)

    def write(self, **values):
        self.client.mset({f'v:{key}': value for key, value in values.items()})

    def write_together(self, keys, value):
        pipeline = self.client.pipeline(transaction=True)
        for key in keys:
            pipeline.set(f'v:{key}', value)
        pipeline.execute()

    def flood(self, count, value):
        pipeline = self.client.pipeline(transaction=False)
        for number in range(1, count + 1):
            pipeline.set(f'v:k{number}', value)
        pipeline.execute()

    def increment(self, key):
        self.client.incr(f'v:{key}')

    def stored(self, key):
        found = self.client.get(f'v:{key}')
        return None if found is None else found.decode()

    def clear(self):
        self.client.flushall()

    def end_listeners(self):
        self.client.client_kill_filter(_type='pubsub')

    def reconnect(self):
        self.client = self.running.client()
