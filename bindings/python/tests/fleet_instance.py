"""An instance of a service in a process of its own, for test_fleet_faults: it counts at some keys, until it is killed.

usage: python3 -m tests.fleet_instance Postgres|Decoding|Redis ADDRESS KEY..     it says `live` once it hears of changes
"""
import sys
import threading

import cadwrelch
from cadwrelch import fleet


def made(kind, address):
    """A store, and its announcements."""
    if kind == 'Redis':
        import redis

        from cadwrelch.fleet.redis import RedisStore
        store = RedisStore(redis.Redis(unix_socket_path=address), 'v:', reads=True)
        return store, store.announcements()
    from cadwrelch.fleet.postgres import PostgresStore
    store = PostgresStore(address, 'pages', rows=True)
    return store, store.decoded() if kind == 'Decoding' else store.announcements()


def add(entry):
    entry.value = entry.value.but(str(int(entry.value.value) + 1))


def main(kind, address, *keys):
    store, announcements = made(kind, address)
    cache = cadwrelch.Cache(loader=store, writer=store)
    fleet.Fleet(cache, announcements).wait_until_live()
    print('live', flush=True)

    def work(key):
        while True:
            fleet.invoke(cache, key, add)

    for key in keys:
        threading.Thread(target=work, args=(key,)).start()


main(*sys.argv[1:])
