#!/usr/bin/env python3
"""Measures hits, joined loads, calls of many keys and writes of coroutines: nanoseconds of a processor, the median and the least of some
rounds, beside what asyncio itself costs.

usage: python_async.py [ROUNDS]
"""
import asyncio
import os
import statistics
import sys
import time

import cadwrelch

KEYS = [f'key number {i}' for i in range(1024)]
TURNS = 50


async def one(key):
    return key


async def write(key, value):
    return None


async def measure(rounds, what, calls):
    times = []
    for _ in range(rounds):
        began = time.process_time_ns()
        await what()
        times.append((time.process_time_ns() - began) / calls)
    return times


async def awaits(get):
    for _ in range(TURNS):
        for key in KEYS:
            await get(key)


async def shielded(key):
    return await asyncio.shield(asyncio.ensure_future(one(key)))


async def puts(cache):
    for _ in range(TURNS):
        for key in KEYS:
            await cache.put(key, key)


async def hits(cache):
    for _ in range(TURNS):
        for key in KEYS:
            cache.hit(key)


async def tasks(count):
    await asyncio.gather(*[asyncio.sleep(0) for _ in range(count)])


async def stampede(count):
    loads = []

    async def load(key):
        loads.append(key)
        await asyncio.sleep(0)
        return key

    cache = cadwrelch.AsyncCache(loader=load)
    await asyncio.gather(*[cache.get('a') for _ in range(count)])
    assert loads == ['a']


class Many:
    """A loader and a writer of many keys."""

    async def load(self, key):
        return key

    async def load_many(self, keys):
        return dict(zip(keys, keys))

    async def write(self, key, value):
        return None

    delete = load

    async def write_many(self, items):
        return None


async def get_many(loader):
    await cadwrelch.AsyncCache(loader=loader, stripes=64).get_many(KEYS)


async def put_many(writer):
    await cadwrelch.AsyncCache(writer=writer, stripes=64).put_many(dict.fromkeys(KEYS, 1))


async def main(rounds):
    cache = cadwrelch.AsyncCache(loader=one, stripes=16, capacity=16 * 1024)
    function = cadwrelch.cached(cadwrelch.AsyncCache(stripes=16, capacity=16 * 1024))(one)
    plain, written = cadwrelch.AsyncCache(stripes=16, capacity=16 * 1024), cadwrelch.AsyncCache(writer=write, stripes=16, capacity=1024)
    for key in KEYS:
        await cache.get(key)
    calls = TURNS * len(KEYS)
    rows = [('await of a coroutine that returns its key', lambda: awaits(one), calls),
            ('await AsyncCache.get, a hit', lambda: awaits(cache.get), calls),
            ('AsyncCache.hit', lambda: hits(cache), calls),
            ('await of a cached coroutine function, a hit', lambda: awaits(function), calls),
            ('await AsyncCache.put', lambda: puts(plain), calls),
            ('await of a shielded task of such a coroutine', lambda: awaits(shielded), calls),
            ('await AsyncCache.put, written through', lambda: puts(written), calls),
            ('a task of 1,000 by gather that sleeps once', lambda: tasks(1000), 1000),
            ('a get of 1,000 of one missing key by gather', lambda: stampede(1000), 1000),
            ('a key of a get_many of 1,024, loader of one key', lambda: get_many(one), len(KEYS)),
            ('a key of a get_many of 1,024, loader of many', lambda: get_many(Many()), len(KEYS)),
            ('a key of a put_many of 1,024, writer of many', lambda: put_many(Many()), len(KEYS))]
    print(sys.version.split()[0], 'cadwrelch', cadwrelch.__version__, 'load', os.getloadavg()[0])
    print('\n| coroutines | processor, ns | least |\n|---|---|---|')
    for name, what, count in rows:
        times = await measure(rounds, what, count)
        print(f'| {name} | {statistics.median(times):.0f} | {min(times):.0f} |', flush=True)


if __name__ == '__main__':
    asyncio.run(main(int(sys.argv[1]) if len(sys.argv) > 1 else 5))
