#!/usr/bin/env python3
"""Measures hits, puts, cached functions, hits of threads and memory of this cache beside functools.lru_cache and, if it is installed,
cachetools: all in one process and in turns, so that they can be compared whatever else the machine does.

usage: python_peers.py [ROUNDS]
"""
import collections
import functools
import os
import statistics
import subprocess
import sys
import threading
import time

import cadwrelch

try:
    import cachetools
except ImportError:
    cachetools = None

KEYS = [f'key number {i}' for i in range(1024)]
ROOM = 16384
CALLS = 100 * len(KEYS)


def filled(put):
    for key in KEYS:
        put(key, key)


def one(key):
    return key


def ours(**words):
    return cadwrelch.Cache(stripes=16, capacity=16 * 1024, **words)


def gets():
    """What gets a key of each cache, all hits."""
    found = {'an empty function of Python': lambda key: None, 'dict.get': dict(zip(KEYS, KEYS)).get}
    if cachetools:
        cache, ttl = cachetools.LRUCache(ROOM), cachetools.TTLCache(ROOM, 1000)
        filled(cache.__setitem__)
        filled(ttl.__setitem__)
        found.update({'cachetools.LRUCache.get': cache.get, 'cachetools.LRUCache[]': cache.__getitem__, 'cachetools.TTLCache.get': ttl.get})
    for name, words in (('', {}), (', ttl', {'ttl': 1000}), (', tti', {'tti': 1000}), (', ttl, timer=time.monotonic', {'ttl': 1000, 'timer': time.monotonic})):
        cache = ours(**words)
        filled(cache.put)
        found[f'Cache.get{name}'] = cache.get
        if not words:
            found['Cache[]'] = cache.__getitem__
    return found


def functions():
    """Functions whose results are cached, all hits."""
    found = {'functools.lru_cache': functools.lru_cache(ROOM)(one)}
    if cachetools:
        found['cachetools.cached(LRUCache)'] = cachetools.cached(cachetools.LRUCache(ROOM))(one)
        found['cachetools.cached(LRUCache, lock)'] = cachetools.cached(cachetools.LRUCache(ROOM), lock=threading.RLock())(one)
        found['cachetools.cached(TTLCache, lock)'] = cachetools.cached(cachetools.TTLCache(ROOM, 1000), lock=threading.RLock())(one)
    found['cadwrelch.cached(Cache)'] = cadwrelch.cached(ours())(one)
    found['cadwrelch.cached(Cache, ttl)'] = cadwrelch.cached(ours(ttl=1000))(one)
    for function in found.values():
        filled(lambda key, value: function(key))
    return found


def puts():
    """What puts a key, which is there already."""
    found = {'dict': {}.__setitem__}
    if cachetools:
        found.update({'cachetools.LRUCache[]=': cachetools.LRUCache(ROOM).__setitem__, 'cachetools.TTLCache[]=': cachetools.TTLCache(ROOM, 1000).__setitem__})
    found.update({'Cache[]=': ours().__setitem__, 'Cache.put': ours().put, 'Cache.put, ttl': ours(ttl=1000).put,
                  'Cache.put, written through': ours(writer=lambda key, value: None).put,
                  'Cache.put, ttl, written through': ours(writer=lambda key, value: None, ttl=1000).put})
    return found


def run_gets(get, calls):
    for _ in range(calls // len(KEYS)):
        for key in KEYS:
            get(key)


def run_puts(put, calls):
    for _ in range(calls // len(KEYS)):
        for key in KEYS:
            put(key, key)


def on_threads(run, function, calls, threads):
    """Nanoseconds of a processor a call, and by the clock."""
    workers = [threading.Thread(target=run, args=(function, calls // threads)) for _ in range(threads)]
    processor, clock = time.process_time_ns(), time.perf_counter_ns()
    for worker in workers:
        worker.start()
    for worker in workers:
        worker.join()
    return (time.process_time_ns() - processor) / calls, (time.perf_counter_ns() - clock) / calls


def table(title, run, functions, rounds, threads=1):
    """Prints a table, and returns the median of each row."""
    times = collections.defaultdict(list)
    for _ in range(rounds):
        for name, function in functions.items():
            times[name].append(on_threads(run, function, CALLS, threads))
    print(f'\n| {title} | processor, ns | least | clock, ns |\n|---|---|---|---|')
    for name, found in times.items():
        cpu, clock = zip(*found)
        print(f'| {name} | {statistics.median(cpu):.0f} | {min(cpu):.0f} | {statistics.median(clock):.0f} |', flush=True)
    return {name: statistics.median([cpu for cpu, _ in found]) for name, found in times.items()}


def ratio(found, name, others):
    for other in others:
        if other in found:
            print(f'{name} is {found[name] / found[other]:.2f} of {other}')


MEMORY = '''
import sys
sys.path[:] = %r
def rss():
    with open('/proc/self/statm') as file:
        return int(file.read().split()[1]) * 4096
count = 100_000
keys, values = list(range(count)), [object() for _ in range(count)]
import cadwrelch
cache = %s
before = rss()
for key in keys:
    cache[key] = values[key]
print(round((rss() - before) / count))
'''


def memory():
    """Bytes an entry, key and value not counted, each in a process of its own."""
    kinds = {'dict': '{}', 'Cache': 'cadwrelch.Cache(capacity=200_000)', 'Cache, ttl': 'cadwrelch.Cache(capacity=200_000, ttl=1000)'}
    if cachetools:
        kinds.update({'cachetools.LRUCache': '__import__("cachetools").LRUCache(200_000)', 'cachetools.TTLCache': '__import__("cachetools").TTLCache(200_000, 1000)'})
    print('\n| memory of an entry | bytes |\n|---|---|')
    for name, made in kinds.items():
        said = subprocess.run([sys.executable, '-c', MEMORY % (sys.path, made)], stdout=subprocess.PIPE, universal_newlines=True, check=True)
        print(f'| {name} | {said.stdout.strip()} |', flush=True)


def main(rounds):
    print(sys.version.split()[0], 'cadwrelch', cadwrelch.__version__, 'cachetools', cachetools.__version__ if cachetools else 'none', 'load', os.getloadavg()[0])
    found = table('hit, 1 thread', run_gets, {**gets(), **functions()}, rounds)
    ratio(found, 'Cache.get', ['cachetools.LRUCache.get', 'functools.lru_cache'])
    ratio(found, 'cadwrelch.cached(Cache)', ['cachetools.cached(LRUCache)', 'functools.lru_cache'])
    found = table('put over an entry, 1 thread', run_puts, puts(), rounds)
    ratio(found, 'Cache.put', ['cachetools.LRUCache[]='])
    few = {name: function for name, function in {**gets(), **functions()}.items() if '[]' not in name and 'timer' not in name}
    table('hit, 4 threads', run_gets, few, max(3, rounds // 2), 4)
    memory()


if __name__ == '__main__':
    main(int(sys.argv[1]) if len(sys.argv) > 1 else 7)
