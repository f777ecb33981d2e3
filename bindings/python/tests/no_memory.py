"""Refuses each allocation of Python's in turn while a call runs, and tests that cache and store agree afterwards, and that no key is left
reserved. A program of its own: an interpreter without memory may end anywhere."""
import os
import sys

import _testcapi

sys.path.insert(0, os.getcwd())
import cadwrelch  # noqa: E402

HELD = {}


def load(key):
    return HELD.get(key)


def write(key, value):
    if value is None:
        HELD.pop(key, None)
    else:
        HELD[key] = value


def set_it(entry):
    entry.value = 'set'


CALLS = {
    'get': lambda cache: cache.get('a'),
    'get of what is missing': lambda cache: cache.get('b'),
    'put': lambda cache: cache.put('a', 'new'),
    'put of a new key': lambda cache: cache.put('c', 'new'),
    'put with a life': lambda cache: cache.put('a', 'new', ttl=5.0),
    'remove': lambda cache: cache.remove('a'),
    'get_and_put': lambda cache: cache.get_and_put('a', 'new'),
    'replace_if': lambda cache: cache.replace_if('a', 'old', 'new'),
    'invoke': lambda cache: cache.invoke('a', set_it),
    'get_many': lambda cache: cache.get_many(['a', 'b', 'c']),
    'put_many': lambda cache: cache.put_many({'a': 'new', 'c': 'new'}),
    'remove_many': lambda cache: cache.remove_many(['a', 'c']),
    'load_many': lambda cache: cache.load_many(['a', 'b'], replace=True),
    'contains': lambda cache: 'a' in cache,
    'keys': lambda cache: cache.keys(),
    'stats': lambda cache: cache.stats(),
    'expire': lambda cache: cache.expire(),
    'a function': lambda cache: FUNCTION('b'),
}
CACHE = None
FUNCTION = None


def made(name):
    global FUNCTION
    HELD.clear()
    HELD.update(a='old', b='other')
    cache = cadwrelch.Cache(loader=load, writer=write, stripes=1, capacity=8, ttl=1000)
    FUNCTION = cadwrelch.cached(cache, key=lambda x: x)(load)
    cache.get('a')
    return cache


def refused(name, number):
    """Whether an allocation was refused: this one of the call."""
    cache = made(name)
    call = CALLS[name]
    failed = False
    _testcapi.set_nomemory(number, number + 1)
    try:
        call(cache)
    except (MemoryError, cadwrelch.CacheError, SystemError):
        failed = True
    finally:
        _testcapi.remove_mem_hooks()
    for key in 'abc':
        # Nothing is left reserved, or these would wait for ever.
        found = cache.hit(key)
        assert found is None or found == HELD.get(key), (name, number, key, found, HELD)
        assert cache.get(key) == HELD.get(key), (name, number, key)
    assert cache._agrees(), (name, number)
    cache.close()
    assert cache._agrees(), (name, number)
    return failed


def main():
    for name in CALLS:
        number = in_a_row = count = 0
        while in_a_row < 30:
            failed = refused(name, number)
            in_a_row = 0 if failed else in_a_row + 1
            count += failed
            number += 1
        print(f'{name}: {count} allocations refused')
    print('all calls agree')


if __name__ == '__main__':
    main()
