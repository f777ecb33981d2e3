"""What `bench/bindings` measures in Python: hits, one after another.

usage: bindings_calls.py get|hit COUNT     get: of a cache; hit: of one desk of the core, without a lock
"""
import sys

from cadwrelch import Cache, core

KEYS = [b'key %012d' % number for number in range(1024)]
VALUE = b'a 16-byte value.'


def main(kind, count):
    """Prints how many calls found their entry."""
    if kind == 'get':
        cache = Cache(stripes=16, capacity=16 * 1024, history=256)
        for key in KEYS:
            cache.put(key, VALUE)
        call = cache.get
    else:
        desk = core.Desk(core.Shape(1, 1024, 256, False, False, False), 0, [(key, VALUE) for key in KEYS])

        def call(key):
            return desk.hit(1, key)
    found = 0
    keys = len(KEYS)
    for turn in range(count):
        if call(KEYS[turn % keys]) is not None:
            found += 1
    print(found)


main(sys.argv[1], int(sys.argv[2]))
