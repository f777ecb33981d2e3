#!/usr/bin/env python3
"""Writes a record of calls for `jcache check`, to standard output. Some order explains it.

usage: bench/records.py CALLS THREADS KEYS [SEED]

A cache with a lock for each key is simulated. Of ten calls six are `get` and four `put` of a new value, read-through and write-through are
on, and before one step in twenty the entry vanishes. Each thread makes its calls one after the other: it begins a call, the call makes its
step, with what it asks the loader or the writer, and it ends, and between these others do the same, at random with a fixed seed."""
import random
import sys

BEGIN, STEP, END = range(3)


def written(number, thread, key, value):
    """A put's lines from its step."""
    return [f'{thread} write {number} {key}={value}', f'{thread} writes {number}'], 'ok'


def found(number, thread, key, entry, store):
    """A get's lines from its step, and its answer."""
    if entry is not None:
        return [], entry
    if store is None:
        return [f'{thread} load {number} {key}', f'{thread} loads {number}'], '-'
    return [f'{thread} load {number} {key}', f'{thread} loads {number} {key}={store}'], store


def record(calls, threads, keys, seed):
    """The lines, each with its place as its time."""
    chance = random.Random(seed)
    entries, stores, doing = {}, {}, [None] * threads
    begun = 0
    yield 'history 1'
    yield 'open read write'
    left = calls
    while left:
        at = chance.randrange(threads)
        thread = f't{at}'
        if doing[at] is None:
            if begun < calls:
                begun += 1
                key = f'k{chance.randrange(keys)}'
                value = f'v{begun}' if chance.random() < 0.4 else None
                doing[at] = [STEP, begun, key, value, None]
                yield f'{thread} call {begun} ' + (f'put {key} {value}' if value else f'get {key}')
            continue
        stage, number, key, value, answer = doing[at]
        if stage == STEP:
            if chance.random() < 0.05:
                entries.pop(key, None)
            if value:
                lines, answer = written(number, thread, key, value)
                entries[key] = stores[key] = value
            else:
                lines, answer = found(number, thread, key, entries.get(key), stores.get(key))
                if answer != '-':
                    entries[key] = answer
            yield from lines
            doing[at] = [END, number, key, value, answer]
        else:
            yield f'{thread} is {number} {answer}'
            doing[at] = None
            left -= 1


def main(words):
    if len(words) not in (3, 4) or not all(word.isdigit() for word in words):
        sys.exit(__doc__)
    calls, threads, keys, seed = (int(word) for word in (words + ['1'])[:4])
    sys.stdout.writelines(f'{line}\n' for line in record(calls, threads, keys, seed))


if __name__ == '__main__':
    main(sys.argv[1:])
