"""A child process and the caches of its parent: they say so, and nothing hangs."""
import asyncio
import os
import threading
import unittest

import cadwrelch
from cadwrelch import waiting

CALLS = {
    'get': lambda cache: cache.get('a'),
    'hit': lambda cache: cache.hit('a'),
    'in': lambda cache: 'a' in cache,
    'subscript': lambda cache: cache['a'],
    'put': lambda cache: cache.put('a', 2),
    'remove': lambda cache: cache.remove('a'),
    'invoke': lambda cache: cache.invoke('a', print),
    'get_many': lambda cache: cache.get_many('ab'),
    'clear': lambda cache: cache.clear(),
    'keys': lambda cache: cache.keys(),
    'len': len,
    'stats': lambda cache: cache.stats(),
    'expire': lambda cache: cache.expire(),
    'invalidate': lambda cache: cache.invalidate('a'),
    'invalidate_all': lambda cache: cache.invalidate_all(),
    'suspend': lambda cache: cache.suspend(),
    'a function': lambda cache: cadwrelch.cached(cache)(lambda key: 1)('a'),
}


def in_child(work):
    """What a child says, which this function is called in."""
    out, into = os.pipe()
    child = os.fork()
    if child == 0:
        said = 'failed'
        try:
            said = work()
        except BaseException as error:
            said = repr(error)
        finally:
            os.write(into, said.encode())
            os._exit(0)
    os.close(into)
    with os.fdopen(out) as pipe:
        said = pipe.read()
    os.waitpid(child, 0)
    return said


@unittest.skipUnless(hasattr(os, 'fork'), 'there is no fork here')
class Forks(unittest.TestCase):
    def test_each_call_says_so(self):
        """Another thread is inside a call, and has the lock of those that wait."""
        asked, go = threading.Event(), threading.Event()
        cache = cadwrelch.Cache(loader=lambda key: asked.set() or go.wait(60) and 1, name='pages')
        thread = threading.Thread(target=cache.get, args=('a',))
        thread.start()
        asked.wait(60)

        def work():
            told = []
            for name, call in CALLS.items():
                try:
                    told.append(f'{name}: {call(cache)}')
                except cadwrelch.ForkedError as error:
                    told.append(str(error))
            cache.close()
            own = cadwrelch.Cache(loader=lambda key: own.get('x') if key == 'y' else 2)
            told.append(str(own.get('y')))
            try:
                own.invoke('y', lambda entry: own.put('y', 1))
            except cadwrelch.DeadlockError:
                told.append('deadlock')
            return '\n'.join([*dict.fromkeys(told), str(os.getpid())])

        with waiting._LOCK:
            *told, child = in_child(work).split('\n')
        go.set()
        thread.join(60)
        self.assertEqual(told, [f'the cache pages is of the process {os.getpid()}, and this is the process {child}: make a cache after the fork',
                                '2', 'deadlock'])
        self.assertEqual(cache.get('a'), 1)

    def test_a_call_that_was_under_way_ends(self):
        """Its loader forks: the call is the child's, too."""
        parent, told = os.getpid(), []

        def load(key):
            if os.getpid() == parent and not told:
                told.append(in_child(lambda: str(load_again())))
            return 1

        def load_again():
            return cache.get('b') if os.getpid() == parent else self.refused(lambda: cache.get('b'))

        cache = cadwrelch.Cache(loader=load)
        self.assertEqual((cache.get('a'), told), (1, ['refused']))

    def refused(self, call):
        try:
            call()
        except cadwrelch.ForkedError:
            return 'refused'
        return 'not refused'

    def test_a_cache_of_coroutines(self):
        async def load(key):
            return 1

        async def write(key, value):
            await asyncio.sleep(0)

        cache = cadwrelch.AsyncCache(load, write)

        async def main():
            put = asyncio.ensure_future(cache.put('a', 1))
            await asyncio.sleep(0)

            def work():
                asyncio.set_event_loop(None)
                asyncio._set_running_loop(None)
                asyncio.run(cache.aclose())
                return self.refused(lambda: asyncio.run(cache.get('b')))

            told = in_child(work)
            await put
            return told

        self.assertEqual(asyncio.run(main()), 'refused')


if __name__ == '__main__':
    unittest.main()
