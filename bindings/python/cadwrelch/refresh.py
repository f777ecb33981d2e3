"""Entries that are old are reloaded in the background (refresh_after): on threads, or as tasks of an event loop.

A reload is a call of the cache, loadAll of one key in JCache's words, which reserves the key: writes of the key wait for it, so it never
overwrites what is newer. It waits for nobody itself. What goes wrong is logged.
"""
import asyncio
import collections
import contextvars
import logging
import threading
import weakref

from .errors import ClosedError

_LOG = logging.getLogger('cadwrelch')
THREADS = 4
WAITING_MAX = 1024
"""So many reloads may wait for a thread. Further ones are left to a later get."""


class Threads:
    """Up to four daemon threads, which end when nothing is left to do."""

    def __init__(self, name):
        self._name = name
        self._lock = threading.Lock()
        self._work = collections.deque()
        self._count = 0

    def submit(self, function, *arguments):
        """Has a thread call a function, which raises nothing."""
        with self._lock:
            if len(self._work) >= WAITING_MAX:
                return
            self._work.append((function, arguments))
            if self._count == THREADS:
                return
            self._count += 1
        try:
            threading.Thread(target=self._run, name=f'cadwrelch-refresh-{self._name}', daemon=True).start()
        except BaseException:
            with self._lock:
                self._count -= 1
            raise

    def _next(self):
        with self._lock:
            if self._work:
                return self._work.popleft()
            self._count -= 1
            return None

    def _run(self):
        while (work := self._next()) is not None:
            function, arguments = work
            function(*arguments)
            # Nothing keeps the cache while the thread waits for the lock.
            del work, function, arguments


def _failed(name, error):
    _LOG.warning('an entry of the cache %s was not reloaded', name, exc_info=error)


def _reload(cache, key):
    """Reloads an entry of a cache that may be gone by now."""
    cache = cache()
    if cache is None:
        return
    try:
        cache._reload(key)
    except ClosedError:
        pass
    except Exception as error:
        _failed(cache.name, error)


class OnThreads:
    """Has entries of a cache reloaded by an executor: what has a method submit."""

    def __init__(self, cache, executor):
        self._cache = weakref.ref(cache)
        self._executor = executor

    def __call__(self, key):
        try:
            self._executor.submit(_reload, self._cache, key)
        except Exception as error:
            _failed(self._cache().name, error)


class InTasks:
    """Has entries of a cache reloaded by tasks of the event loop that runs."""

    def __init__(self, cache):
        self._cache = weakref.ref(cache)
        self._tasks = set()

    def __call__(self, key):
        # The task is inside of no call.
        task = contextvars.Context().run(asyncio.get_running_loop().create_task, self._reload(key))
        self._tasks.add(task)
        task.add_done_callback(self._tasks.discard)

    async def _reload(self, key):
        cache = self._cache()
        try:
            await cache._reload(key)
        except ClosedError:
            pass
        except Exception as error:
            _failed(cache.name, error)
