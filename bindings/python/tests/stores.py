"""A store in memory that counts its calls, and fails when it is told to; and who says when calls wait."""
import threading
from unittest import mock

from cadwrelch import _awaiting, waiting


class Broken(Exception):
    """The store has failed."""


class Store:
    """A loader and a writer over a dict."""

    def __init__(self, held=()):
        self.held = dict(held)
        self.loads = 0
        self.writes = 0
        self.load_fails = None
        self.write_fails = None

    def load(self, key):
        self.loads += 1
        if self.load_fails is not None:
            raise self.load_fails
        return self.held.get(key)

    def write(self, key, value):
        self.writes += 1
        if self.write_fails is not None:
            raise self.write_fails
        self.held[key] = value

    def delete(self, key):
        self.writes += 1
        if self.write_fails is not None:
            raise self.write_fails
        self.held.pop(key, None)


class Waits:
    """With it, one can wait for calls to wait: for a load that they have joined, a key, or room."""

    def __init__(self):
        self._sleeps = threading.Semaphore(0)
        self._patches = [mock.patch.object(waiting, 'sleep', self._noted(waiting.sleep)),
                         mock.patch.object(_awaiting, 'sleep', self._noted(_awaiting.sleep))]

    def _noted(self, sleep):
        def noted(waits_at):
            return sleep(_Noted(waits_at, self._sleeps))

        return noted

    def of(self, count):
        """Returns when so many calls more have begun to wait."""
        for _ in range(count):
            assert self._sleeps.acquire(timeout=60)

    def __enter__(self):
        for patch in self._patches:
            patch.start()
        return self

    def __exit__(self, *_):
        for patch in self._patches:
            patch.stop()


class _Noted:
    """What somebody waits at."""

    def __init__(self, waits_at, sleeps):
        self._waits_at = waits_at
        self._sleeps = sleeps

    def add_waiter(self, waiter):
        is_waiting = self._waits_at.add_waiter(waiter)
        self._sleeps.release()
        return is_waiting
