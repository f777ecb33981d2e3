"""Keeps the caches of several instances of a service true to one store, which all of them write, and others.

    store = PostgresStore('dbname=shop', 'pages')               # cadwrelch.fleet.postgres
    cache = cadwrelch.Cache(loader=store, writer=store)
    with Fleet(cache, store.announcements()):
        ...

The store's engine announces each change to each instance, whoever made it, and each instance forgets its own entry of that key
(Cache.invalidate). No instance knows of another one. What is promised, and what isn't, says docs/FLEET.md.
"""
import logging
import os
import select
import threading
import time

from ..errors import CacheError, WriterError
from ..shape import _seconds

__all__ = ['ALL', 'Announcements', 'Conflict', 'Fleet', 'FleetError', 'Lost', 'invoke']
_LOG = logging.getLogger('cadwrelch.fleet')


class _All:
    """The type of ALL, which has one object."""

    def __repr__(self):
        return 'cadwrelch.fleet.ALL'


ALL = _All()
"""What is announced if it isn't known which keys have changed."""


class FleetError(CacheError):
    """Something isn't as it has to be for changes to be announced: the text says what, and how it is mended."""


class Lost(Exception):
    """The announcements have ended, or nobody answers for them any more."""


class Conflict(Exception):
    """Raised by a writer that compares: somebody else has changed what the value was made from, and nothing was written."""


def invoke(cache, key, processor, *arguments, attempts=100):
    """cache.invoke, again if somebody else has changed the key in the store meanwhile. The store has to compare: see Row, Read.

    What it raises is as of invoke. After so many attempts it is the WriterError of the last Conflict.
    """
    while True:
        attempts -= 1
        try:
            return cache.invoke(key, processor, *arguments)
        except WriterError as error:
            if not isinstance(error.__cause__, Conflict) or attempts <= 0:
                raise


class Announcements:
    """Where a fleet hears of changes. One thread uses it at a time, but for wake(). Those of an engine are made by its store."""

    def __init__(self):
        self._woken, self._wakes = os.pipe()
        os.set_blocking(self._wakes, False)

    def __del__(self):
        os.close(self._woken)
        os.close(self._wakes)

    def wake(self):
        """Ends a wait(). Any thread may call it."""
        try:
            os.write(self._wakes, b'.')
        except BlockingIOError:
            pass

    def _is_ready(self, seconds, *sockets):
        """Waits until one of these can be read, and says whether one can; or for wake()."""
        ready = select.select([*sockets, self._woken], [], [], seconds)[0]
        if self._woken in ready:
            os.read(self._woken, 4096)
        return any(socket in ready for socket in sockets)

    def attach(self, cache):
        """Called once, with the cache that is to forget the keys of writes whose end isn't known."""

    def open(self, patience):
        """Connects and subscribes, within about so many seconds. Of each change that is made after this has returned wait() will tell, or
        raise. It raises FleetError if something isn't as it has to be, and anything else if there is no connection."""
        raise NotImplementedError

    def wait(self, seconds):
        """The keys that have changed, in order, and ALL; an empty list if there were none for so long, or it was woken. Any exception says
        that the connection is lost."""
        raise NotImplementedError

    def probe(self):
        """Asks the engine for an answer on the way that announcements take. It doesn't wait for it."""
        raise NotImplementedError

    def is_answered(self):
        """Whether the last probe was answered, and all that was announced before the answer was returned by wait()."""
        raise NotImplementedError

    def close(self):
        """Ends the connection, whatever its state. It may be called again."""
        raise NotImplementedError


class Fleet:
    """Has a cache (Cache, AsyncCache) forget what others have changed.

    beat: seconds between two probes of the connection. patience: seconds after which a probe that has no answer says that it is lost. So a
    connection that is silently dead is found after beat + patience.
    grace: for how many seconds after that the cache still answers what it had. Then, until there is a connection again, it keeps nothing:
    each call asks the store. With each new connection it begins empty.
    retry: seconds between two attempts to connect.
    on_state(state): called with 'live', 'lost' (if there is a grace), 'suspended' and 'closed'. on_told(keys): with what was announced,
    once it is forgotten. Both on the fleet's thread, but for the first state; what they raise is logged.

    Making it connects. It raises FleetError if something isn't as it has to be: the cache stays suspended then. If the engine can't be
    reached it is suspended, says why in `error`, and goes on trying. A fleet uses a daemon thread, which close() ends.
    """

    def __init__(self, cache, announcements, *, beat=0.5, patience=1.5, grace=0.0, retry=0.25, on_state=None, on_told=None):
        self._cache, self._source = cache, announcements
        self._beat, self._patience = _seconds('beat', beat), _seconds('patience', patience)
        self._grace, self._retry = _seconds('grace', grace, True), _seconds('retry', retry)
        self._on_state, self._on_told = on_state, on_told
        self._live, self._ending = threading.Event(), threading.Event()
        self._timer = None
        self._lock = threading.Lock()
        """Of state, and of those that catch up."""
        self._asking, self._asked = [], []
        """Who waits for the answer to a probe that is to be sent, and to the one that was sent last."""
        self._counts = {'told': 0, 'all': 0, 'connections': 0, 'lost': 0}
        self._answer_time = None
        self._state = 'suspended'
        self.error = None
        """Why the last connection was lost, or can't be made; None if it stands."""
        cache.suspend()
        announcements.attach(cache)
        self._thread = threading.Thread(target=self._run, name=f'cadwrelch-fleet-{cache.name}', daemon=True)
        try:
            self._connect()
        except FleetError:
            announcements.close()
            raise
        except Exception as error:
            self._lose(error)
        self._thread.start()

    @property
    def state(self):
        """'live', 'lost', 'suspended' or 'closed'."""
        return self._state

    @property
    def is_live(self):
        """Whether changes are announced at present."""
        return self._live.is_set()

    def wait_until_live(self, timeout=None):
        """Waits for a connection, and says whether there is one. The cache may be used before: it asks the store."""
        return self._live.wait(timeout)

    def stats(self):
        """What was counted since it was made: keys that were told, announcements of all keys, connections, how many were lost; the seconds
        that the last probe took, or None; and the state."""
        return {**self._counts, 'answer_time': self._answer_time, 'state': self._state}

    def catch_up(self, timeout=None):
        """Waits until what was committed before this call is forgotten here, and says whether it is: so who was told of a write by the one
        who made it sees it. It is one round trip."""
        done = threading.Event()
        with self._lock:
            is_asked = self._live.is_set() or self._state == 'lost'
            if is_asked:
                self._asking.append(done)
        if not is_asked:
            # Nothing is kept; a load that is under way may have read before.
            self._cache.invalidate_all()
            return True
        self._source.wake()
        return done.wait(timeout)

    def close(self):
        """Ends the listener. The cache keeps nothing from now on, since it hears of nothing. It waits for the thread."""
        self._ending.set()
        self._source.wake()
        if self._thread is not threading.current_thread():
            self._thread.join()

    def __enter__(self):
        return self

    def __exit__(self, *_):
        self.close()

    # States.

    def _connect(self):
        self._source.open(self._patience)
        self._stop_timer()
        with self._lock:
            waiting = self._asking + self._asked
            self._asking, self._asked = [], []
            self._cache.resume()
            self._state = 'live'
            self._live.set()
        self.error = None
        self._counts['connections'] += 1
        self._tell(self._on_state, 'live')
        for done in waiting:
            done.set()

    def _lose(self, error):
        was_live = self._live.is_set()
        if was_live or str(error) != str(self.error):
            _LOG.warning('the cache %s hears of no changes: %s', self._cache.name, error)
        self.error = error
        self._live.clear()
        self._source.close()
        if not was_live:
            return
        self._counts['lost'] += 1
        if self._grace > 0:
            self._state = 'lost'
            self._timer = threading.Timer(self._grace, self._suspend, ['suspended'])
            self._timer.daemon = True
            self._timer.start()
            self._tell(self._on_state, 'lost')
        else:
            self._suspend('suspended')

    def _suspend(self, state):
        with self._lock:
            if self._live.is_set() and state != 'closed':
                return
            self._live.clear()
            self._cache.suspend()
            self._state = state
            waiting = self._asking + self._asked
            self._asking, self._asked = [], []
        for done in waiting:
            done.set()
        self._tell(self._on_state, state)

    def _stop_timer(self):
        if self._timer is not None:
            self._timer.cancel()
            self._timer.join()
            self._timer = None

    @staticmethod
    def _tell(listener, what):
        try:
            if listener is not None:
                listener(what)
        except Exception:
            _LOG.exception('a listener of a fleet failed')

    # The thread.

    def _run(self):
        try:
            while not self._ending.is_set():
                self._try()
        finally:
            self._stop_timer()
            self._source.close()
            self._suspend('closed')

    def _try(self):
        """Listens until the connection is lost, or it is closed. Then, or if there is none, it waits a little."""
        try:
            if not self._live.is_set():
                self._connect()
            self._listen()
        except Exception as error:
            self._lose(error)
            self._ending.wait(self._retry)

    def _listen(self):
        probed, due = None, time.monotonic() + self._beat
        while not self._ending.is_set():
            limit = due if probed is None else probed + self._patience
            self._handle(self._source.wait(max(0.0, min(limit - time.monotonic(), self._beat))))
            now = time.monotonic()
            if probed is None:
                if self._are_asking() or now >= due:
                    self._source.probe()
                    probed = now
            elif self._source.is_answered():
                self._answer_time = now - probed
                probed, due = None, now if self._end_asked() else now + self._beat
            elif now >= probed + self._patience:
                raise Lost(f'no answer for {self._patience} seconds')

    def _are_asking(self):
        """Whether somebody waits for the answer to a probe that is sent now."""
        with self._lock:
            self._asked, self._asking = self._asking, []
            return bool(self._asked)

    def _end_asked(self):
        """The probe was answered. Whether somebody waits for the next one."""
        with self._lock:
            asked, self._asked = self._asked, []
            is_asking = bool(self._asking)
        for done in asked:
            done.set()
        return is_asking

    def _handle(self, keys):
        if not keys:
            return
        if any(key is ALL for key in keys):
            self._cache.invalidate_all()
            self._counts['all'] += 1
        else:
            for key in dict.fromkeys(keys):
                self._cache.invalidate(key)
        self._counts['told'] += len(keys)
        self._tell(self._on_told, keys)
