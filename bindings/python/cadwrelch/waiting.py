"""How a thread waits for calls of others, and finds that it would wait for itself.

A context (contextvars) has the flights of the calls that it is inside: the loader, writer or processor of such a call runs, and may call
a cache. Who would wait for one of them, directly or over calls that wait for each other, raises DeadlockError.
"""
import contextvars
import os
import threading

from .errors import DeadlockError, at

HELD = contextvars.ContextVar('held', default=())
"""The flights of the calls that run outside."""
_ROUNDS = contextvars.ContextVar('rounds', default=())
"""The rounds of calls of many keys that run. Such a one has calls out at several keys, and waits for no room with them."""
_LOCK = threading.Lock()
"""Of all waits_for."""


def _renew_lock():
    """In a child another thread of the parent may have had it."""
    global _LOCK
    _LOCK = threading.Lock()


os.register_at_fork(after_in_child=_renew_lock)


class _Restored:
    """Gives a context variable its value back."""

    __slots__ = ('_variable', '_token')

    def __init__(self, variable, value):
        self._variable = variable
        self._token = variable.set(value)

    def __enter__(self):
        return self

    def __exit__(self, *_):
        try:
            self._variable.reset(self._token)
        except ValueError:
            # A coroutine that was forgotten ends in the context of whoever collects it, which has another value.
            pass


def holding(*flights):
    """What runs with it is asked for the calls of these flights. (An interrupt may have left those of calls that are over.)"""
    return _Restored(HELD, HELD.get() + flights)


def in_round(calls):
    """What runs with it is a round of this call of many keys."""
    return _Restored(_ROUNDS, (*_ROUNDS.get(), calls))


def is_inside():
    """Whether this context is inside a call."""
    return not all(out.is_over for out in HELD.get() + _ROUNDS.get())


def check_outside(blocked):
    """Who waits for room may not be inside a call, whose end may be what makes room."""
    if is_inside():
        raise DeadlockError('a call inside another one needs a stripe that has no room: give the cache more stripes, or a history of up to 260'
                            + at(blocked.key, blocked.cache.name))


class noted:
    """Notes that this context waits for the flight of a key, so that others find it. It raises DeadlockError if the flight waits for this
    context."""

    __slots__ = ('_waits', '_flight', '_held')

    def __init__(self, waits):
        self._waits = waits
        self._flight = waits.flight
        self._held = HELD.get()

    def __enter__(self):
        with _LOCK:
            if self._held and _reaches(self._flight, self._held):
                raise DeadlockError('the call would wait for itself' + at(self._waits.key, self._waits.cache.name))
            for own in self._held:
                own.waits_for = (*(own.waits_for or ()), self._flight)

    def __exit__(self, *_):
        with _LOCK:
            for own in self._held:
                left = list(own.waits_for)
                left.remove(self._flight)
                own.waits_for = tuple(left) or None


def _reaches(flight, held):
    """Whether a flight is one of these, or waits for one, directly or not. A loader of coroutines may wait for several at once."""
    seen, todo = set(), [flight]
    while todo:
        flight = todo.pop()
        if flight in held:
            return True
        if flight not in seen:
            seen.add(flight)
            todo.extend(flight.waits_for or ())
    return False


def sleep(waits_at):
    """Waits until this wakes its waiters."""
    lock = threading.Lock()
    lock.acquire()
    if waits_at.add_waiter(lock.release):
        lock.acquire()


def until_over(call):
    """Waits until the load that a call has joined is over. If it is interrupted nobody waits for it."""
    try:
        with noted(call):
            while not call.flight.is_over:
                sleep(call.flight)
    except BaseException:
        call.abandon()
        raise


def until_free(blocked):
    """Waits until what was refused may be tried again."""
    if blocked.flight is not None:
        with noted(blocked):
            sleep(blocked)
    else:
        check_outside(blocked)
        sleep(blocked)
