"""What a cache is made of: how large it is, how long what it has lives, and whom it asks."""
import itertools
import math
import operator

from . import _core

CAPACITY_MAX = _core.STRIPES_MAX * _core.CAPACITY_MAX
CAPACITY_DEFAULT = 65_536
STRIPES_USUAL = 16
STRIPE_USUAL = 256
"""A cache gets a second stripe when each can have so many: hashes fill stripes unevenly."""
HISTORY_DEFAULT = 260
"""Room for as many calls as can be under way in a stripe: 64 that have reserved a key, of three events each, and 64 that have joined a load."""
_NUMBERS = itertools.count(1)


def wrong(error, name, given, wanted):
    """What an option isn't."""
    return error(f'{name} is {given!r}: it has to be {wanted}')


def _whole(name, given):
    if isinstance(given, bool):
        raise wrong(TypeError, name, given, 'a whole number')
    try:
        return operator.index(given)
    except TypeError:
        raise wrong(TypeError, name, given, 'a whole number') from None


def _within(name, given, least, most, condition=''):
    number = _whole(name, given)
    if not least <= number <= most:
        raise wrong(ValueError, name, given, f'a number from {least} to {most}{condition}')
    return number


def _stripes_for(capacity):
    roomy = min(STRIPES_USUAL, max(1, capacity // STRIPE_USUAL))
    return max(roomy, -(-capacity // _core.CAPACITY_MAX))


def _sizes(capacity, maxsize, stripes):
    """How many stripes, and how many entries in all of them."""
    name = 'capacity' if maxsize is None else 'maxsize'
    if capacity is not None and maxsize is not None:
        raise ValueError(f'capacity is {capacity!r} and maxsize {maxsize!r}: they are one option, by two names')
    capacity = capacity if maxsize is None else maxsize
    if stripes is None:
        capacity = CAPACITY_DEFAULT if capacity is None else _within(name, capacity, 1, CAPACITY_MAX)
        return _stripes_for(capacity), capacity
    stripes = _within('stripes', stripes, 1, _core.STRIPES_MAX)
    most = stripes * _core.CAPACITY_MAX
    if capacity is None:
        return stripes, min(CAPACITY_DEFAULT, most) if stripes <= CAPACITY_DEFAULT else stripes
    return stripes, _within(name, capacity, stripes, most, f' with {stripes} stripes')


def _seconds(name, given, may_be_zero=False):
    """A time of an option, checked, or None."""
    if given is None:
        return None
    try:
        seconds = math.nan if isinstance(given, bool) else math.ldexp(given, 0)
    except TypeError:
        raise wrong(TypeError, name, given, 'a number of seconds, or None') from None
    if not (seconds > 0 or (may_be_zero and seconds == 0)):
        raise wrong(ValueError, name, given, 'a number of seconds, 0 or more' if may_be_zero else 'longer than 0')
    return given


def _switch(name, given, party, has_party):
    """Whether the loader, or the writer, is asked."""
    if given is None:
        return has_party
    if not isinstance(given, bool):
        raise wrong(TypeError, name, given, 'True or False')
    if given and not has_party:
        raise ValueError(f'{name} is True, and there is no {party}')
    return given


def _name(given):
    if given is None:
        return str(next(_NUMBERS))
    if not isinstance(given, str):
        raise wrong(TypeError, 'name', given, 'a str')
    return given


def settings(loader, writer, *, name, capacity, maxsize, stripes, history, ttl, tti, timer, refresh_after, absent_for, read_through, write_through):
    """The options of a cache, checked, as those of its stripes."""
    stripes, capacity = _sizes(capacity, maxsize, stripes)
    reads = _switch('read_through', read_through, 'loader', loader is not None)
    writes = _switch('write_through', write_through, 'writer', writer is not None)
    refresh_after, absent_for = _seconds('refresh_after', refresh_after), _seconds('absent_for', absent_for)
    if refresh_after is not None and loader is None:
        raise ValueError(f'refresh_after is {refresh_after!r}, and there is no loader')
    if absent_for is not None and not reads:
        raise ValueError(f'absent_for is {absent_for!r}, and read-through is off')
    if timer is not None and not callable(timer):
        raise wrong(TypeError, 'timer', timer, 'a callable that gives seconds')
    return {'name': _name(name), 'stripes': stripes, 'capacity': capacity,
            'history': _within('history', history, _core.HISTORY_MIN, _core.HISTORY_MAX), 'reads': reads, 'writes': writes,
            'ttl': ttl if callable(ttl) else _seconds('ttl', ttl, True), 'tti': _seconds('tti', tti), 'timer': timer,
            'refresh_after': refresh_after, 'absent_for': absent_for}


def method(given, name, what):
    """A callable, or the method of this name of an object."""
    found = getattr(given, name, given)
    if not callable(found):
        raise TypeError(f'{what} is {given!r}: it has to be a callable, or to have a method {name}')
    return found


def many(given, name):
    """The method of this name, which takes many keys, or None."""
    found = getattr(given, name, None)
    return found if callable(found) else None


def check_value(value):
    if value is None:
        raise ValueError('None is no value: it says that there is none')
