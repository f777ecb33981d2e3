"""Functions whose results are cached."""
import functools
import inspect

from ._none import NONE
from .aio import AsyncCache
from .cache import Cache


class _Words:
    """What parts the arguments by place from those by name in a key."""

    def __repr__(self):
        return '**'


_WORDS = _Words()


def hashkey(*arguments, **words):
    """The key of a call of a function whose results are cached: its arguments. 1 and 1.0 are one key, and f(1) and f(x=1) are two."""
    return (*arguments, _WORDS, *sorted(words.items())) if words else arguments


def cached(cache, key=hashkey):
    """Has the results of a function kept in a Cache, or those of a coroutine function in an AsyncCache.

        @cached(Cache(maxsize=10_000, ttl=60))
        def read_page(name): ..

    key(*arguments, **words) says the key of a call. Functions may share a cache if their keys differ, as by
    key=functools.partial(hashkey, 'read_page').

    The function is the loader of its call, and a loader of the cache isn't asked: calls of one key at a time are one call of the function.
    What it raises is raised as it is, also to the calls that have waited for it, and isn't cached. (A call that has waited for one that was
    interrupted or cancelled calls the function itself.) The writer isn't asked.

    A None that it returns is cached, too: the cache has NONE for it. So a get of the cache finds NONE, and a call of the function None.

    The result has the attributes cache, cache_key (the key function), cache_clear (the cache's clear) and __wrapped__.

    TypeError: cache is neither; or the function is a coroutine function and the cache isn't an AsyncCache. A call may raise ClosedError, and
    DeadlockError, if the function calls itself with the same key, or is inside more calls of itself than a stripe has room for.
    """
    if not isinstance(cache, (Cache, AsyncCache)):
        raise TypeError(f'cached takes a Cache or an AsyncCache: {cache!r} was given')
    if not callable(key):
        raise TypeError(f'key is a callable: {key!r} was given')

    def decorate(function):
        if isinstance(cache, AsyncCache):
            caller = _async_caller(cache, key, function)
        elif inspect.iscoroutinefunction(function):
            raise TypeError(f'a coroutine function takes an AsyncCache: {function!r} was given a Cache')
        else:
            caller = _caller(cache, key, function)
        caller.cache = cache
        caller.cache_key = key
        caller.cache_clear = cache.clear
        return caller

    return decorate


def _caller(cache, key, function):
    hit, get_or_load = cache.hit, cache._get_or_load

    @functools.wraps(function)
    def caller(*arguments, **words):
        # A call of hashkey costs as much as the hit.
        its_key = arguments if key is hashkey and not words else key(*arguments, **words)
        value = hit(its_key)
        if value is None:
            value = get_or_load(its_key, function, arguments, words)
        return None if value is NONE else value

    return caller


def _async_caller(cache, key, function):
    hit, get_or_load = cache.hit, cache._get_or_load

    @functools.wraps(function)
    async def caller(*arguments, **words):
        its_key = arguments if key is hashkey and not words else key(*arguments, **words)
        value = hit(its_key)
        if value is None:
            value = await get_or_load(its_key, function, arguments, words)
        return None if value is NONE else value

    return caller
