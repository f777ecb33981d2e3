"""A cache with read-through, write-through and request coalescing, after the rules of JCache (JSR 107).

    with cadwrelch.Cache(loader=read_page, writer=write_page, maxsize=10_000, ttl=60) as cache:
        cache['home'] = 'text'
        text = cache['home']

AsyncCache is the same for coroutines; cached keeps the results of functions. cadwrelch.core is the interface of the library itself: one
stripe.
"""
from ._async_partners import AsyncEntry
from ._none import NONE
from ._version import __version__
from .aio import AsyncCache
from .cache import Cache, Entry
from .errors import BulkError, CacheError, ClosedError, DeadlockError, ForkedError, LoaderError, NotWritten, WriterError
from .memo import cached, hashkey

__all__ = ['NONE', '__version__', 'AsyncCache', 'AsyncEntry', 'Cache', 'Entry', 'BulkError', 'CacheError', 'ClosedError', 'DeadlockError',
           'ForkedError', 'LoaderError', 'NotWritten', 'WriterError', 'cached', 'hashkey']
