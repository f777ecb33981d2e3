"""What may go wrong. The exception of a loader or a writer is the __cause__ of the cache's."""
import functools
import reprlib
import signal

_SHORT = reprlib.Repr()
_SHORT.maxstring = _SHORT.maxother = 60


def short(key):
    """A key in an error's text: its repr, cut; its type, if the repr fails."""
    try:
        return _SHORT.repr(key)
    except Exception:
        return f'<{type(key).__name__} instance>'


def at(key, cache):
    """The end of a text: the key and the cache of which it speaks."""
    return f' (key {short(key)}, cache {cache})'


class CacheError(Exception):
    """A call of a cache has failed."""


class LoaderError(CacheError):
    """The loader raised an exception, which is the __cause__. The entry is as it was, and the key is free.

    All calls that have joined this load get a LoaderError with the same __cause__.
    """


class WriterError(CacheError):
    """The writer raised an exception, which is the __cause__. The entry is as it was, and the key is free."""


class DeadlockError(CacheError):
    """The call would wait for itself: it was made inside a loader, a writer or a processor. Nothing was done."""


class ClosedError(CacheError):
    """The cache is closed. Nothing was done."""


class ForkedError(CacheError):
    """The cache was made in another process, of which this one is a child (os.fork). Nothing was done."""


class BulkError(CacheError):
    """A call of many keys failed at some of them; its __cause__ is the first failure. At all others it took effect.

    failed: the keys at which it failed, and those that it has not reached. None, if a writer failed that has written all.
    found: what a get_many has found at the others, as a dict.
    """

    def __init__(self, failed, found=None, cache=None):
        named = [*map(short, failed[:5]), *['..'] * (len(failed) > 5)]
        where = ', '.join(named if cache is None else [*named, f'cache {cache}'])
        what = 'the writer failed, and no key did' if not failed else 'a key failed' if len(failed) == 1 else f'{len(failed)} keys failed'
        super().__init__(f'{what} ({where})' if where else what)
        self.failed = failed
        self.found = {} if found is None else found
        self._cache = cache

    def __reduce__(self):
        return type(self), (self.failed, self.found, self._cache)


class NotWritten(Exception):
    """Raised by the write_many or delete_many of a writer that has done its work in part.

    keys: those that it did not write or delete.
    """

    def __init__(self, keys):
        super().__init__(f'{len(keys)} keys were not written')
        self.keys = keys

    def __reduce__(self):
        return type(self), (self.keys,)


def loader_failed(key, cache):
    """The error of a load of this key."""
    return LoaderError('the loader failed' + at(key, cache))


def writer_failed(key, cache):
    """The error of a write or a delete of this key."""
    return WriterError('the writer failed' + at(key, cache))


def forked(cache, process, own):
    """The error of a call of a cache that another process has made."""
    return ForkedError(f'the cache {cache} is of the process {process}, and this is the process {own}: make a cache after the fork')


def is_interrupt(error):
    """Whether an exception came from outside of what raised it: it isn't an Exception, but an interrupt, a cancellation, or the end of the
    program; or the handler of a signal has raised it."""
    return error is not None and (not isinstance(error, Exception) or _came_from_handler(error.__traceback__))


def _came_from_handler(trace):
    codes = {_code_of(signal.getsignal(number)) for number in _SIGNALS} - {None}
    while codes and trace is not None:
        if trace.tb_frame.f_code in codes:
            return True
        trace = trace.tb_next
    return False


def _code_of(handler):
    while isinstance(handler, functools.partial):
        handler = handler.func
    return getattr(handler, '__code__', None) or getattr(getattr(type(handler), '__call__', None), '__code__', None)


_SIGNALS = signal.valid_signals()
