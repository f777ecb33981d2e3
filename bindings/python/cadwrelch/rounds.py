"""A call of many keys, in rounds: what of it waits for nobody. Who drives it asks and waits (cache.py, aio.py).

A round makes the first phase of each key that has no reply. Then the loader or the writer is asked, for all keys that the round has
reserved, and these are committed; then the round waits for the loads that it has joined. A key that is busy is put off to the next round.
A call waits for a busy key only if its round has reserved and joined nothing.

What a key's loader or writer has answered is kept at its item, an exception, too, until the key is committed. An exception has a traceback,
and that has the frames of all that were under way when it was caught: if one of them kept the exception, values and callers' frames would
live until the collector runs.
"""
from . import _core
from .errors import BulkError, CacheError, NotWritten, is_interrupt


def attempt(function, *arguments):
    """What a function returns, and what it raises: one of them is None."""
    try:
        return function(*arguments), None
    except BaseException as error:
        return None, error


def values_of(found, keys):
    """The values that a load_many has returned for these keys."""
    if not hasattr(found, 'get'):
        raise TypeError(f'load_many returns a mapping: {found!r} was returned')
    return [found.get(key) for key in keys]


def outcome_of(error):
    """What a writer has done that raised this. One that was interrupted may have written."""
    if error is None:
        return _core.WRITTEN
    return _core.UNKNOWN if is_interrupt(error) else _core.FAILED


class Item:
    """A key of a call of many keys."""

    __slots__ = ('op', 'key', 'value', 'ttl', 'call', 'answer', 'error')

    def __init__(self, op, key, value, ttl):
        self.op = op
        self.key = key
        self.value = value
        self.ttl = ttl
        self.call = None
        """What it has out."""
        self.answer = None
        """Of a loader: its value. Of a writer: its outcome."""
        self.error = None
        """Why it has failed."""


class Round:
    """A call of many keys. life(key, value) says the seconds that a value lives, or None."""

    def __init__(self, stripes, life, work, name):
        self.life = life
        self.items = [Item(op, key, value, life(key, value)) for op, key, value in work]
        """What has no reply."""
        self._stripes = stripes
        self._name = name
        self._current = []
        self._replies = []
        self._failed = []
        self._error = None

    def begin(self):
        """The first phases: what is reserved, what is joined, and what the first busy key waits for. If one is stopped, what was reserved
        is given up; if nothing was done, what has stopped it is raised."""
        items = self._current = self.items
        self.items = []
        reserved, joined, blocked, begun = [], [], None, None
        try:
            for place, item in enumerate(items):
                begun = self._stripes._begin(item.op, item.key, item.value, None, item.ttl)
                if isinstance(begun, tuple):
                    self._replies.append((item.key, begun[1]))
                elif isinstance(begun, _core.Call):
                    item.call = begun
                    (joined if begun.next == _core.JOINED else reserved).append(item)
                else:
                    blocked = blocked or begun
                    self.items.append(item)
        except BaseException as error:
            for item in items:
                if item.call is not None:
                    (item.call.abandon if item.call.next == _core.JOINED else item.call.withdraw)()
                    item.call = None
            del begun
            if isinstance(error, CacheError) and (self._replies or self._failed):
                self.stop([*self.items, *reserved, *joined, *items[place:]], error)
            raise
        return reserved, joined, blocked

    @property
    def is_over(self):
        """Whether no call of its round is out. (An interrupt may have ended the round wherever it was.)"""
        return all(item.call is None or item.call.is_over for item in self._current)

    @staticmethod
    def forget(items):
        """Whatever happens, no key stays reserved."""
        for item in items:
            if item.call is not None:
                item.call.forget()
                item.call = item.error = None

    @staticmethod
    def fail_from(reserved, place, outcome):
        """What is behind a key that has failed was not asked for, and fails as it did."""
        for item in reserved[place + 1:]:
            item.answer, item.error = outcome, reserved[place].error

    @staticmethod
    def loaded(reserved, values, error):
        """What a loader of many keys has answered, or why it has failed."""
        for place, item in enumerate(reserved):
            item.answer, item.error = None if values is None else values[place], error

    def written(self, reserved, error):
        """Why a writer of many keys hasn't done all, or None. One that fails and leaves no key fails the call alone."""
        if not isinstance(error, NotWritten):
            for item in reserved:
                item.answer, item.error = outcome_of(error), error
            return
        keys, cause = set(error.keys), error.__cause__ or error
        for item in reserved:
            item.answer, item.error = (_core.FAILED, cause) if item.key in keys else (_core.WRITTEN, None)
        if not keys:
            self._note(cause)

    def commit_loads(self, reserved):
        """The last phases of calls whose loader was asked."""
        for item in reserved:
            ttl = None
            if item.answer is not None:
                ttl, item.error = attempt(self.life, item.key, item.answer)
            reply = item.call.commit_load(item.answer, item.error, ttl)
            self.end(item, reply[1], item.error)

    def commit_writes(self, reserved):
        """The last phases of calls whose writer was asked."""
        for item in reserved:
            reply = item.call.commit_write(item.answer)
            self.end(item, reply[1], item.error)

    def picked_up(self, item, reply):
        """A join that has its reply or (none) begins anew, or has failed."""
        if item.error is None and reply is None:
            item.call = None
            self.items.append(item)
        else:
            self.end(item, None if reply is None else reply[1], item.error)

    def end(self, item, value, error):
        """A key that has its reply, or has failed."""
        item.call = item.answer = item.error = None
        if error is None:
            self._replies.append((item.key, value))
        else:
            self._failed.append(item.key)
            self._note(error)

    def raise_interrupt(self):
        """Raises what isn't an Exception as it is: an interrupt, or the end of the program."""
        if is_interrupt(self._error):
            error = self._take_error()
            try:
                raise error
            finally:
                del error

    def stop(self, left, error):
        """Raises the first failure, which is this error if there was none before. What is left has failed, too."""
        self._failed.extend(item.key for item in left)
        self._note(error)
        self.result()

    def result(self):
        """What was found, as a dict; or BulkError."""
        found = {key: value for key, value in self._replies if value is not None}
        if self._error is not None:
            raise BulkError(self._failed, found, self._name) from self._take_error()
        return found

    def _note(self, error):
        if self._error is None or (is_interrupt(error) and not is_interrupt(self._error)):
            self._error = error

    def _take_error(self):
        error, self._error = self._error, None
        return error
