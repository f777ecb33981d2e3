"""The cache."""
import math
import os
import types

from . import _core, refresh, rounds, waiting
from .errors import CacheError, is_interrupt, loader_failed, writer_failed
from .shape import HISTORY_DEFAULT, check_value, many, method, settings, wrong

os.register_at_fork(after_in_child=_core.forked)


class _Loader:
    """A callable, or an object with load(key) and, if it likes, load_many(keys)."""

    def __init__(self, loader):
        self.load = method(loader, 'load', 'loader')
        self.load_many = many(loader, 'load_many')


class _Writer:
    """A callable (key, value), with None to delete, or an object with write(key, value), delete(key) and, if it likes, the same of many."""

    def __init__(self, writer):
        self.write = method(writer, 'write', 'writer')
        self.delete = writer.delete if hasattr(writer, 'write') else lambda key: writer(key, None)
        self.write_many = many(writer, 'write_many')
        self.delete_many = many(writer, 'delete_many')


class Entry:
    """An entry while its processor runs: no other call changes it (JCache: MutableEntry).

    What the processor does is one change, when it has returned: of several the last counts. Afterwards the entry can't be used.
    """

    def __init__(self, cache, key, value, may_load):
        self._cache = cache
        self._value = value
        self._may_load = may_load
        self._load = _core.NOT_ASKED
        self._loaded = None
        self._error = None
        self._effect = _core.KEEP
        self._is_used = False
        self._is_over = False
        self.key = key

    def exists(self):
        """Whether there is a value. The loader isn't asked (JCache: exists)."""
        self._check()
        return self._value is not None

    @property
    def value(self):
        """The value, or None. With read-through the loader is asked if there is none and the processor has changed nothing: once, and a
        LoaderError of it is raised at each further read, too (JCache: getValue, setValue)."""
        self._check()
        self._is_used = True
        if self._may_ask():
            self._note_load(*rounds.attempt(self._cache._loader.load, self.key))
        return self._read()

    @value.setter
    def value(self, value):
        self._check()
        check_value(value)
        if self._error is None:
            self._value, self._effect = value, _core.SET

    @value.deleter
    def value(self):
        self.remove()

    def remove(self):
        """Removes the entry: the writer is asked to delete the key (JCache: remove)."""
        self._check()
        if self._error is None:
            self._value, self._effect = None, _core.EFFECT_REMOVE

    def _check(self):
        if self._is_over:
            raise RuntimeError('the processor has returned: its entry is over')

    def _may_ask(self):
        return self._may_load and self._load == _core.NOT_ASKED and self._effect == _core.KEEP

    def _note_load(self, value, error):
        self._value = self._loaded = value
        self._error = error
        self._load = _core.FAILED if error is not None else _core.NOTHING if value is None else _core.FOUND

    def _read(self):
        if self._error is None:
            return self._value
        if is_interrupt(self._error):
            raise self._error
        raise loader_failed(self.key, self._cache.name) from self._error

    def _end(self):
        """Nothing refers to what it had, which may be an exception whose frames refer to it."""
        self._is_over = True
        self._value = self._loaded = self._error = self._cache = None


class Processing:
    """What became of a processor's run: its result or its exception, and the writer's answer."""

    __slots__ = ('result', 'failure', 'write', 'ttl')

    def __init__(self):
        self.result = None
        self.failure = None
        self.write = _core.NOT_ASKED
        self.ttl = None

    def end(self, call, entry):
        """The last phase. It returns what the processor returned, or raises why the call failed."""
        effect = entry._effect if self.failure is None or self.write != _core.NOT_ASKED else _core.EFFECT_FAILED
        call.commit_process(entry._load, entry._loaded, effect, entry._value, self.write, self.ttl, entry._is_used)
        loading, failure, key, name = entry._error, self.failure, entry.key, entry._cache.name
        entry._end()
        self.failure = None
        try:
            if is_interrupt(failure):
                raise failure
            if loading is not None:
                raise loader_failed(key, name) from loading
            if self.write == _core.FAILED:
                raise writer_failed(key, name) from failure
            if failure is not None:
                raise failure
            return self.result
        finally:
            del loading, failure


class _Calls(rounds.Round):
    """A call of many keys, whose thread waits."""

    def __init__(self, cache, work):
        super().__init__(cache, cache._life, work, cache.name)
        self._cache = cache

    def run(self):
        """All rounds: what was found."""
        while self.items:
            with waiting.in_round(self):
                blocked = self._round()
            if blocked is not None:
                self._wait(blocked)
        return self.result()

    def _round(self):
        """One round. If it could reserve and join nothing: what it waits for."""
        reserved, joined, blocked = self.begin()
        if not reserved and not joined:
            return blocked
        try:
            with waiting.holding(*[item.call.flight for item in reserved]):
                if reserved and reserved[0].call.next == _core.ASK_LOAD:
                    self._load(reserved)
                    self.commit_loads(reserved)
                elif reserved:
                    self._write(reserved)
                    self.commit_writes(reserved)
            self.raise_interrupt()
            for item in joined:
                self._pick_up(item)
        finally:
            self.forget(reserved)
            self.forget(joined)
        return None

    def _wait(self, blocked):
        try:
            waiting.until_free(blocked)
        except CacheError as error:
            self.stop(self.items, error)

    def _load(self, reserved):
        """Asks the loader. One of one key is asked for the others after a failure, too."""
        loader = self._cache._loader
        if loader.load_many is not None:
            keys = [item.key for item in reserved]
            self.loaded(reserved, *rounds.attempt(lambda: rounds.values_of(loader.load_many(keys), keys)))
            return
        for place, item in enumerate(reserved):
            item.answer, item.error = rounds.attempt(loader.load, item.key)
            if is_interrupt(item.error):
                self.fail_from(reserved, place, None)
                break

    def _write(self, reserved):
        """Asks the writer. One of one key stops at its first failure."""
        writer = self._cache._writer
        is_write = reserved[0].call.next == _core.ASK_WRITE
        if is_write and writer.write_many is not None:
            self.written(reserved, rounds.attempt(writer.write_many, {item.key: item.value for item in reserved})[1])
            return
        if not is_write and writer.delete_many is not None:
            self.written(reserved, rounds.attempt(writer.delete_many, [item.key for item in reserved])[1])
            return
        for place, item in enumerate(reserved):
            _, item.error = rounds.attempt(self._cache._ask_writer, item.key, item.value)
            item.answer = rounds.outcome_of(item.error)
            if item.error is not None:
                self.fail_from(reserved, place, _core.FAILED)
                break

    def _pick_up(self, item):
        _, item.error = rounds.attempt(waiting.until_over, item.call)
        if item.error is not None:
            # It is abandoned.
            self.end(item, None, item.error)
            self.raise_interrupt()
            return
        reply = item.call.pick_up()
        if reply is not None and reply[0] == _core.LOADER_FAILED:
            item.error = item.call.flight.error
        self.picked_up(item, reply)


class Cache(_core.Stripes):
    """A cache before a store that a loader reads and a writer changes (JCache: Cache, CacheLoader, CacheWriter).

    loader: a callable that is given a key and returns its value, or None if it has none; or an object with such a method load and, if it
    likes, load_many(keys), which returns a mapping.
    writer: a callable (key, value) that writes, and deletes if the value is None; or an object with write(key, value), delete(key) and,
    if it likes, write_many(mapping) and delete_many(keys), which raise NotWritten for what they did not do.
    name: what errors call it; without one, a number.
    capacity, or maxsize: how many entries there may be. stripes (1 to 4,096, with at most 4,096 entries each): without it, one for up to 511
    entries, then more. history (events of a stripe, 16 to 65,536): a call under way needs room for three.
    ttl: seconds after which an entry expires that was written or loaded; or a callable (key, value) that says it, or None for never.
    tti: seconds after which an entry expires that was not used. timer: a callable that gives seconds; without it, the monotonic clock.
    refresh_after: seconds after which a get that finds an entry has it reloaded in the background. executor: has a method submit, and runs
    reloads; without it, up to four threads of the cache.
    absent_for: seconds for which it is remembered that the loader has found nothing for a get.
    read_through, write_through: on if there is a loader, a writer.

    An option that is out of its limits is a ValueError or TypeError that names it and what was given.

    Keys are hashable, values are any objects but None. Threads share a cache. While one call has reserved a key, calls at this key wait
    and all others don't. Nothing is locked while a loader, a writer, a processor, or a method of a key or a value runs.

    Each call may raise ClosedError, and ForkedError in another process than that which made the cache; each that waits, DeadlockError, if it was made inside a loader, writer or processor and would wait for
    that one's own call. All with nothing done.
    """

    def __init__(self, loader=None, writer=None, *, name=None, capacity=None, maxsize=None, stripes=None, history=HISTORY_DEFAULT, ttl=None,
                 tti=None, timer=None, refresh_after=None, absent_for=None, executor=None, read_through=None, write_through=None):
        words = settings(loader, writer, name=name, capacity=capacity, maxsize=maxsize, stripes=stripes, history=history, ttl=ttl, tti=tti,
                         timer=timer, refresh_after=refresh_after, absent_for=absent_for, read_through=read_through,
                         write_through=write_through)
        if executor is not None and not callable(getattr(executor, 'submit', None)):
            raise wrong(TypeError, 'executor', executor, 'what has a method submit')
        self._loader = _Loader((lambda key: None) if loader is None else loader)
        self._writer = _Writer((lambda key, value: None) if writer is None else writer)
        self._ttl_of = ttl if callable(ttl) else None
        if refresh_after is not None:
            words['reload'] = refresh.OnThreads(self, executor or refresh.Threads(words['name']))
        super().__init__(load=self._loader.load, write=self._writer.write, remove=self._writer.delete, **words)

    def __class_getitem__(cls, item):
        return types.GenericAlias(cls, item)

    def __bool__(self):
        """A cache is true, also if it is empty."""
        return True

    # Calls of one key. get, [], in, put and hit are those of Stripes.

    def get_and_put(self, key, value, *, ttl=None):
        """A put that returns the value that was cached, or None (JCache: getAndPut). The loader isn't asked."""
        check_value(value)
        return self._call(_core.GET_AND_PUT, key, value, None, ttl)[1]

    def put_if_absent(self, key, value, *, ttl=None):
        """Writes and caches a value if none is cached, and says whether (JCache: putIfAbsent). It waits and fails as put does. The loader
        isn't asked: what only the store has is overwritten."""
        check_value(value)
        return self._flag(_core.PUT_IF_ABSENT, key, value, None, ttl)

    def remove(self, key):
        """Deletes a key from store and cache, and says whether it was cached (JCache: remove). The store is asked in any case. It waits for
        calls that have the key, and while the writer runs; after a WriterError the entry is as it was."""
        return self._flag(_core.REMOVE, key)

    def remove_if(self, key, old):
        """Deletes a key if this value is cached, and says whether (JCache: remove(key, oldValue)). It waits and fails as remove does."""
        check_value(old)
        return self._flag(_core.REMOVE_IF, key, None, old)

    def get_and_remove(self, key):
        """A remove that returns the value that was cached, or None (JCache: getAndRemove)."""
        return self._call(_core.GET_AND_REMOVE, key)[1]

    def replace(self, key, value, *, ttl=None):
        """Writes and caches a value if one is cached, and says whether (JCache: replace). It waits and fails as put does."""
        check_value(value)
        return self._flag(_core.REPLACE, key, value, None, ttl)

    def replace_if(self, key, old, value, *, ttl=None):
        """Writes and caches a value if old is cached, and says whether (JCache: replace(key, oldValue, newValue)). It waits and fails as
        put does."""
        check_value(old)
        check_value(value)
        return self._flag(_core.REPLACE_IF, key, value, old, ttl)

    def get_and_replace(self, key, value, *, ttl=None):
        """Writes and caches a value if one is cached, and returns that one, or None (JCache: getAndReplace). It waits and fails as put
        does."""
        check_value(value)
        return self._call(_core.GET_AND_REPLACE, key, value, None, ttl)[1]

    def invoke(self, key, processor, *arguments):
        """Runs processor(entry, *arguments) on the key's entry, and returns what it returns (JCache: invoke).

        It waits for calls that have the key, and while the processor and the writer run. If the processor raises an exception, that is the
        call's, and nothing is changed; so after a LoaderError of its entry, and after a WriterError.
        """
        while True:
            begun = self._begin(_core.INVOKE, key)
            if not isinstance(begun, _core.Blocked):
                return self._process(begun, processor, arguments)
            waiting.until_free(begun)

    def _process(self, call, processor, arguments):
        try:
            entry = Entry(self, call.key, call.cached, call.may_load)
            run = Processing()
            with waiting.holding(call.flight):
                run.result, run.failure = rounds.attempt(processor, entry, *arguments)
                if run.failure is None and entry._error is None and entry._value is not None:
                    run.ttl, run.failure = rounds.attempt(self._life, call.key, entry._value)
                if run.failure is None and entry._error is None and self._writes and entry._effect != _core.KEEP:
                    _, run.failure = rounds.attempt(self._ask_writer, call.key, entry._value)
                    run.write = rounds.outcome_of(run.failure)
            return run.end(call, entry)
        finally:
            call.forget()

    # Whom they ask.

    def _life(self, key, value):
        """The seconds of a value that comes in; None: those of the cache."""
        if self._ttl_of is None or value is None:
            return None
        ttl = self._ttl_of(key, value)
        return math.inf if ttl is None else ttl

    def _ask_writer(self, key, value):
        if value is None:
            self._writer.delete(key)
        else:
            self._writer.write(key, value)

    def _flag(self, op, key, value=None, old=None, ttl=None):
        return self._call(op, key, value, old, ttl)[0] == _core.YES

    # Calls of many keys. A round starts each key that it can, and waits for none of them.

    def get_many(self, keys):
        """The values of these keys, of those that have one, as a dict (JCache: getAll).

        The loader is asked for all that are missing: once, if it has load_many. It waits as get does. Keys whose load failed are the
        `failed` of a BulkError, whose `found` has the others.
        """
        return _Calls(self, [(_core.GET, key, None) for key in keys]).run()

    def put_many(self, entries):
        """Writes and caches the values of a mapping (JCache: putAll). It isn't atomic: each key is a put of its own.

        The writer is asked once, if it has write_many. It waits as put does. Keys that it did not write are the `failed` of a BulkError,
        and their entries as they were.
        """
        work = []
        for key, value in entries.items():
            check_value(value)
            work.append((_core.PUT, key, value))
        _Calls(self, work).run()

    def remove_many(self, keys):
        """Deletes these keys from store and cache (JCache: removeAll). The writer is asked once, if it has delete_many. It waits and fails
        as put_many does."""
        _Calls(self, [(_core.REMOVE, key, None) for key in keys]).run()

    def load_many(self, keys, replace=False):
        """Loads these keys: those that aren't cached, or, with replace, all (JCache: loadAll). The writer isn't asked. A key for which the
        loader finds nothing is as it was. It waits and fails as get_many does."""
        op = _core.RELOAD if replace else _core.LOAD
        _Calls(self, [(op, key, None) for key in keys]).run()

    def clear(self):
        """Uncaches all keys that are cached now (JCache: clear). The store keeps them, and the writer isn't asked. It waits for calls that
        have one of the keys."""
        _Calls(self, [(_core.CLEAR_KEY, key, None) for key in self._all_keys()]).run()

    # The cache as a whole.

    def __iter__(self):
        """Iterates over the keys that are cached now. The loader isn't asked."""
        return iter(self.keys())

    def __enter__(self):
        return self

    def __exit__(self, *_):
        self.close()
