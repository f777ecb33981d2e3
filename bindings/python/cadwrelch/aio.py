"""The cache for coroutines: its loader and its writer are awaited between the phases of a call. No thread is used.

Tasks of several event loops, and threads, may share a cache: who waits is woken in its own loop.

A cancelled call:
- that waits, for a key or for a load that it has joined, is gone, and nobody notices;
- that loads has failed: its loader is cancelled; those that have joined it begin anew, and one of them loads;
- that writes only stops waiting: the write goes on, as a task of the cache, and is committed as it ends. aclose waits for it. If its loop
  ends first, as asyncio.run does when its main coroutine has returned, nobody knows what the store has, and the key isn't cached.
"""
import asyncio
import inspect
import math
import types

from . import _awaiting, _core, refresh, rounds, waiting
from ._async_partners import AsyncEntry, Loader, Writer
from ._awaited_rounds import Calls
from ._awaiting import attempt
from .cache import Processing
from .errors import is_interrupt, loader_failed, writer_failed
from .shape import HISTORY_DEFAULT, check_value, settings


_CANCELLED = asyncio.CancelledError('the load was cancelled')
"""Why a load failed whose task was cancelled: those that have joined it begin anew. (The exception itself refers to the frames of its call.)"""


async def _nothing(*_):
    return None


async def _processed(processor, entry, arguments):
    result = processor(entry, *arguments)
    return await result if inspect.isawaitable(result) else result


async def _none_as_value(function, arguments, words):
    value = await function(*arguments, **words)
    return _core.NONE if value is None else value


def _raise_from(failed, call, error):
    """Raises the error of a key from its cause; an interrupt as it is."""
    try:
        if is_interrupt(error):
            raise error
        raise failed(call.key, call.cache.name) from error
    finally:
        del error


def _shared(flight):
    """What a call that was waited for has loaded, and why it has failed; (None, None) to begin anew."""
    if flight is None or not flight.is_over or flight.is_overtaken:
        return None, None
    return flight.value, None if is_interrupt(flight.error) else flight.error


class AsyncCache:
    """A cache before a store that a loader reads and a writer changes, for coroutines: see Cache, whose words it takes.

    loader: a coroutine function of a key; or an object with such a method load and, if it likes, load_many(keys). Without load_many a call
    of many keys awaits one load a key, all at once.
    writer: a coroutine function (key, value), with None to delete; or an object with such methods write(key, value), delete(key) and, if it
    likes, write_many(mapping) and delete_many(keys). Without these a call of many keys awaits one write a key, all at once.

    A reload of an old entry (refresh_after) is a task of the event loop that runs the get. What a call raises, and what it leaves, is said at
    Cache; what becomes of a cancelled one, in the README: a call that writes goes on.
    """

    def __init__(self, loader=None, writer=None, *, name=None, capacity=None, maxsize=None, stripes=None, history=HISTORY_DEFAULT, ttl=None,
                 tti=None, timer=None, refresh_after=None, absent_for=None, read_through=None, write_through=None):
        words = settings(loader, writer, name=name, capacity=capacity, maxsize=maxsize, stripes=stripes, history=history, ttl=ttl, tti=tti,
                         timer=timer, refresh_after=refresh_after, absent_for=absent_for, read_through=read_through,
                         write_through=write_through)
        if refresh_after is not None:
            words['reload'] = refresh.InTasks(self)
        self._loader = Loader(_nothing if loader is None else loader)
        self._writer = Writer(_nothing if writer is None else writer)
        self._ttl_of = ttl if callable(ttl) else None
        self._stripes = _core.Stripes(**words)
        self._writes = words['writes']
        self._tasks = {}
        self._hit = self._stripes.hit
        self._look = self._stripes._look

    # Calls of one key.

    async def get(self, key, default=None):
        """The value of a key: the cached one, or what the loader finds, which is cached then; or the default (JCache: get).

        It waits while the loader runs, for a load of the key that runs already, and for a change of a key that isn't cached. After a
        LoaderError the key is as it was, and free. If it is cancelled, so is its loader, and those that have joined the load begin anew.
        """
        value = self._look(key)
        if value is NotImplemented:
            value = (await self._call(_core.GET, key))[1]
        return default if value is None else value

    def hit(self, key):
        """The value that is cached, or None. It counts as a use and as a hit. Nobody is asked, nothing is awaited, a miss isn't counted."""
        return self._hit(key)

    def __contains__(self, key):
        """Whether the key is cached (JCache: containsKey). Nobody is asked, and nothing is awaited."""
        return key in self._stripes

    async def put(self, key, value, *, ttl=None):
        """Writes a value and caches it (JCache: put); ttl: its seconds to live, if they are others than the cache's.

        It waits for calls that have the key, and while the writer runs. After a WriterError the entry is as it was. If it is cancelled while
        the writer runs, the write goes on and is committed.
        """
        check_value(value)
        await self._call(_core.PUT, key, value, None, ttl)

    async def get_and_put(self, key, value, *, ttl=None):
        """A put that returns the value that was cached, or None (JCache: getAndPut). The loader isn't asked."""
        check_value(value)
        return (await self._call(_core.GET_AND_PUT, key, value, None, ttl))[1]

    async def put_if_absent(self, key, value, *, ttl=None):
        """Writes and caches a value if none is cached, and says whether (JCache: putIfAbsent). It waits and fails as put does. The loader
        isn't asked: what only the store has is overwritten."""
        check_value(value)
        return await self._flag(_core.PUT_IF_ABSENT, key, value, None, ttl)

    async def remove(self, key):
        """Deletes a key from store and cache, and says whether it was cached (JCache: remove). The store is asked in any case. It waits and
        fails as put does."""
        return await self._flag(_core.REMOVE, key)

    async def remove_if(self, key, old):
        """Deletes a key if this value is cached, and says whether (JCache: remove(key, oldValue)). It waits and fails as put does."""
        check_value(old)
        return await self._flag(_core.REMOVE_IF, key, None, old)

    async def get_and_remove(self, key):
        """A remove that returns the value that was cached, or None (JCache: getAndRemove)."""
        return (await self._call(_core.GET_AND_REMOVE, key))[1]

    async def replace(self, key, value, *, ttl=None):
        """Writes and caches a value if one is cached, and says whether (JCache: replace). It waits and fails as put does."""
        check_value(value)
        return await self._flag(_core.REPLACE, key, value, None, ttl)

    async def replace_if(self, key, old, value, *, ttl=None):
        """Writes and caches a value if old is cached, and says whether (JCache: replace(key, oldValue, newValue)). It waits and fails as
        put does."""
        check_value(old)
        check_value(value)
        return await self._flag(_core.REPLACE_IF, key, value, old, ttl)

    async def get_and_replace(self, key, value, *, ttl=None):
        """Writes and caches a value if one is cached, and returns that one, or None (JCache: getAndReplace). It waits and fails as put
        does."""
        check_value(value)
        return (await self._call(_core.GET_AND_REPLACE, key, value, None, ttl))[1]

    async def invoke(self, key, processor, *arguments):
        """Runs processor(entry, *arguments), a function or a coroutine function, on the key's entry (an AsyncEntry), and returns what it
        returns (JCache: invoke).

        It waits for calls that have the key, and while the processor and the writer run; if it is cancelled then, they go on. If the
        processor raises an exception, that is the call's, and nothing is changed; so after a LoaderError of its entry, and after a
        WriterError.
        """
        while True:
            begun = self._stripes._begin(_core.INVOKE, key)
            if not isinstance(begun, _core.Blocked):
                return await self._to_its_end(self._process(begun, processor, arguments))
            await self._until_free(begun)

    # Calls of many keys. A round starts each key that it can, and waits for none of them.

    async def get_many(self, keys):
        """The values of these keys, of those that have one, as a dict (JCache: getAll).

        The loader is awaited for all that are missing: once, if it has load_many. It waits as get does. Keys whose load failed are the
        `failed` of a BulkError, whose `found` has the others. If it is cancelled, so are its loads.
        """
        return await Calls(self, [(_core.GET, key, None) for key in keys]).run()

    async def put_many(self, entries):
        """Writes and caches the values of a mapping (JCache: putAll). It isn't atomic: each key is a put of its own.

        The writer is awaited once, if it has write_many. It waits as put does. Keys that it did not write are the `failed` of a BulkError,
        and their entries as they were. If it is cancelled while the writer runs, that round goes on and is committed; there is no other one.
        """
        work = []
        for key, value in entries.items():
            check_value(value)
            work.append((_core.PUT, key, value))
        await Calls(self, work).run()

    async def remove_many(self, keys):
        """Deletes these keys from store and cache (JCache: removeAll). The writer is awaited once, if it has delete_many. It waits and fails
        as put_many does."""
        await Calls(self, [(_core.REMOVE, key, None) for key in keys]).run()

    async def load_many(self, keys, replace=False):
        """Loads these keys: those that aren't cached, or, with replace, all (JCache: loadAll). The writer isn't asked. A key for which the
        loader finds nothing is as it was. It waits and fails as get_many does."""
        op = _core.RELOAD if replace else _core.LOAD
        await Calls(self, [(op, key, None) for key in keys]).run()

    async def clear(self):
        """Uncaches all keys that are cached now (JCache: clear). The store keeps them, and the writer isn't asked. It waits for calls that
        have one of the keys."""
        await Calls(self, [(_core.CLEAR_KEY, key, None) for key in self._stripes._all_keys()]).run()

    # Phases.

    def _life(self, key, value):
        """The seconds of a value that comes in; None: those of the cache."""
        if self._ttl_of is None or value is None:
            return None
        ttl = self._ttl_of(key, value)
        return math.inf if ttl is None else ttl

    async def _ask_writer(self, key, value):
        await (self._writer.delete(key) if value is None else self._writer.write(key, value))

    async def _flag(self, op, key, value=None, old=None, ttl=None):
        return (await self._call(op, key, value, old, ttl))[0] == _core.YES

    async def _call(self, op, key, value=None, old=None, ttl=None):
        """A whole call: phases, and whom they ask between. Its reply and value."""
        if ttl is None:
            ttl = self._life(key, value)
        while True:
            begun = self._stripes._begin(op, key, value, old, ttl)
            if isinstance(begun, tuple):
                return begun
            try:
                reply = await self._finished(begun)
            finally:
                del begun
            if reply is not None:
                return reply

    async def _finished(self, begun):
        """The reply of a call that isn't done in one phase; None to begin anew. No frame keeps its exception: see rounds."""
        error = None
        try:
            if isinstance(begun, _core.Blocked):
                await self._until_free(begun)
                return None
            if begun.next not in (_core.ASK_LOAD, _core.JOINED):
                return await self._to_its_end(self._write(begun))
            if begun.next == _core.JOINED:
                reply, error = await self._join(begun)
            else:
                reply, error = await self._load(begun, self._loader.load, begun.key)
            if error is not None:
                raise loader_failed(begun.key, self.name) from error
            return reply
        finally:
            begun = error = None

    async def _reload(self, key):
        """Has the loader asked again, if no other call has the key."""
        begun = self._stripes._begin(_core.RELOAD, key)
        if isinstance(begun, _core.Call):
            await self._finished(begun)

    async def _get_or_load(self, key, function, arguments, words):
        """A get whose loader is this function, for None of which NONE is cached. What it raises is raised as it is. Without read-through a
        get asks nobody: a loadAll of the key follows it, which waits for another load instead of joining it."""
        op = _core.GET
        while True:
            begun = self._stripes._begin(op, key)
            if isinstance(begun, tuple):
                if begun[1] is not None:
                    return begun[1]
                op = _core.LOAD if op == _core.GET else _core.GET
                continue
            try:
                value = await self._loaded_by(begun, function, arguments, words)
            finally:
                del begun
            if value is not None:
                return value

    async def _loaded_by(self, begun, function, arguments, words):
        """The value of a key whose call asks this function, or waits; None to begin anew."""
        value = error = None
        try:
            if isinstance(begun, _core.Blocked):
                await self._until_free(begun)
                value, error = _shared(begun.flight)
            elif begun.next == _core.JOINED:
                reply, error = await self._join(begun)
                value = None if reply is None else reply[1]
            else:
                _, error = await self._load(begun, _none_as_value, function, arguments, words)
                value = begun.flight.value
            if error is not None:
                raise error
            return value
        finally:
            begun = error = None

    async def _load(self, call, function, *arguments):
        """Asks for a value, and commits it: the reply, or why it has failed. An interrupt is raised."""
        try:
            with waiting.holding(call.flight):
                value, error = await attempt(function, *arguments)
                ttl = None
                if value is not None:
                    ttl, error = rounds.attempt(self._life, call.key, value)
            if not is_interrupt(error):
                return call.commit_load(value, error, ttl), error
            call.commit_load(None, _CANCELLED)
            raise error
        finally:
            call.forget()
            call = error = None

    async def _join(self, call):
        """What the load replies, or why it has failed; (None, None) to begin anew."""
        try:
            with waiting.noted(call):
                while not call.flight.is_over:
                    await _awaiting.sleep(call.flight)
        except BaseException:
            call.abandon()
            raise
        reply = call.pick_up()
        if reply is None or reply[0] != _core.LOADER_FAILED:
            return reply, None
        return None, None if is_interrupt(call.flight.error) else call.flight.error

    async def _write(self, call):
        try:
            with waiting.holding(call.flight):
                value = call.value if call.next == _core.ASK_WRITE else None
                _, error = await attempt(self._ask_writer, call.key, value)
            reply = call.commit_write(rounds.outcome_of(error))
            if error is not None:
                _raise_from(writer_failed, call, error)
            return reply
        finally:
            call.forget()
            error = None

    async def _process(self, call, processor, arguments):
        try:
            entry = AsyncEntry(self, call.key, call.cached, call.may_load)
            run = Processing()
            with waiting.holding(call.flight):
                run.result, run.failure = await attempt(_processed, processor, entry, arguments)
                if run.failure is None and entry._error is None:
                    run.ttl, run.failure = rounds.attempt(self._life, call.key, entry._value)
                if run.failure is None and entry._error is None and self._writes and entry._effect != _core.KEEP:
                    _, run.failure = await attempt(self._ask_writer, call.key, entry._value)
                    run.write = rounds.outcome_of(run.failure)
            return run.end(call, entry)
        finally:
            call.forget()

    async def _to_its_end(self, writing):
        """Awaits what isn't cancelled with its caller."""
        task = asyncio.ensure_future(writing)
        self._tasks[task] = _awaiting.End()
        task.add_done_callback(self._forget)
        try:
            return await asyncio.shield(task)
        finally:
            del task

    def _forget(self, task):
        end = self._tasks.pop(task, None)
        if end is not None:
            end.set()

    def _end_the_dead(self):
        """Ends the writes whose loop was closed, and has not cancelled them. Nobody else can, and they may have what is waited for."""
        for task in list(self._tasks):
            if task.get_loop().is_closed():
                task.get_coro().close()
                self._forget(task)

    async def _until_free(self, blocked):
        self._end_the_dead()
        if blocked.flight is not None:
            with waiting.noted(blocked):
                await _awaiting.sleep(blocked)
        else:
            waiting.check_outside(blocked)
            await _awaiting.sleep(blocked)

    # The cache as a whole.

    def __class_getitem__(cls, item):
        return types.GenericAlias(cls, item)

    def keys(self):
        """The keys that are cached, as a list, stripe by stripe."""
        return self._stripes.keys()

    def expire(self):
        """Uncaches all that has expired, but for keys that a call has, and says how many. Nothing is awaited."""
        return self._stripes.expire()

    def invalidate(self, key):
        """Forgets a key, because the store has another value by now: the store isn't asked. Nothing is awaited. If a call has reserved the
        key, its entry is dropped as that call ends, and calls that begin before wait for that end. So what begins after this has returned is
        answered nothing that was read before, by no load either. Of a closed cache it does nothing."""
        self._stripes.invalidate(key)

    def invalidate_all(self):
        """The same as invalidate, of all keys."""
        self._stripes.invalidate_all()

    def suspend(self):
        """Forgets all keys, as invalidate_all does, and keeps nothing until resume(): each call asks the store, or joins a load that began
        since."""
        self._stripes.suspend()

    def resume(self):
        """Forgets all keys once more, and keeps what is read and written from now on."""
        self._stripes.resume()

    @property
    def suspended(self):
        """Whether it keeps nothing: see suspend."""
        return self._stripes.suspended

    def stats(self):
        """Hits, misses, puts, removals and evictions since the cache was made, as a dict (JCache: CacheStatisticsMXBean)."""
        return self._stripes.stats()

    def __len__(self):
        """How many keys are cached."""
        return len(self._stripes)

    def __bool__(self):
        """A cache is true, also if it is empty."""
        return True

    def __iter__(self):
        """Iterates over the keys that are cached now. The loader isn't asked."""
        return iter(self.keys())

    def __reduce__(self):
        return self._stripes.__reduce__()

    @property
    def name(self):
        """What errors call it."""
        return self._stripes.name

    @property
    def closed(self):
        """Whether the cache was closed."""
        return self._stripes.closed

    def close(self):
        """Later calls, and those that wait to begin, raise ClosedError; calls under way end as they would (JCache: close). Nothing is
        awaited, and it may be called again."""
        self._stripes.close()

    async def aclose(self):
        """A close that waits for the writes that go on, of other loops, too."""
        self.close()
        self._end_the_dead()
        while self._tasks and not self._stripes._is_foreign:
            await _awaiting.sleep(next(iter(self._tasks.values())))

    async def __aenter__(self):
        return self

    async def __aexit__(self, *_):
        await self.aclose()

    def _agrees(self):
        return self._stripes._agrees()
