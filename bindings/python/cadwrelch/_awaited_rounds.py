"""A call of many keys whose task waits: the rounds of an AsyncCache."""
import asyncio

from . import _core, rounds, waiting
from ._awaiting import attempt
from .errors import CacheError


async def _answer(item, function, *arguments):
    item.answer, item.error = await attempt(function, *arguments)


async def _each(coroutines):
    """Awaits them at once."""
    if len(coroutines) == 1:
        await coroutines[0]
    else:
        await asyncio.gather(*coroutines)


class Calls(rounds.Round):
    """A call of many keys, whose task waits."""

    def __init__(self, cache, work):
        super().__init__(cache._stripes, cache._life, work, cache.name)
        self._cache = cache

    async def run(self):
        """All rounds: what was found."""
        while self.items:
            with waiting.in_round(self):
                blocked = await self._round()
            if blocked is not None:
                await self._wait(blocked)
        return self.result()

    async def _round(self):
        """One round. If it could reserve and join nothing: what it waits for."""
        reserved, joined, blocked = self.begin()
        if not reserved and not joined:
            return blocked
        try:
            if reserved and reserved[0].call.next == _core.ASK_LOAD:
                await self._load(reserved)
            elif reserved:
                await self._cache._to_its_end(self._write(reserved))
            for item in joined:
                await self._pick_up(item)
        finally:
            self.forget(joined)
        return None

    async def _wait(self, blocked):
        try:
            await self._cache._until_free(blocked)
        except CacheError as error:
            self.stop(self.items, error)

    async def _load(self, reserved):
        try:
            with waiting.holding(*[item.call.flight for item in reserved]):
                _, error = await attempt(self._ask_loader, reserved)
                if error is not None:
                    self.loaded(reserved, None, error)
                    del error
                self.commit_loads(reserved)
        finally:
            self.forget(reserved)
        self.raise_interrupt()

    async def _ask_loader(self, reserved):
        """Asks the loader. One of one key is asked for all at once."""
        loader = self._cache._loader
        if loader.load_many is None:
            await _each([_answer(item, loader.load, item.key) for item in reserved])
        else:
            keys = [item.key for item in reserved]
            self.loaded(reserved, rounds.values_of(await loader.load_many(keys), keys), None)

    async def _write(self, reserved):
        try:
            with waiting.holding(*[item.call.flight for item in reserved]):
                _, error = await attempt(self._ask_writer, reserved)
                if error is not None:
                    self.written(reserved, error)
                    del error
                self.commit_writes(reserved)
        finally:
            self.forget(reserved)
        self.raise_interrupt()

    async def _ask_writer(self, reserved):
        """Asks the writer. One of one key is asked for all at once."""
        writer = self._cache._writer
        is_write = reserved[0].call.next == _core.ASK_WRITE
        if is_write and writer.write_many is not None:
            await writer.write_many({item.key: item.value for item in reserved})
        elif not is_write and writer.delete_many is not None:
            await writer.delete_many([item.key for item in reserved])
        else:
            await _each([_answer(item, self._cache._ask_writer, item.key, item.value) for item in reserved])
            for item in reserved:
                item.answer = rounds.outcome_of(item.error)
            return
        self.written(reserved, None)

    async def _pick_up(self, item):
        joined, item.error = await attempt(self._cache._join, item.call)
        if joined is not None:
            reply, item.error = joined
            del joined
            self.picked_up(item, reply)
        else:
            # It is abandoned.
            self.end(item, None, item.error)
            self.raise_interrupt()
