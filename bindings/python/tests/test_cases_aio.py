"""Plays the table of cases through an AsyncCache. A thread of a case has an event loop of its own."""
import asyncio
import inspect
import types

import cadwrelch
from cadwrelch import _awaiting

from . import test_cases


def awaited(method):
    async def call(*arguments):
        return method(*arguments)

    return call


async def result_of(call):
    return await call


class AsyncPlayer(test_cases.Player):
    """Plays one case."""

    sleeps_in = _awaiting

    def make_cache(self, **words):
        methods = ('load', 'load_many', 'write', 'write_many', 'delete', 'delete_many')
        store = types.SimpleNamespace(**{name: awaited(getattr(self, name)) for name in methods})
        return cadwrelch.AsyncCache(store, store, **words)

    def call(self, verb, words):
        found = super().call(verb, words)
        return asyncio.run(result_of(found)) if inspect.isawaitable(found) else found

    async def process(self, entry, acts):
        answers = []
        for act in acts:
            if act == 'get':
                try:
                    answers.append(await entry.load() or 'none')
                except cadwrelch.LoaderError:
                    answers.append('failed')
            else:
                answers.append(self.act(entry, act))
        return ' '.join(filter(None, answers)) or 'ok'


class AsyncCases(test_cases.Cases):
    player = AsyncPlayer
