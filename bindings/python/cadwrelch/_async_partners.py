"""Whom an AsyncCache asks: its loader and its writer, and the entry that a processor is run on."""
from ._awaiting import attempt
from .cache import Entry
from .shape import many, method


class Loader:
    """A coroutine function, or an object with such methods load(key) and, if it likes, load_many(keys)."""

    def __init__(self, loader):
        self.load = method(loader, 'load', 'loader')
        self.load_many = many(loader, 'load_many')


class Writer:
    """A coroutine function (key, value), with None to delete, or an object with such methods write, delete, and, if it likes, of many."""

    def __init__(self, writer):
        self.write = method(writer, 'write', 'writer')
        self.delete = writer.delete if hasattr(writer, 'write') else lambda key: writer(key, None)
        self.write_many = many(writer, 'write_many')
        self.delete_many = many(writer, 'delete_many')


class AsyncEntry(Entry):
    """An entry while its processor runs. `await entry.load()` asks the loader, as `entry.value` of a Cache does."""

    @property
    def value(self):
        """The value, or None. The loader isn't asked."""
        self._check()
        self._is_used = True
        return self._value

    @value.setter
    def value(self, value):
        Entry.value.fset(self, value)

    @value.deleter
    def value(self):
        self.remove()

    async def load(self):
        """The value, or None. With read-through the loader is asked if there is none and the processor has changed nothing: once, and a
        LoaderError of it is raised at each further load, too (JCache: getValue)."""
        self._check()
        self._is_used = True
        if self._may_ask():
            self._note_load(*await attempt(self._cache._loader.load, self.key))
        return self._read()
