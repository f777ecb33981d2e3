"""A cache whose calls are recorded."""
from ._recorded_call import UNTOLD
from ._recorded_outside import flag, recorded_processor

MISSING = object()


def _ok(_):
    return 'ok'


class RecordedCache:
    """A cache whose calls are recorded. It has the calls of the cache that it stands round; others than those of the rules (keys, len,
    stats, close, ..) are made and not recorded. Of a dict it has get, [], in and del, and not what changes several keys or none."""

    _OTHERS = frozenset(('pop', 'popitem', 'setdefault', 'update', '__ior__'))

    def __init__(self, recorder, cache):
        self._recorder, self._cache = recorder, cache

    def __getattr__(self, name):
        if name in self._OTHERS:
            raise AttributeError(f'{name} is not recorded')
        return getattr(self._cache, name)

    def __len__(self):
        return len(self._cache)

    def __iter__(self):
        return iter(self._cache)

    def __enter__(self):
        self._cache.__enter__()
        return self

    def __exit__(self, *failure):
        return self._cache.__exit__(*failure)

    def _at(self, op, key, values, work, told):
        words = [self._recorder._words.key(key), *map(self._recorder._words.value, values)]
        return self._recorder._made(op, words, {words[0]}, lambda _: work(), told)

    def get(self, key, default=None):
        found = self._at('get', key, (), lambda: self._cache.get(key, MISSING), self._found)
        return default if found is MISSING else found

    def _found(self, found):
        return '-' if found is MISSING else self._recorder._words.value(found)

    def __getitem__(self, key):
        found = self._at('get', key, (), lambda: self._item(key), self._found)
        if found is MISSING:
            raise KeyError(key)
        return found

    def _item(self, key):
        """A KeyError is the cache's answer, unless the loader has raised it."""
        try:
            return self._cache[key]
        except KeyError as error:
            if hasattr(error, '_recorded_code'):
                raise
            return MISSING

    def hit(self, key):
        """What is cached. It is recorded as a get if there is something, and otherwise not: it may answer None in any case."""
        recorder, word = self._recorder, self._recorder._words.key(key)
        call, line = recorder._begin('get', [word], {word})
        found = None
        try:
            found = self._cache.hit(key)
            return found
        finally:
            if found is None:
                recorder._drop(call, line)
            else:
                recorder._end(call, recorder._words.value(found))

    def __contains__(self, key):
        return self._at('contains', key, (), lambda: key in self._cache, flag)

    def __setitem__(self, key, value):
        self._at('put', key, (value,), lambda: self._cache.__setitem__(key, value), _ok)

    def __delitem__(self, key):
        self._at('remove', key, (), lambda: self._cache.__delitem__(key), lambda _: UNTOLD)

    def put(self, key, value, **words):
        put = self._cache.put
        return self._at('put', key, (value,), lambda: put(key, value, **words), _ok)

    def get_and_put(self, key, value, **words):
        put = self._cache.get_and_put
        return self._at('getput', key, (value,), lambda: put(key, value, **words), self._recorder._words.value)

    def put_if_absent(self, key, value, **words):
        put = self._cache.put_if_absent
        return self._at('putif', key, (value,), lambda: put(key, value, **words), flag)

    def remove(self, key):
        remove = self._cache.remove
        return self._at('remove', key, (), lambda: remove(key), flag)

    def remove_if(self, key, old):
        remove = self._cache.remove_if
        return self._at('removeif', key, (old,), lambda: remove(key, old), flag)

    def get_and_remove(self, key):
        remove = self._cache.get_and_remove
        return self._at('getremove', key, (), lambda: remove(key), self._recorder._words.value)

    def replace(self, key, value, **words):
        replace = self._cache.replace
        return self._at('replace', key, (value,), lambda: replace(key, value, **words), flag)

    def replace_if(self, key, old, value, **words):
        replace = self._cache.replace_if
        return self._at('replaceif', key, (old, value), lambda: replace(key, old, value, **words), flag)

    def get_and_replace(self, key, value, **words):
        replace = self._cache.get_and_replace
        return self._at('getreplace', key, (value,), lambda: replace(key, value, **words), self._recorder._words.value)

    def invoke(self, key, processor, *arguments):
        invoke, word = self._cache.invoke, self._recorder._words.key(key)
        return self._recorder._made('invoke', [word], {word}, lambda call: invoke(key, recorded_processor(call, word, processor), *arguments),
                                    self._recorder._words.value)

    def _of_many(self, op, first, keys, work, told):
        words = [self._recorder._words.key(key) for key in dict.fromkeys(keys)]
        return self._recorder._made(op, first or words, set(words), lambda _: work(), told) if words else work()

    def get_many(self, keys):
        get, keys = self._cache.get_many, list(keys)
        return self._of_many('getall', None, keys, lambda: get(keys),
                             lambda found: ' '.join(['all', *(self._recorder._words.pair(*pair) for pair in found.items())]))

    def put_many(self, entries):
        put, entries = self._cache.put_many, dict(entries)
        return self._of_many('putall', [self._recorder._words.pair(*pair) for pair in entries.items()], entries, lambda: put(entries), _ok)

    def remove_many(self, keys):
        remove, keys = self._cache.remove_many, list(keys)
        return self._of_many('removeall', None, keys, lambda: remove(keys), _ok)

    def load_many(self, keys, replace=False):
        load, keys = self._cache.load_many, list(keys)
        words = ['replace' if replace else 'keep', *map(self._recorder._words.key, dict.fromkeys(keys))]
        return self._of_many('loadall', words, keys, lambda: load(keys, replace), _ok)

    def clear(self):
        clear = self._cache.clear
        return self._recorder._made('clear', [], None, lambda _: clear(), _ok)
