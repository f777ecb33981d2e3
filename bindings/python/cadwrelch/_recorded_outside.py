"""What a recorded cache asks: loaders, writers and processors that note what they are asked and answer."""
from ._recorded_call import LOADER, PROCESSOR, WRITER, code_among_causes
from .errors import NotWritten


class Loader:
    def __init__(self, recorder, one, many):
        self._recorder, self._one, self._many = recorder, one, many

    def load(self, key):
        return self._noted([key], lambda: self._one(key), lambda value: {key: value})

    def _noted(self, keys, work, found):
        recorder = self._recorder
        words = ' '.join(recorder._words.key(key) for key in keys)
        owner, call, begin = recorder._owner(words.split(' '), f'loadall replace {words}')
        recorder._note(f'{begin}load {owner} {words}')
        try:
            result = work()
        except BaseException as error:
            recorder._note(f'loadfails {owner} {recorder._fail(call, LOADER, error)}')
            raise
        values = found(result)
        pairs = [recorder._words.pair(key, values[key]) for key in keys if values.get(key) is not None]
        recorder._note(' '.join([f'loads {owner}', *pairs]))
        return result


class LoaderOfMany(Loader):
    def load_many(self, keys):
        keys = list(keys)
        return self._noted(list(dict.fromkeys(keys)), lambda: self._many(keys), lambda values: values)


class Writer:
    def __init__(self, recorder, writer):
        self._recorder, self._to = recorder, writer

    def changed(self, key, value):
        """The form of a callable: None is to be deleted."""
        what = 'delete' if value is None else 'write'
        return self._noted(what, {key: value}, lambda: self._to(key, value))

    def write(self, key, value):
        return self._noted('write', {key: value}, lambda: self._to.write(key, value))

    def delete(self, key):
        return self._noted('delete', {key: None}, lambda: self._to.delete(key))

    def _noted(self, what, changes, work):
        recorder = self._recorder
        words = {key: recorder._words.key(key) for key in changes}
        pairs = words.values() if what == 'delete' else [recorder._words.pair(key, value) for key, value in changes.items()]
        asked = ' '.join(pairs)
        owner, call, begin = recorder._owner(words.values(), f'{"removeall" if what == "delete" else "putall"} {asked}')
        recorder._note(f'{begin}{what} {owner} {asked}')
        try:
            result = work()
        except BaseException as error:
            left = [' but', *(words[key] for key in error.keys if key in words)] if isinstance(error, NotWritten) else []
            recorder._note(f'{what}fails {owner} {recorder._fail(call, WRITER, error)}' + ' '.join(left))
            raise
        recorder._note(f'{what}s {owner}')
        return result


class WriterOfMany(Writer):
    def write_many(self, entries):
        return self._noted('write', dict(entries), lambda: self._to.write_many(entries))

    def delete_many(self, keys):
        keys = list(keys)
        return self._noted('delete', dict.fromkeys(keys), lambda: self._to.delete_many(keys))


class Entry:
    """The entry that a processor sees. Each call on it is a word."""

    def __init__(self, call, entry, told):
        self._call, self._entry, self._told = call, entry, told

    def __getattr__(self, name):
        return getattr(self._entry, name)

    def exists(self):
        there = self._entry.exists()
        self._told.append(f'exists={flag(there)}')
        return there

    @property
    def value(self):
        try:
            found = self._entry.value
        except BaseException as error:
            self._fail(code_among_causes(error))
            raise
        self._told.append(f'get={self._call.recorder._words.value(found)}')
        return found

    def _fail(self, code):
        if code is None or self._call.part != LOADER:
            self._call.unclear = True
        else:
            self._call.failed_value = code
            self._told.append(f'getfails={code}')

    @value.setter
    def value(self, value):
        self._entry.value = value
        self._told.append(f'set={self._call.recorder._words.value(value)}')

    @value.deleter
    def value(self):
        self.remove()

    def remove(self):
        self._entry.remove()
        self._told.append('remove')


def recorded_processor(call, word, processor):
    """A processor whose calls on its entry are one line, when it has ended."""
    def process(entry, *arguments):
        told = []
        try:
            result = processor(Entry(call, entry, told), *arguments)
            told.append(f'returns={call.recorder._words.value(result)}')
            return result
        except BaseException as error:
            through = call.failed_value is not None and code_among_causes(error) == call.failed_value
            told.append(f'fails={call.failed_value if through else call.recorder._fail(call, PROCESSOR, error)}')
            raise
        finally:
            if not call.unclear:
                call.recorder._note(' '.join([f'process {call.number} {word}', *told]))
    return process


def flag(value):
    """The word of a truth value."""
    return 'true' if value else 'false'
