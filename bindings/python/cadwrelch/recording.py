"""Records what a cache is asked and answers, and what its loader and its writer are asked and answer, as the text `history 1`. Whether a
cache may behave so is what `jcache check` says.

    recorder = CallRecorder()
    pages = recorder.cache(cadwrelch.Cache(loader=recorder.loader(read_page), writer=recorder.writer(write_page)))
    ...                                     # threads call pages
    recorder.write('pages.history')

The cache may be any that is called as a Cache of this package, or as a dict that loads what it lacks. One recorder is for one cache.
"""
import contextlib
import itertools
import threading
import time

from ._recorded_cache import RecordedCache
from ._recorded_call import CALL, UNTOLD, Call, Words, fault, note_code
from ._recorded_outside import Loader, LoaderOfMany, Writer, WriterOfMany

__all__ = ['CallRecorder', 'RecordedCache']


class CallRecorder:
    """Records the calls of one cache. Any thread may call any method.

    names(key or value): its text, by default str. What is equal has one text, and what isn't, has others.
    """

    def __init__(self, names=str):
        self._words = Words(names)
        self._numbers = itertools.count(1)
        self._threads = itertools.count(1)
        self._mine = threading.local()
        self._all = []
        self._opening = {}
        self._under_way = {}
        self._reads = self._writes = False

    def stored(self, key, value):
        """Says what the store has at first; None: no value, as of each key that isn't told."""
        self._opening[self._words.key(key)] = self._words.value(value)

    def loader(self, loader):
        """A loader that records what it is asked and answers: a callable, or an object with load and, if the loader has it, load_many."""
        self._reads = True
        if not callable(getattr(loader, 'load', None)):
            return Loader(self, loader, None).load
        many = getattr(loader, 'load_many', None)
        return Loader(self, loader.load, None) if many is None else LoaderOfMany(self, loader.load, many)

    def writer(self, writer):
        """A writer that records what it is asked and answers: a callable, or an object with write, delete and, if the writer has them,
        write_many and delete_many. Outside of the cache's calls it records a change that another program makes."""
        self._writes = True
        if not callable(getattr(writer, 'write', None)):
            return Writer(self, writer).changed
        return WriterOfMany(self, writer) if hasattr(writer, 'write_many') else Writer(self, writer)

    def cache(self, cache, *, read_through=None, write_through=None):
        """A cache that records its calls. read_through and write_through say whether its calls ask loader and writer; by default they do if
        these were wrapped."""
        self._reads = self._reads if read_through is None else read_through
        self._writes = self._writes if write_through is None else write_through
        return RecordedCache(self, cache)

    def current_call(self):
        """The number of the call that this thread is in, for a cache that asks its loader on a thread of its own; None if it is in none."""
        call = self._call()
        return None if call is None else call.number

    @contextlib.contextmanager
    def in_call(self, number):
        """What is done in it belongs to the call with this number, or to none if that is None, or has ended."""
        with self._inside(self._under_way.get(number)):
            yield

    def text(self):
        """What was recorded so far, in the order of time. Calls may still run: these have no end in it."""
        end = time.monotonic_ns()
        lines = [line for mine in self._all for line in list(mine) if line[0] <= end and line[2] is not None]
        lines.sort(key=lambda line: line[0])
        first = lines[0][0] if lines else 0
        head = ['history 1', 'open' + ' read' * self._reads + ' write' * self._writes]
        head += [f'set {key} {value}' for key, value in sorted(self._opening.items())]
        body = [f'@{at - first} {thread} {one}' for at, thread, text in lines for one in text.split('\n')]
        return '\n'.join(head + body) + '\n'

    def write(self, path):
        """Writes what was recorded so far to a file."""
        with open(path, 'w', encoding='utf-8') as file:
            file.write(self.text())

    def _lines(self):
        """The lines of this thread, and its name."""
        mine = self._mine
        if not hasattr(mine, 'lines'):
            mine.lines, mine.name, mine.spare = [], f't{next(self._threads)}', []
            self._all.append(mine.lines)
        return mine

    def _note(self, text, thread=None):
        """Notes a line, which may be changed later: its time, its thread, its text."""
        mine = self._lines()
        line = [time.monotonic_ns(), thread or mine.name, text]
        mine.lines.append(line)
        return line

    def _call(self, words=None):
        """The innermost call of this recorder's cache that this thread is in, if it names one of these keys."""
        call = CALL.get()
        while call is not None and (call.recorder is not self or call.ended):
            call = call.outer
        return call if call is None or words is None or call.names(words) else None

    @contextlib.contextmanager
    def _inside(self, call):
        token = CALL.set(call)
        try:
            yield
        finally:
            CALL.reset(token)

    def _begin(self, op, words, keys):
        """A new call. One inside of another needn't take effect before that: it has a thread of its own in the record. When it ends, the
        next one has that thread's name."""
        mine = self._lines()
        call = Call(self, next(self._numbers), mine.name, op, keys)
        self._under_way[call.number] = call
        if self._call() is not None:
            call.spare = mine.spare
            call.thread = mine.spare.pop() if mine.spare else f't{next(self._threads)}'
        return call, self._note(' '.join([f'call {call.number} {op}', *words]), call.thread)

    def _end(self, call, reply):
        self._note(f'is {call.number} {UNTOLD if call.unclear else reply}', call.thread)
        call.ended = True
        del self._under_way[call.number]
        if call.spare is not None:
            call.spare.append(call.thread)

    def _drop(self, call, line):
        """A call of which nothing is said."""
        line[2] = None
        call.ended = True
        del self._under_way[call.number]

    def _owner(self, keys, op):
        """The number of the call that this thread is in, if it names one of these keys; or that of one of nobody, which doesn't end. With
        its call, and the line that begins it, if it is nobody's. `op` has its words."""
        call = self._call(keys)
        number = next(self._numbers) if call is None else call.number
        return number, call, f'call {number} {op}\n' if call is None else ''

    def _made(self, op, words, keys, work, told):
        """Makes a call. `work(call)` is what is done, and `told(result)` the words of the reply."""
        call, _ = self._begin(op, words, keys)
        try:
            with self._inside(call):
                result = work(call)
        except BaseException as error:
            self._end(call, fault(call, error))
            raise
        self._end(call, told(result))
        return result

    def _fail(self, call, part, error):
        """Notes in a call that a part of it has failed, and returns that failure's code."""
        if call is not None:
            call.part, call.thrown = part, error
        return note_code(error)
