"""A call that is recorded, and what has failed in it."""
import contextlib
import contextvars
import itertools

from .errors import BulkError, LoaderError, WriterError

CALL = contextvars.ContextVar('cadwrelch.recording', default=None)
"""The innermost call that this thread, or this task, is in."""
_CODES = itertools.count(1)
_LETTERS = frozenset(b'ABCDEFGHIJKLMNOPQRSTUVWXYZabcdefghijklmnopqrstuvwxyz0123456789_')
_KEY_MAX, _VALUE_MAX, _SHOWN = 32, 256, 20
"""How many bytes the words of keys and values may have in a record, and how many of a longer one are shown before its number."""
LOADER, WRITER, PROCESSOR = 'LoaderFailed', 'WriterFailed', 'ProcessorFailed'
UNTOLD = 'threw untold'
"""The reply of a call that doesn't say what it answered: any reply may have been its."""


class Call:
    """A call that is recorded: its number, its thread, the words of its keys (None: all keys), and what has failed in it."""

    def __init__(self, recorder, number, thread, op, keys):
        self.recorder, self.number, self.thread, self.op, self.keys = recorder, number, thread, op, keys
        self.spare = None           # where its thread's name goes back to when it ends, if it has one of its own
        self.outer = CALL.get()
        self.part = self.thrown = None
        self.failed_value = None    # the code of a load that has failed under a processor
        self.ended = False
        self.unclear = False        # something happened that a record has no word for

    def names(self, words):
        return self.keys is None or not self.keys.isdisjoint(words)


def note_code(error):
    """The code of what a loader, a writer or a processor has raised. The exception itself keeps it."""
    code = getattr(error, '_recorded_code', None)
    if code is None:
        code = next(_CODES)
        with contextlib.suppress(AttributeError, TypeError):
            error._recorded_code = code
    return code


def code_among_causes(error):
    """The code of the outermost of these causes that has one, or None."""
    for _ in range(100):
        if error is None or hasattr(error, '_recorded_code'):
            break
        error = error.__cause__
    return getattr(error, '_recorded_code', None)


def fault(call, error):
    """The reply of a call that has raised: what has failed, with its code; or the exception's name."""
    code = code_among_causes(error)
    part = _part(call, error, code)
    if part is None:
        return f'threw {spelled(type(error).__name__)}'
    return f'{part} {code if call.failed_value is None else call.failed_value}'


def _part(call, error, code):
    if call.op == 'invoke' and call.failed_value is not None:
        return LOADER    # whatever the processor has raised then
    if code is None:
        return None
    if error is call.thrown:
        return call.part    # it is raised as it is
    if isinstance(error, LoaderError):
        return LOADER
    if isinstance(error, WriterError):
        return WRITER
    if isinstance(error, BulkError):
        return LOADER if call.op in ('getall', 'loadall') else WRITER
    return LOADER if call.op in ('get', 'getall', 'loadall') else None    # of a load that it has joined


def spelled(text):
    """A text as a word: letters, digits and _ as they are, other bytes as a dot and two digits. Two texts that differ have two words."""
    return ''.join(chr(byte) if byte in _LETTERS else f'.{byte:02X}' for byte in text.encode('utf-8', 'surrogatepass'))


class Words:
    """How keys and values are spelled in a record, by their names. Those that are too long for a record are beginnings with numbers."""

    def __init__(self, names):
        self._names, self._shortened = names, {}

    def key(self, key):
        return self._within(_KEY_MAX, spelled(self._names(key))) or '..'

    def value(self, value):
        return '-' if value is None else self._within(_VALUE_MAX, spelled(self._names(value))) or '~'

    def pair(self, key, value):
        return f'{self.key(key)}={self.value(value)}'

    def _within(self, most, word):
        """No other word has two dots."""
        if len(word) <= most:
            return word
        return self._shortened.setdefault(word, f'{word[:_SHOWN]}..{next(_CODES)}')
