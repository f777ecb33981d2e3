"""One stripe of the core: a machine of phases, without I/O, lock or thread.

This is the library's own interface, by ctypes. A desk is used by one thread at a time: its caller keeps a lock. What is wrong raises
CoreError, with nothing done. The words are those of the header cadwrelch.h.
"""
import ctypes
import os
from ctypes import c_bool, c_char_p, c_size_t, c_uint8, c_uint32, c_uint64, c_void_p

from . import _core

VERSION = 2000
"""The version that this module is of: 1,000,000 * major + 1,000 * minor + patch."""

KEY_MAX = 32
VALUE_MAX = 256
STRIPES_MAX = 64
CAPACITY_MAX = 4096
HISTORY_MIN = 16
HISTORY_MAX = 65536

OK, WRONG_HANDLE, NO_MEMORY, BAD_ARGUMENT, MISUSE, IN_USE, NONE = range(7)
CODES = (
    'done',
    'the desk is not open, or is open already',
    'out of memory',
    'a key, a value or a shape is out of its limits',
    'no such ticket or join is out, or the answer does not fit it',
    'a ticket or a join is out, or an answer is parked',
    'there is no entry',
)

(GET, CONTAINS_KEY, PUT, GET_AND_PUT, PUT_IF_ABSENT, REMOVE, REMOVE_IF, GET_AND_REMOVE, REPLACE, REPLACE_IF, GET_AND_REPLACE, CLEAR_KEY,
 LOAD, RELOAD, INVOKE) = range(15)
(DONE, ASK_LOAD, ASK_WRITE, ASK_DELETE, ASK_PROCESS, JOINED, REFUSED, AGAIN, NOT_YET, FULL, SHUT) = range(11)
UNIT, NO, YES, NULL, VALUE, LOADER_FAILED, WRITER_FAILED, PROCESSOR_FAILED = range(8)
HISTORY_FULL, BUSY, TOO_MANY_IN_FLIGHT, TOO_MANY_JOINERS, OTHER = range(5)
STORED, REMOVED, EVICTED, OWN_EVICTED_FULL, OWN_EVICTED_MEMORY, INVALIDATED = 1, 2, 4, 8, 16, 32
NOT_ASKED, FOUND, NOTHING, FAILED = range(4)
WRITTEN = 1
KEEP, SET, EFFECT_REMOVE, EFFECT_FAILED, NOT_RUN = range(5)
STEP, EVICTION = range(2)
ROOM, MEMORY, CAUSE_INVALIDATED = range(3)


class CoreError(Exception):
    """The core refused a call, with nothing done."""

    def __init__(self, code):
        super().__init__(CODES[code])
        self.code = code


class _Bytes(ctypes.Structure):
    """A length, and room for so many bytes."""

    def get(self):
        """The bytes that count."""
        return ctypes.string_at(ctypes.addressof(self) + 4, self.len)

    def set(self, value):
        """Writes bytes. Of too many it becomes one that the library refuses."""
        self.len = len(value)
        ctypes.memmove(self.bytes, value, min(len(value), len(self.bytes)))


class Value(_Bytes):
    """A value of 0 to 256 bytes."""

    _fields_ = [('len', c_uint32), ('bytes', c_uint8 * VALUE_MAX)]


class Key(_Bytes):
    """A key of 1 to 32 bytes."""

    _fields_ = [('len', c_uint32), ('bytes', c_uint8 * KEY_MAX)]


class Entry(ctypes.Structure):
    """A key and its value."""

    _fields_ = [('key', Key), ('value', Value)]


class Shape(ctypes.Structure):
    """The shape of a cache: see the header."""

    _fields_ = [('stripes', c_size_t), ('capacity', c_size_t), ('history', c_size_t), ('read_through', c_bool), ('write_through', c_bool),
                ('keeps_events', c_bool), ('out_size', c_uint32)]

    def __init__(self, *args, **words):
        super().__init__(*args, **words)
        self.out_size = ctypes.sizeof(Out)


class Out(ctypes.Structure):
    """What a phase answers. Only the fields that next and reply speak of are written."""

    _fields_ = [('next', c_uint32), ('reply', c_uint32), ('code', c_uint32), ('place', c_uint32), ('shared', c_uint32), ('moves', c_uint32),
                ('number', c_uint64), ('call', c_uint64), ('value', Value), ('left', Value), ('victim', Key), ('evicted', Value)]


class Processed(ctypes.Structure):
    """What a processor did."""

    _fields_ = [('load', c_uint32), ('load_code', c_uint32), ('effect', c_uint32), ('code', c_uint32), ('write', c_uint32),
                ('write_code', c_uint32), ('has_outcome', c_bool), ('loaded', Value), ('set_value', Value), ('outcome', Value)]


class FlatEvent(ctypes.Structure):
    """An event of a generation: see the header."""

    _fields_ = [('kind', c_uint32), ('session', c_uint32), ('call', c_uint64), ('op', c_uint32), ('is_shared', c_bool),
                ('shared_with', c_uint32), ('reply', c_uint32), ('reply_code', c_uint32), ('cause', c_uint32), ('key', Key),
                ('value', Value), ('other', Value), ('replied', Value), ('outside', Processed)]


class Statistics(ctypes.Structure):
    """What all events since the opening count."""

    _fields_ = [('hits', c_uint64), ('misses', c_uint64), ('puts', c_uint64), ('removals', c_uint64), ('evictions', c_uint64)]


class Handle(ctypes.Structure):
    """A handle of a desk; only the library reads or writes it."""

    _fields_ = [('at', c_void_p), ('is_open', c_bool)]


def _path():
    # The extension has the library in it, and exports it.
    path = os.environ.get('CADWRELCH_CORE_SO') or _core.__file__
    if not os.path.exists(path):
        raise ImportError(f'the core is missing: there is no {path}. Unset CADWRELCH_CORE_SO, or set it to the path of a libcadwrelch.so')
    return path


def _load():
    # The calls are short: they keep the interpreter's lock.
    library = ctypes.PyDLL(_path())
    handle, out, pointer = c_void_p, c_void_p, c_void_p
    parameters = {
        'jc_open': (handle, pointer, c_size_t, pointer, c_size_t),
        'jc_close': (handle,),
        'jc_begin': (handle, c_uint32, c_uint32, c_char_p, c_size_t, c_char_p, c_size_t, c_char_p, c_size_t, out),
        'jc_hit': (handle, c_uint32, c_char_p, c_size_t, pointer),
        'jc_commit_load': (handle, c_uint64, c_uint32, c_uint32, c_char_p, c_size_t, out),
        'jc_commit_write': (handle, c_uint64, c_uint32, c_uint32, out),
        'jc_commit_process': (handle, c_uint64, pointer, out),
        'jc_withdraw': (handle, c_uint64, out),
        'jc_pick_up': (handle, c_uint32, c_uint64, c_char_p, c_size_t, c_uint64, out),
        'jc_invalidate': (handle, c_char_p, c_size_t, out),
        'jc_invalidate_all': (handle,),
        'jc_sweep': (handle, out),
        'jc_peek': (handle, c_char_p, c_size_t, pointer),
        'jc_statistics_of': (handle, pointer),
        'jc_entries': (handle, pointer, c_size_t, pointer),
        'jc_events_len': (handle,),
        'jc_event': (handle, c_size_t, pointer),
        'jc_legal': (pointer, pointer, c_size_t, pointer, c_size_t, pointer),
        'jc_end_generation': (handle,),
        'jc_version': (),
    }
    try:
        for name, kinds in parameters.items():
            function = getattr(library, name)
            function.argtypes = kinds
            function.restype = c_size_t if name == 'jc_events_len' else c_uint32
    except AttributeError as error:
        raise ImportError(f'{_path()} is not the core {_dotted(VERSION)}: {error}') from None
    return library


def _dotted(version):
    return f'{version // 1000000}.{version // 1000 % 1000}.{version % 1000}'


def _check_version(library):
    """Before 1.0 a struct may change with the minor number."""
    version = library.jc_version()
    if version // 1000 != VERSION // 1000:
        raise ImportError(f'this module is for the core {_dotted(VERSION)}, and {_path()} is the core {_dotted(version)}: unset CADWRELCH_CORE_SO, or '
                          'set it to a libcadwrelch.so of this version')
    return library


def _check_sizes():
    sizes = {Handle: 16, Shape: 32, Value: 260, Key: 36, Entry: 296, Out: 856, Processed: 808, FlatEvent: 1664, Statistics: 40}
    for kind, size in sizes.items():
        if ctypes.sizeof(kind) != size:
            raise ImportError(f'{kind.__name__} has {ctypes.sizeof(kind)} bytes here, and {size} in the core')


_check_sizes()
LIBRARY = _check_version(_load())
# The call of a hit, for arguments that are objects of ctypes already: that is twice as fast.
HIT = LIBRARY['jc_hit']


class Desk:
    """One stripe. What a phase answers is in out, until the next phase."""

    def __init__(self, shape, number=0, entries=()):
        self.out = Out()
        self._handle = Handle()
        self.address = ctypes.addressof(self._handle)
        self._told = ctypes.addressof(self.out)
        self._value = Value()
        self.open(shape, number, entries)

    def open(self, shape, number=0, entries=()):
        """Opens a desk that was closed, with these (key, value), the first one the most recently used."""
        room = _entries(entries)
        _check(LIBRARY.jc_open(self.address, ctypes.addressof(shape), number, ctypes.addressof(room), len(entries)))

    def close(self):
        """Closes and frees it."""
        _check(LIBRARY.jc_close(self.address))

    def begin(self, session, op, key, value=b'', other=b''):
        """The first phase of the session's next call."""
        code = LIBRARY.jc_begin(self.address, session, op, key, len(key), value, len(value), other, len(other), self._told)
        if code:
            raise CoreError(code)
        return self.out

    def hit(self, session, key):
        """A get that finds its entry; or None, and nothing was done."""
        return self._valued(LIBRARY.jc_hit(self.address, session, key, len(key), ctypes.addressof(self._value)))

    def peek(self, key):
        """The key's entry, or None. No call is made."""
        return self._valued(LIBRARY.jc_peek(self.address, key, len(key), ctypes.addressof(self._value)))

    def _valued(self, code):
        if code == NONE:
            return None
        _check(code)
        return self._value.get()

    def commit_load(self, ticket, answer, code=0, value=b''):
        """The last phase of a call whose loader was asked."""
        _check(LIBRARY.jc_commit_load(self.address, ticket, answer, code, value, len(value), self._told))
        return self.out

    def commit_write(self, ticket, answer, code=0):
        """The last phase of a call whose writer was asked."""
        _check(LIBRARY.jc_commit_write(self.address, ticket, answer, code, self._told))
        return self.out

    def commit_process(self, ticket, processed):
        """The last phase of a call whose processor ran."""
        _check(LIBRARY.jc_commit_process(self.address, ticket, ctypes.addressof(processed), self._told))
        return self.out

    def withdraw(self, ticket):
        """Gives a ticket back whose loader, writer or processor was not asked."""
        _check(LIBRARY.jc_withdraw(self.address, ticket, self._told))
        return self.out

    def pick_up(self, session, call, key, load):
        """Picks up the answer of a load that was joined."""
        _check(LIBRARY.jc_pick_up(self.address, session, call, key, len(key), load, self._told))
        return self.out

    def invalidate(self, key):
        """Forgets a key that somebody else has written in the store. out.next is DONE; or SHUT: sweep."""
        _check(LIBRARY.jc_invalidate(self.address, key, len(key), self._told))
        return self.out

    def invalidate_all(self):
        """The same of all keys: sweep."""
        _check(LIBRARY.jc_invalidate_all(self.address))

    def sweep(self):
        """Evicts an entry of a desk that is shut. out.next is SHUT: sweep again; DONE: calls may begin; NOT_YET: sweep again after the next
        commit, withdrawal or pick-up; or FULL: take the events, end the generation, sweep again."""
        _check(LIBRARY.jc_sweep(self.address, self._told))
        return self.out

    def statistics(self):
        """What all events since the opening count."""
        counts = Statistics()
        _check(LIBRARY.jc_statistics_of(self.address, ctypes.addressof(counts)))
        return counts

    def entries(self):
        """What is cached, as (key, value), the most recently used first. Of a desk that is shut that is also what is to be forgotten:
        sweep before you open another desk with these entries."""
        room = (Entry * self._entries_into((Entry * 1)(), 0))()
        self._entries_into(room, len(room))
        return [(entry.key.get(), entry.value.get()) for entry in room]

    def _entries_into(self, room, length):
        count = c_size_t()
        _check(LIBRARY.jc_entries(self.address, ctypes.addressof(room), length, ctypes.addressof(count)))
        return count.value

    def events_len(self):
        """How many events the present generation has."""
        return LIBRARY.jc_events_len(self.address)

    def event(self, place):
        """The event at a place of the present generation, from 0, or None if it has no such place."""
        event = FlatEvent()
        code = LIBRARY.jc_event(self.address, place, ctypes.addressof(event))
        if code == NONE:
            return None
        _check(code)
        return event

    def end_generation(self):
        """Ends the present generation."""
        _check(LIBRARY.jc_end_generation(self.address))

    def __del__(self):
        # A desk whose opening failed has only zeros.
        if LIBRARY is not None and self._handle.is_open:
            LIBRARY.jc_close(self.address)


def _check(code):
    if code:
        raise CoreError(code)


def _entries(entries):
    """(key, value) as structs; the room is never empty."""
    room = (Entry * max(1, len(entries)))()
    for entry, (key, value) in zip(room, entries):
        entry.key.set(key)
        entry.value.set(value)
    return room


def legal(shape, opening, events):
    """Whether these events are a legal history of one stripe of a cache of this shape that began with these (key, value)."""
    room = _entries(opening)
    listed = (FlatEvent * max(1, len(events)))(*events)
    is_legal = c_bool()
    _check(LIBRARY.jc_legal(ctypes.addressof(shape), ctypes.addressof(room), len(opening), ctypes.addressof(listed), len(events),
                            ctypes.addressof(is_legal)))
    return is_legal.value
