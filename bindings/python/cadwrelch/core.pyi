import ctypes
from collections.abc import Sequence
from typing import Any

VERSION: int
KEY_MAX: int
VALUE_MAX: int
STRIPES_MAX: int
CAPACITY_MAX: int
HISTORY_MIN: int
HISTORY_MAX: int
OK: int
WRONG_HANDLE: int
NO_MEMORY: int
BAD_ARGUMENT: int
MISUSE: int
IN_USE: int
NONE: int
GET: int
CONTAINS_KEY: int
PUT: int
GET_AND_PUT: int
PUT_IF_ABSENT: int
REMOVE: int
REMOVE_IF: int
GET_AND_REMOVE: int
REPLACE: int
REPLACE_IF: int
GET_AND_REPLACE: int
CLEAR_KEY: int
LOAD: int
RELOAD: int
INVOKE: int
DONE: int
ASK_LOAD: int
ASK_WRITE: int
ASK_DELETE: int
ASK_PROCESS: int
JOINED: int
REFUSED: int
AGAIN: int
NOT_YET: int
FULL: int
SHUT: int
UNIT: int
NO: int
YES: int
NULL: int
VALUE: int
LOADER_FAILED: int
WRITER_FAILED: int
PROCESSOR_FAILED: int
HISTORY_FULL: int
BUSY: int
TOO_MANY_IN_FLIGHT: int
TOO_MANY_JOINERS: int
OTHER: int
STORED: int
REMOVED: int
EVICTED: int
OWN_EVICTED_FULL: int
OWN_EVICTED_MEMORY: int
INVALIDATED: int
NOT_ASKED: int
FOUND: int
NOTHING: int
FAILED: int
WRITTEN: int
KEEP: int
SET: int
EFFECT_REMOVE: int
EFFECT_FAILED: int
NOT_RUN: int
STEP: int
EVICTION: int
ROOM: int
MEMORY: int
CAUSE_INVALIDATED: int
CODES: tuple[str, ...]
LIBRARY: ctypes.PyDLL
HIT: Any

class CoreError(Exception):
    code: int
    def __init__(self, code: int) -> None: ...

class _Bytes(ctypes.Structure):
    len: int
    bytes: ctypes.Array[ctypes.c_uint8]
    def get(self) -> Any: ...
    def set(self, value: Any) -> None: ...

class Value(_Bytes):
    len: int
    bytes: ctypes.Array[ctypes.c_uint8]

class Key(_Bytes):
    len: int
    bytes: ctypes.Array[ctypes.c_uint8]

class Entry(ctypes.Structure):
    key: Key
    value: Value

class Shape(ctypes.Structure):
    stripes: int
    capacity: int
    history: int
    read_through: bool
    write_through: bool
    keeps_events: bool
    out_size: int
    def __init__(self, *args: Any, **words: Any) -> None: ...

class Out(ctypes.Structure):
    next: int
    reply: int
    code: int
    place: int
    shared: int
    moves: int
    number: int
    call: int
    value: Value
    left: Value
    victim: Key
    evicted: Value

class Processed(ctypes.Structure):
    load: int
    load_code: int
    effect: int
    code: int
    write: int
    write_code: int
    has_outcome: bool
    loaded: Value
    set_value: Value
    outcome: Value

class FlatEvent(ctypes.Structure):
    kind: int
    session: int
    call: int
    op: int
    is_shared: bool
    shared_with: int
    reply: int
    reply_code: int
    cause: int
    key: Key
    value: Value
    other: Value
    replied: Value
    outside: Processed

class Statistics(ctypes.Structure):
    hits: int
    misses: int
    puts: int
    removals: int
    evictions: int

class Handle(ctypes.Structure):
    at: int | None
    is_open: bool

class Desk:
    out: Out
    address: int
    def __init__(self, shape: Shape, number: int = 0, entries: Sequence[tuple[bytes, bytes]] = ()) -> None: ...
    def open(self, shape: Shape, number: int = 0, entries: Sequence[tuple[bytes, bytes]] = ()) -> None: ...
    def close(self) -> None: ...
    def begin(self, session: int, op: int, key: bytes, value: bytes = b'', other: bytes = b'') -> Out: ...
    def hit(self, session: int, key: bytes) -> bytes | None: ...
    def peek(self, key: bytes) -> bytes | None: ...
    def commit_load(self, ticket: int, answer: int, code: int = 0, value: bytes = b'') -> Out: ...
    def commit_write(self, ticket: int, answer: int, code: int = 0) -> Out: ...
    def commit_process(self, ticket: int, processed: Processed) -> Out: ...
    def withdraw(self, ticket: int) -> Out: ...
    def pick_up(self, session: int, call: int, key: bytes, load: int) -> Out: ...
    def invalidate(self, key: bytes) -> Out: ...
    def invalidate_all(self) -> None: ...
    def sweep(self) -> Out: ...
    def statistics(self) -> Statistics: ...
    def entries(self) -> list[tuple[bytes, bytes]]: ...
    def events_len(self) -> int: ...
    def event(self, place: int) -> FlatEvent | None: ...
    def end_generation(self) -> None: ...
    def __del__(self) -> None: ...

def legal(shape: Shape, opening: Sequence[tuple[bytes, bytes]], events: Sequence[FlatEvent]) -> bool: ...
