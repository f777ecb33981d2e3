"""Redis, 6 or later, as the store of a fleet of caches, by its server-assisted client-side caching. It needs redis-py.

Each instance tracks a prefix of keys in broadcasting mode: the server tells it of each change of such a key, whoever made it, and of each
key that expires or is evicted there.
"""
import redis

from ..errors import NotWritten
from . import ALL, Announcements, Conflict, FleetError, Lost

__all__ = ['Read', 'RedisAnnouncements', 'RedisStore']
_INVALIDATE = '__redis__:invalidate'
_AT_ONCE_MAX = 10_000
"""So many keys are handled before the connection is looked after again."""
_SAME = "if redis.call('get', KEYS[1]) == ARGV[1] then redis.call('set', KEYS[1], ARGV[2]) return 1 end return 0"
_NEW = "if redis.call('set', KEYS[1], ARGV[1], 'nx') then return 1 end return 0"


class Read:
    """A value with the bytes that it was read from, for stores with reads=True: it is written only if the key still has these. With None for
    the bytes it is written in any case; with b'', if there is none."""

    __slots__ = ('value', 'was')

    def __init__(self, value, was=None):
        self.value = value
        self.was = was

    def but(self, value):
        """The same with another value."""
        return Read(value, self.was)

    def __eq__(self, other):
        return isinstance(other, Read) and self.value == other.value

    def __hash__(self):
        return hash(self.value)

    def __repr__(self):
        return f'Read({self.value!r}, {self.was!r})'


class RedisStore:
    """A loader and a writer: the keys of a Redis that have a prefix, which are str. Reads have to go to the primary.

    client: a redis.Redis, which threads share. encode, decode: of a value to bytes and back.
    reads: values are Reads, and a writer raises Conflict if somebody else has changed the key: so no change is lost in an invoke.
    """

    def __init__(self, client, prefix, *, encode=str.encode, decode=bytes.decode, reads=False):
        self.client, self.prefix = client, prefix
        self._encode, self._decode, self._reads = encode, decode, reads
        self._same, self._new = client.register_script(_SAME), client.register_script(_NEW)
        self._invalidate = lambda key: None

    def announcements(self, client=None):
        """The changes of these keys, for a Fleet; client: whose connection listens, if it is another one."""
        return RedisAnnouncements(self, client or self.client)

    def _name(self, key):
        return self.prefix + key

    def key_of(self, name):
        """The key of a name in the engine."""
        return name.decode()[len(self.prefix):]

    def _value(self, found):
        return None if found is None else Read(self._decode(found), found) if self._reads else self._decode(found)

    def load(self, key):
        """The value of a key, or None."""
        return self._value(self.client.get(self._name(key)))

    def load_many(self, keys):
        """The values of keys, as a dict."""
        keys = list(keys)
        return {key: self._value(found) for key, found in zip(keys, self.client.mget([self._name(key) for key in keys])) if found is not None}

    def write(self, key, value):
        """Writes a value."""
        self._change([key], lambda: self._write(key, value))

    def _write(self, key, value):
        if not self._reads:
            self.client.set(self._name(key), self._encode(value))
            return
        new = self._encode(value.value)
        if value.was is None:
            self.client.set(self._name(key), new)
        elif not (self._same([self._name(key)], [value.was, new]) if value.was else self._new([self._name(key)], [new])):
            self._invalidate(key)
            raise Conflict(key)
        value.was = new

    def delete(self, key):
        """Deletes a key."""
        self._change([key], lambda: self.client.delete(self._name(key)))

    def write_many(self, items):
        """One command, all or nothing; of Reads one after the other."""
        if not self._reads:
            self._change(items, lambda: self.client.mset({self._name(key): self._encode(value) for key, value in items.items()}))
            return
        left = list(items)
        try:
            while left:
                self.write(left[0], items[left[0]])
                del left[0]
        except Exception as error:
            raise NotWritten(left) from error

    def delete_many(self, keys):
        """Deletes keys, by one command."""
        self._change(keys, lambda: self.client.delete(*[self._name(key) for key in keys]))

    def _change(self, keys, change):
        """Any end but success, and but a failure that the engine has told, is in doubt: the cache forgets the keys."""
        try:
            change()
        except (Conflict, redis.ResponseError):
            raise
        except BaseException:
            for key in keys:
                self._invalidate(key)
            raise


class RedisAnnouncements(Announcements):
    """One connection, whose tracking is redirected to itself, since RESP2 has no pushes: so neither half can end without the other.

    Tracking is BCAST: in the default mode a key that was only written isn't tracked. Of several writes of a key in one turn of the server
    one is told. Own writes are told, too, since other connections make them.
    """

    def __init__(self, store, client):
        super().__init__()
        self._store, self._client = store, client
        self._connection = None
        self._is_asked = False

    def attach(self, cache):
        """The cache that forgets the keys of a write whose end isn't known."""
        self._store._invalidate = cache.invalidate

    def open(self, patience):
        """Connects and tracks."""
        pool = self._client.connection_pool
        options = dict(pool.connection_kwargs, socket_timeout=max(2.0, patience), health_check_interval=0)
        self._connection = pool.connection_class(**options)
        self._is_asked = False
        # A server that still reads its file refuses a PING, though not a subscription.
        self._ask('PING')
        try:
            if self._ask('ROLE')[0] != b'master':
                raise FleetError('the server is a replica: client has to be that of the primary, which tells of each write')
            number = self._ask('CLIENT', 'ID')
            self._ask('CLIENT', 'TRACKING', 'ON', 'REDIRECT', number, 'BCAST', 'PREFIX', self._store.prefix)
            self._ask('SUBSCRIBE', _INVALIDATE)
        except redis.exceptions.NoPermissionError as error:
            raise FleetError(f'the user may not do what a fleet needs ({error}): it has to have +ping, +role, +client|id, +client|tracking, '
                             f'+subscribe and the channel {_INVALIDATE}') from error
        except redis.ResponseError as error:
            raise FleetError(f"the server can't track keys ({error}): it has to be Redis 6 or later, not a cluster or a proxy") from error

    def _ask(self, *words):
        self._connection.send_command(*words)
        return self._connection.read_response()

    def wait(self, seconds):
        """The keys that were told."""
        keys = []
        if self._connection.can_read(timeout=0) or self._is_ready(seconds, self._connection._sock):
            self._read(keys)
            while len(keys) < _AT_ONCE_MAX and self._connection.can_read(timeout=0):
                self._read(keys)
        return keys

    def _read(self, keys):
        message = self._connection.read_response()
        if message[0] == b'message':
            keys.extend([ALL] if message[2] is None else map(self._store.key_of, message[2]))
        elif message[0] == b'pong':
            self._is_asked = False
        else:
            raise Lost(f'the server says {message}')

    def probe(self):
        """Asks the server."""
        self._connection.send_command('PING')
        self._is_asked = True

    def is_answered(self):
        """Whether it has answered."""
        return not self._is_asked

    def close(self):
        """Ends the connection."""
        if self._connection is not None:
            self._connection.disconnect()
