"""A table of PostgreSQL, 14 or later, as the store of a fleet of caches. It needs psycopg2.

The table's triggers announce each change to all who listen, as the change is committed, whoever made it. The other way, without triggers, is
in cadwrelch.fleet.decoding.
"""
import importlib.resources
import logging
import secrets
import select
import threading
import time

import psycopg2
import psycopg2.extensions

from ..errors import NotWritten
from . import ALL, Announcements, Conflict, FleetError, Lost

__all__ = ['PostgresAnnouncements', 'PostgresStore', 'Row']
_LOG = logging.getLogger('cadwrelch.fleet')
KEYS_MAX = 1000
"""A statement that changes more rows is announced as a change of all."""
_CHANNEL_MAX = 63
UNREAD_MILLIS = 30_000
"""If an instance doesn't read for so long, the server ends its connection, and keeps for it neither announcements nor its log."""
_BECAUSE = {'42501': ': the user has to own the table, and may create functions in its schema',
            '42P01': ": there is no such table; its schema goes before it, with a dot, unless it's on the search path",
            '3F000': ": there is no such schema",
            '42703': ': it has no such key column'}


def _quoted(name):
    return '"' + name.replace('"', '""') + '"'


def _literal(text):
    return "'" + text.replace("'", "''") + "'"


class Row:
    """A value with the version of the row that it was read from, for stores with rows=True: it is written only if that is still the row's
    version. Without a version it is written in any case; with the version NEW, if there is no row."""

    NEW = 0
    __slots__ = ('value', 'version')

    def __init__(self, value, version=None):
        self.value = value
        self.version = version

    def but(self, value):
        """The row with another value."""
        return Row(value, self.version)

    def __eq__(self, other):
        return isinstance(other, Row) and self.value == other.value

    def __hash__(self):
        return hash(self.value)

    def __repr__(self):
        return f'Row({self.value!r}, {self.version!r})'


class PostgresStore:
    """A loader and a writer: two columns of a table, whose key is unique. Each thread has a connection, which has to read the primary.

    dsn: as of psycopg2.connect. table: its name, or schema and name with a dot between them. parse: makes a key of the text of one, as int.
    rows: values are Rows, and a writer raises Conflict if somebody else has changed the row: so no change is lost in an invoke.
    """

    def __init__(self, dsn, table, key='key', value='value', *, parse=str, rows=False):
        self.dsn, self.table, self.key, self.parse = dsn, table, key, parse
        self.channel = f'cadwrelch_{table}'
        if len(self.channel.encode()) > _CHANNEL_MAX:
            raise ValueError(f"table is {table!r}: its name is too long to be one of a channel")
        self.origin = secrets.token_hex(4)
        """By this announcements say whose change it was. It is another one after a write whose end isn't known."""
        self.quoted = '.'.join(map(_quoted, table.split('.')))
        """The table's name in a statement."""
        self._rows = rows
        self._local = threading.local()
        self._invalidate = lambda key: None
        self._words = {'table': self.quoted, 'key': _quoted(key), 'value': _quoted(value),
                       'function': _quoted(f'cadwrelch_announce_{table.replace(".", "_")}'), 'channel': _literal(self.channel), 'limit': KEYS_MAX,
                       'version': 'xmin::text::bigint'}
        upsert = 'insert into {table} ({key}, {value}) values (%(key)s, %(value)s) on conflict ({key}) do '
        own = " returning set_config('cadwrelch.own', %(origin)s || ' ' || {key}::text, true), {version}"
        same = 'update {table} set {value} = %(value)s where {key} = %(key)s and {version} = %(version)s'
        self._load = self.statement('select {key}, {value}, {version} from {table} where {key} = any(%s)', '%%')
        self._write_any = self.statement(upsert + 'update set {value} = excluded.{value}' + own, '%%')
        self._write_new = self.statement(upsert + 'nothing' + own, '%%')
        self._write_same = self.statement(same + own, '%%')
        self._delete = self.statement('delete from {table} where {key} = any(%(keys)s)' + own, '%%')

    def statement(self, text, percent='%'):
        """A statement, with what this table has for the words in braces. In one with arguments a % of a name is doubled."""
        for name, word in self._words.items():
            text = text.replace('{' + name + '}', str(word).replace('%', percent))
        return text

    def install(self):
        """Makes the triggers that announce, or makes them anew: once, by whoever owns the table. FleetError says why it can't."""
        text = importlib.resources.files(__package__).joinpath('triggers.sql').read_text()
        connection = psycopg2.connect(self.dsn)
        try:
            with connection, connection.cursor() as cursor:
                cursor.execute(self.statement(text))
        except psycopg2.Error as error:
            raise FleetError(f"the triggers of the table {self.table} can't be made{_BECAUSE.get(error.pgcode, '')}") from error
        finally:
            connection.close()

    def announcements(self, dsn=None, *, skips_own=False):
        """The changes of the table, for a Fleet; dsn: of the connection that listens, if it is another one.

        skips_own: those that this store has made itself, and knows to be made, aren't told. That saves a load after each write, and is right
        if no trigger changes the row that is written.
        """
        return PostgresAnnouncements(self, dsn or self.dsn, skips_own)

    def publish(self):
        """Makes the publication that decoded() needs, or makes it anew: once, by whoever owns the table. FleetError says why it can't."""
        from . import decoding
        decoding.publish(self)

    def decoded(self, dsn=None):
        """The changes of the table by logical decoding, for a Fleet, in place of announcements(): without triggers. Own ones are told, too."""
        from . import decoding
        return decoding.DecodedAnnouncements(self, dsn or self.dsn)

    def _connection(self):
        connection = getattr(self._local, 'connection', None)
        if connection is None or connection.closed:
            connection = self._local.connection = psycopg2.connect(self.dsn, connect_timeout=5)
            connection.autocommit = True
        return connection

    # The loader.

    def load_many(self, keys):
        """The values of keys, as a dict. If the thread's connection has ended meanwhile, they are read by another one."""
        try:
            return self._read(keys)
        except psycopg2.OperationalError:
            if not self._local.connection.closed:
                raise
            return self._read(keys)

    def _read(self, keys):
        with self._connection().cursor() as cursor:
            cursor.execute(self._load, (list(keys),))
            return {key: Row(value, version) if self._rows else value for key, value, version in cursor}

    def load(self, key):
        """The value of a key, or None."""
        return self.load_many([key]).get(key)

    # The writer.

    def write(self, key, value):
        """Writes a value."""
        with _Changing(self, [key]) as cursor:
            version = self._write(cursor, key, value)
        self._note(value, version)

    def delete(self, key):
        """Deletes a key."""
        self.delete_many([key])

    def write_many(self, items):
        """One transaction: all or nothing. Keys are written in order, so that two of them don't wait for each other."""
        try:
            with _Changing(self, items) as cursor:
                cursor.execute('begin')
                try:
                    versions = {key: self._write(cursor, key, items[key]) for key in sorted(items)}
                except BaseException:
                    cursor.execute('rollback')
                    raise
                cursor.execute('commit')
        except (Conflict, psycopg2.Error) as error:
            raise NotWritten(list(items)) from error
        for key, version in versions.items():
            self._note(items[key], version)

    def delete_many(self, keys):
        """Deletes keys, by one statement."""
        with _Changing(self, keys) as cursor:
            cursor.execute(self._delete, {'keys': sorted(keys), 'origin': self.origin})

    def _write(self, cursor, key, value):
        words = {'key': key, 'value': value, 'origin': self.origin}
        if not self._rows:
            statement = self._write_any
        else:
            words['value'], words['version'] = value.value, value.version
            statement = self._write_any if value.version is None else self._write_same if value.version else self._write_new
        cursor.execute(statement, words)
        written = cursor.fetchone()
        if written is None:
            self._invalidate(key)
            raise Conflict(key)
        return written[1]

    def _note(self, value, version):
        if self._rows:
            value.version = version

    def in_doubt(self, keys):
        """Nobody knows whether these keys were written: the cache forgets them, and what is announced as this store's counts as another's."""
        self.origin = secrets.token_hex(4)
        for key in keys:
            self._invalidate(key)


class _Changing:
    """A cursor while it changes keys. Any end but success, and but a failure that the engine has told, is in doubt."""

    def __init__(self, store, keys):
        self._store, self._keys = store, list(keys)

    def __enter__(self):
        self._connection = self._store._connection()
        return self._connection.cursor()

    def __exit__(self, kind, error, _):
        if error is None or isinstance(error, Conflict):
            return
        if not isinstance(error, psycopg2.Error) or error.pgcode is None or self._connection.closed:
            self._connection.close()
            self._store.in_doubt(self._keys)


class TableAnnouncements(Announcements):
    """What both ways have in common: a connection whose questions have an end, what has to be so, and the keys of texts."""

    def __init__(self, store, dsn):
        super().__init__()
        self._store, self._dsn = store, dsn
        self._connection = None
        self._has_warned = False

    def attach(self, cache):
        """The cache that forgets the keys of a write whose end isn't known."""
        self._store._invalidate = cache.invalidate

    def open(self, patience):
        """Connects, looks whether all is as it has to be, and listens."""
        self._end = time.monotonic() + max(2.0, patience)
        self._connection = psycopg2.connect(self._dsn, async_=True, application_name='cadwrelch-fleet')
        self._await_answer(self._connection)
        self._check_table()
        self._check_way()
        self._check_key()
        self._listen(patience)

    def _await_answer(self, connection):
        while (state := connection.poll()) != psycopg2.extensions.POLL_OK:
            left = self._end - time.monotonic()
            socket = [connection.fileno()]
            reads, writes = (socket, []) if state == psycopg2.extensions.POLL_READ else ([], socket)
            if left <= 0 or not any(select.select(reads, writes, [], left)):
                raise Lost('no connection in time')

    def _ask(self, query, *arguments):
        """The first row of a query, or None. The connection isn't used for anything else yet."""
        with self._connection.cursor() as cursor:
            cursor.execute(query, arguments or None)
            self._await_answer(self._connection)
            return cursor.fetchone() if cursor.description else None

    def _check_table(self):
        store = self._store
        if self._ask('select pg_is_in_recovery()')[0]:
            raise FleetError('the database is a standby, which announces nothing: dsn has to be that of the primary')
        columns = self._ask('select array_agg(attname::text order by attnum) from pg_attribute where attrelid = to_regclass(%s) and attnum > 0 '
                            'and not attisdropped', store.quoted)[0]
        if columns is None:
            raise FleetError(f"there is no table {store.table} in the database: its schema goes before its name, with a dot, unless it's on the "
                             'search path')
        if store.key not in columns:
            raise FleetError(f'the table {store.table} has no column {store.key}, but {", ".join(columns)}: one of them has to be named as that of '
                             'the keys')

    def _check_key(self):
        """Whether a key that is there is announced as the one that it is read as: if it isn't, no entry would ever be forgotten."""
        store = self._store
        try:
            sample = self._ask(store.statement('select {key}, {key}::text from {table} limit 1')) or self._sample()
        except psycopg2.Error as error:
            if error.pgcode == '42501':
                raise FleetError(f'the user may not read the table {store.table}: grant select on it to that user') from error
            raise
        try:
            key = sample and store.parse(sample[1])
            hash(key)
        except Exception as error:
            raise FleetError(f"the key {sample[1]!r} of the table {store.table} can't be read: the column and parse, which makes keys of texts, "
                             'have to fit') from error
        if sample and key != sample[0]:
            raise FleetError(f'the key {sample[0]!r} of the table {store.table} is announced as {key!r}: parse, which makes keys of texts, has to '
                             'give what is read, as parse=int does for numbers')

    def _sample(self):
        """Of an empty table a key that might be there, or None."""
        kind, = self._ask('select format_type(atttypid, atttypmod) from pg_attribute where attrelid = to_regclass(%s) and attname = %s',
                          self._store.quoted, self._store.key)
        try:
            return self._ask(f"select key, key::text from (select '1'::{kind} as key) as one")
        except psycopg2.DataError:
            return None

    def _key(self, text):
        """A key by its text, or by the bytes of that; ALL, if they can't be read."""
        try:
            key = self._store.parse(text if isinstance(text, str) else text.decode())
            hash(key)
            return key
        except Exception as error:
            if not self._has_warned:
                _LOG.warning("the key %r of the table %s can't be read: all keys are forgotten at each such change", text, self._store.table,
                             exc_info=error)
            self._has_warned = True
            return ALL

    def close(self):
        """Ends the connection."""
        if self._connection is not None:
            self._connection.close()


class PostgresAnnouncements(TableAnnouncements):
    """LISTEN on a connection of its own, which must not go through a pooler of transactions."""

    def __init__(self, store, dsn, skips_own):
        super().__init__(store, dsn)
        self._skips_own = skips_own
        self._own_channel = f'cadwrelch_wake_{secrets.token_hex(16)}'
        self._cursor = None
        self._is_asked = self._is_told = False

    def _check_way(self):
        if self._ask("select count(*) from pg_trigger where tgrelid = to_regclass(%s) and tgenabled = 'A' and tgname in ('cadwrelch_insert', "
                     "'cadwrelch_update', 'cadwrelch_delete', 'cadwrelch_truncate')", self._store.quoted)[0] != 4:
            raise FleetError(f"the table {self._store.table} doesn't announce its changes: its triggers aren't there, or not enabled; install() "
                             'makes them, called once by who owns the table')

    def _listen(self, patience):
        self._is_asked = self._is_told = False
        self._ask(f'set tcp_user_timeout = {UNREAD_MILLIS}')
        self._ask(f'listen {_quoted(self._store.channel)}')
        self._ask(f'listen {_quoted(self._own_channel)}')
        self._check_is_told(patience)

    def _check_is_told(self, patience):
        """Whether what another connection announces comes to this one, with nothing asked meanwhile."""
        other = psycopg2.connect(self._dsn, connect_timeout=5)
        try:
            other.autocommit = True
            with other.cursor() as cursor:
                cursor.execute(f'notify {_quoted(self._own_channel)}')
        finally:
            other.close()
        end = time.monotonic() + patience
        while not self._is_told and time.monotonic() < end:
            self.wait(end - time.monotonic())
        if not self._is_told:
            raise FleetError(f"what is announced doesn't come to the connection that listens within {patience} seconds: it goes through a pooler "
                             'of transactions, which has to be gone round')

    def wait(self, seconds):
        """The keys that were told."""
        keys = self._drained()
        if not keys and self._is_ready(seconds, self._connection.fileno()):
            is_done = self._connection.poll() == psycopg2.extensions.POLL_OK
            if is_done and self._is_asked:
                # What was announced before the answer is taken by the next poll.
                self._connection.poll()
                self._is_asked = False
            keys = self._drained()
        if self._connection.closed:
            raise Lost('the connection is closed')
        return keys

    def _drained(self):
        notices, keys = self._connection.notifies, []
        while notices:
            notice = notices.pop(0)
            if notice.channel == self._own_channel:
                self._is_told = True
                continue
            origin, blank, text = notice.payload.partition(' ')
            if not blank:
                keys.append(ALL)
            elif not (self._skips_own and origin == self._store.origin):
                keys.append(self._key(text))
        return keys

    def probe(self):
        """Asks the server."""
        # The cursor has to live until the answer is there.
        self._cursor = self._connection.cursor()
        self._cursor.execute('select 1')
        self._is_asked = True

    def is_answered(self):
        """Whether it has answered."""
        return not self._is_asked
