"""Logical decoding, the second way in which a PostgreSQL announces the changes of a table: without triggers, and without a lock at commit.

Each instance reads the log of the server by a slot of its own, which ends with its connection; the server tells it of the table's changes
transaction by transaction, in the order of commits. Prepared transactions come with their COMMIT PREPARED.

**When a change is told.** A commit is in the log, and so is decoded, before other snapshots see it: its transaction leaves the list of those
that run only after the log is flushed and, with synchronous replication, after a standby has answered. A load in that window reads the old
row. So a change waits here until a snapshot of the primary, taken after, sees its transaction: one that is below the snapshot's xmax, and not
in its list of those that run. What ends leaves that list at once with its subtransactions, and each later snapshot sees it as well.
- A transaction is named by its top-level number, which is what the log's begin and a snapshot's list both have; of a prepared one it is the
  number that it had, which stays in the list until COMMIT PREPARED is done.
- The log has 32 bits of a number, a snapshot all. Both are less than 2^31 apart, as all numbers in use are.
- Changes are told in order, so one that waits holds back those behind it, and the answer to a probe.
"""
import collections
import secrets
import struct
import time

import psycopg2
import psycopg2.extras

from . import ALL, FleetError, Lost
from .postgres import _BECAUSE, KEYS_MAX, UNREAD_MILLIS, TableAnnouncements, _literal, _quoted

__all__ = ['DecodedAnnouncements', 'publish']
_AT_ONCE_MAX = 10_000
"""So many messages are taken before the connection is looked after again."""
_PAUSE, _PAUSE_MAX = 0.0005, 0.05
"""Seconds between two snapshots, if the first one didn't see what it should: twice as long each time."""
_SNAPSHOT = 'select pg_current_snapshot()::text'
_PROBE = _SNAPSHOT + " from pg_logical_emit_message(true, 'cadwrelch', %s)"
"""Its commit is behind all that was committed before it, also asynchronously, and is flushed."""
_IDENTITY = """select relkind = 'r' and relpersistence = 'p', relreplident = 'f' or exists (select from pg_index join pg_attribute
               on attrelid = indrelid and attnum = any(indkey) where indexrelid = pg_get_replica_identity_index(pg_class.oid) and attname = %s)
               from pg_class where oid = to_regclass(%s)"""
_PUBLISHED = """select bool_and(pubinsert and pubupdate and pubdelete and pubtruncate) from pg_publication join pg_publication_rel
                on prpubid = pg_publication.oid where pubname = %s and prrelid = to_regclass(%s)"""


def _check_identity(store, answer):
    is_table, is_named = answer or (True, True)
    if not is_table:
        raise FleetError(f"{store.table} isn't an ordinary table, whose changes are in the log: it is unlogged, partitioned, or no table")
    if not is_named:
        raise FleetError(f"the table {store.table} has no replica identity that has the column {store.key}: it needs that as its primary key, "
                         f'or an index of it, named by alter table {store.table} replica identity using index ..')


def publish(store):
    """Makes the publication of a store's table, or makes it anew. Without an identity writers would be refused by it."""
    name, table = _quoted(store.channel), store.quoted
    connection = psycopg2.connect(store.dsn)
    try:
        with connection, connection.cursor() as cursor:
            cursor.execute(_IDENTITY, (store.key, table))
            _check_identity(store, cursor.fetchone())
            cursor.execute(f'drop publication if exists {name}; create publication {name} for table {table}')
    except psycopg2.Error as error:
        because = ': the user has to own the table, and may create in the database' if error.pgcode == '42501' else _BECAUSE.get(error.pgcode, '')
        raise FleetError(f"the publication of the table {store.table} can't be made{because}") from error
    finally:
        connection.close()


class _Snapshot:
    """Of transactions those that have ended: all below low, and below high but for the running."""

    def __init__(self, text):
        low, high, running = text.split(':')
        self.low, self.high, self._running = int(low), int(high), set(map(int, filter(None, running.split(','))))

    def sees(self, short):
        """Whether it sees a transaction, by the lower 32 bits of its number."""
        full = self.high + (short - self.high + 2**31) % 2**32 - 2**31
        return full < self.high and full not in self._running


class DecodedAnnouncements(TableAnnouncements):
    """Two connections: one by which the server sends its log, and one that is asked for snapshots."""

    def __init__(self, store, dsn):
        super().__init__(store, dsn)
        self._log = self._stream = None
        self._name = None

    # What has to be so.

    def _check_way(self):
        store = self._store
        level, = self._ask('show wal_level')
        if level != 'logical':
            raise FleetError(f'wal_level is {level}, and has to be logical: alter system set wal_level = logical, then restart the server')
        _check_identity(store, self._ask(_IDENTITY, store.key, store.quoted))
        if not self._ask(_PUBLISHED, store.channel, store.quoted)[0]:
            raise FleetError(f"the table {store.table} isn't published, or not with all its changes: publish() does that, called once by who "
                             'owns the table')

    def _listen(self, patience):
        self._name = f'cadwrelch_{secrets.token_hex(8)}'
        self._columns, self._running, self._keys, self._is_own = {}, None, [], False
        self._waiting, self._due, self._pause = collections.deque(), 0.0, _PAUSE
        self._is_asking = self._has_to_probe = self._has_come = self._is_unanswered = False
        self._ask('set synchronous_commit = local')
        self._connect_log()
        self._make_slot(patience)
        self._await_ended()

    def _connect_log(self):
        try:
            self._log = psycopg2.connect(self._dsn, async_=True, connection_factory=psycopg2.extras.LogicalReplicationConnection,
                                         application_name='cadwrelch-fleet', client_encoding='UTF8')
            self._await_answer(self._log)
        except psycopg2.OperationalError as error:
            if 'max_wal_senders' in str(error):
                raise FleetError('no sender of the log is free: max_wal_senders has to be more, one for each instance') from error
            if not self._ask('select rolreplication or rolsuper from pg_roles where rolname = current_user')[0]:
                raise FleetError(f'the user may not replicate: alter role .. replication ({error})') from error
            raise

    def _make_slot(self, patience):
        self._stream = self._log.cursor()
        try:
            # The server waits for all who have written and aren't done, and doesn't see meanwhile that nobody listens any more.
            self._tell(f'set lock_timeout = {int(1000 * max(1.0, patience / 2))}')
            self._tell(f'set wal_sender_timeout = {UNREAD_MILLIS}')
            self._tell(f'CREATE_REPLICATION_SLOT {self._name} TEMPORARY LOGICAL pgoutput NOEXPORT_SNAPSHOT')
        except psycopg2.errors.LockNotAvailable as error:
            raise Lost("a transaction that has written, in any database of the server, hasn't ended yet: until then there is no slot") from error
        except psycopg2.errors.ConfigurationLimitExceeded as error:
            raise FleetError('no slot is free: max_replication_slots has to be more, one for each instance') from error
        self._stream.start_replication_expert(f"START_REPLICATION SLOT {self._name} LOGICAL 0/0 (proto_version '1', messages 'true', "
                                              f'publication_names {_literal(_quoted(self._store.channel))})', status_interval=1)
        self._await_answer(self._log)

    def _tell(self, command):
        self._stream.execute(command)
        self._await_answer(self._log)

    def _await_ended(self):
        """What was committed before the slot begins isn't told. It may not be seen yet: until it is, nothing is to be read."""
        snapshot = _Snapshot(self._ask(_SNAPSHOT)[0])
        high, pause = snapshot.high, _PAUSE
        while snapshot.low < high:
            if time.monotonic() >= self._end:
                raise Lost("a transaction that has written, in any database of the server, hasn't ended yet")
            time.sleep(pause)
            pause = min(2 * pause, _PAUSE_MAX)
            snapshot = _Snapshot(self._ask(_SNAPSHOT)[0])
        self._snapshot = snapshot

    # The log.

    def _receive(self):
        """Takes what has come, and says whether there may be more."""
        for _ in range(_AT_ONCE_MAX):
            message = self._stream.read_message()
            if message is None:
                return False
            self._take(message.payload)
        return True

    def _take(self, data):
        kind = data[:1]
        if kind == b'B':
            self._running, self._keys, self._is_own = struct.unpack_from('>I', data, 17)[0], {}, False
        elif kind == b'R':
            self._note_columns(data)
        elif kind == b'T':
            self._keys = {ALL: None}
        elif kind == b'M':
            self._is_own |= data.endswith(self._name.encode())
        elif kind == b'C':
            if self._keys or self._is_own:
                self._waiting.append((self._running, list(self._keys), self._is_own))
                self._has_come = True
        elif kind in (b'I', b'U', b'D') and ALL not in self._keys:
            self._note_keys(data)

    def _note_columns(self, data):
        relation, = struct.unpack_from('>I', data, 1)
        at = data.index(b'\0', data.index(b'\0', 5) + 1) + 4
        names = []
        while at < len(data):
            end = data.index(b'\0', at + 1)
            names.append(data[at + 1:end].decode())
            at = end + 9
        if self._store.key not in names:
            raise Lost(f'the table {self._store.table} has no column {self._store.key} any more')
        self._columns[relation] = names.index(self._store.key)

    def _note_keys(self, data):
        """The keys of a change: of the row before, if that is there, and of the row after."""
        column, texts, at = self._columns[struct.unpack_from('>I', data, 1)[0]], set(), 5
        while at < len(data):
            text, at = _column(data, at + 1, column)
            texts.add(text)
        texts.discard(None)
        self._keys.update((self._key(text), None) for text in texts)
        if not texts or ALL in self._keys or len(self._keys) > KEYS_MAX:
            self._keys = {ALL: None}

    # What is told.

    def wait(self, seconds):
        """The keys of changes that all see who read from now on."""
        has_more = self._receive()
        keys = self._told()
        if keys or has_more:
            return keys
        self._ask_on()
        if self._waiting and not self._is_asking:
            seconds = min(seconds, max(0.0, self._due - time.monotonic()))
        self._is_ready(seconds, self._log.fileno(), self._connection.fileno())
        self._hear()
        self._receive()
        return self._told()

    def _told(self):
        keys = []
        while self._waiting and self._snapshot.sees(self._waiting[0][0]):
            _, changed, is_own = self._waiting.popleft()
            keys += changed
            self._is_unanswered &= not is_own
        return keys

    def _ask_on(self):
        """Sends the next question, if it is time and none is on its way."""
        if self._is_asking or not self._has_to_probe and not (self._waiting and time.monotonic() >= self._due):
            return
        # The cursor has to live until the answer is there.
        self._cursor = self._connection.cursor()
        if self._has_to_probe:
            self._cursor.execute(_PROBE, (self._name,))
        else:
            self._cursor.execute(_SNAPSHOT)
        self._is_asking, self._has_to_probe, self._has_come = True, False, False

    def _hear(self):
        """Takes the answer, if it is there. If it doesn't help the next one is asked for a little later."""
        if self._connection.poll() != psycopg2.extensions.POLL_OK or not self._is_asking:
            return
        self._is_asking, self._snapshot = False, _Snapshot(self._cursor.fetchone()[0])
        is_too_early = not self._has_come and self._waiting and not self._snapshot.sees(self._waiting[0][0])
        self._pause = min(2 * self._pause, _PAUSE_MAX) if is_too_early else _PAUSE
        self._due = time.monotonic() + self._pause if is_too_early else 0.0

    def probe(self):
        """Asks the server to commit a message in its log, and to forget what was read of that."""
        self._has_to_probe = self._is_unanswered = True
        self._stream.send_feedback(flush_lsn=self._stream.wal_end)
        self._ask_on()

    def is_answered(self):
        """Whether it has come."""
        return not self._is_unanswered

    def close(self):
        """Ends both connections."""
        super().close()
        if self._log is not None:
            self._log.close()


def _column(data, at, wanted):
    """The text of a column of the row that begins there, or None if the log hasn't it, and where the row ends."""
    count, = struct.unpack_from('>h', data, at)
    at, text = at + 2, None
    for number in range(count):
        if data[at] == 0x74:
            end = at + 5 + struct.unpack_from('>i', data, at + 1)[0]
            if number == wanted:
                text = data[at + 5:end]
            at = end
        else:
            at += 1
    return text, at
