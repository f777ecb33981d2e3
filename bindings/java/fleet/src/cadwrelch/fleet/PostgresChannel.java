package cadwrelch.fleet;

import java.sql.Connection;
import java.sql.PreparedStatement;
import java.sql.ResultSet;
import java.sql.SQLException;
import java.sql.Statement;
import java.time.Duration;
import java.util.UUID;
import org.postgresql.PGConnection;
import org.postgresql.PGNotification;

/** A connection that listens to the triggers of a table, and to a channel of its own, by which it is woken. */
final class PostgresChannel<K> implements Announcements.Channel<K> {
    private static final PGNotification[] NOTHING = {};
    /** If this process doesn't read for so long, the server ends the connection, and keeps announcements no longer. */
    private static final int UNREAD_MILLIS = 30_000;
    private static final String TRIGGERS_ENABLED = "select count(*) = 4 from pg_trigger where tgrelid = to_regclass(?)"
            + " and tgname in ('cadwrelch_insert', 'cadwrelch_update', 'cadwrelch_delete', 'cadwrelch_truncate')"
            + " and tgenabled = 'A'";
    private static final String COLUMNS = "select string_agg(attname, ', ' order by attnum) from pg_attribute"
            + " where attrelid = to_regclass(?) and attnum > 0 and not attisdropped";

    private final PostgresAnnouncements<K> owner;
    private final Duration patience;
    private final String ownChannel = "cadwrelch_wake_" + UUID.randomUUID().toString().replace("-", "");
    private volatile Connection connection;
    private Statement statement;
    private PGConnection listener;
    /** Announces on the own channel; null until it is needed. This object's lock guards it. */
    private Connection waker;
    private boolean isWoken;
    private volatile boolean isClosed;

    PostgresChannel(PostgresAnnouncements<K> owner, Duration patience) {
        this.owner = owner;
        this.patience = patience;
    }

    /**
     * Connects and listens.
     *
     * @throws FleetException if something isn't as it has to be
     */
    void open() throws SQLException {
        connection = owner.source.getConnection();
        if (!connection.isWrapperFor(PGConnection.class)) {
            throw new FleetException("the data source gives no connection of PostgreSQL's driver, but a "
                    + connection.getClass().getName(), null);
        }
        listener = connection.unwrap(PGConnection.class);
        connection.setAutoCommit(true);
        connection.setNetworkTimeout(Runnable::run, millis(patience));
        statement = connection.createStatement();
        checkTable();
        statement.execute("set tcp_user_timeout = " + UNREAD_MILLIS);
        statement.execute("listen " + PostgresAnnouncements.quoted(owner.channel));
        statement.execute("listen " + PostgresAnnouncements.quoted(ownChannel));
        checkIsTold();
    }

    private static int millis(Duration time) {
        return (int) Math.max(1, time.toMillis());
    }

    // What has to be so.

    private void checkTable() throws SQLException {
        if (is("select pg_is_in_recovery()")) {
            throw new FleetException("the database is a standby, which announces nothing: the address has to be that"
                    + " of the primary", null);
        }
        String columns = text(COLUMNS, owner.quotedTable());
        if (columns == null) {
            throw new FleetException("there is no table " + owner.table + " in the database " + connection.getCatalog()
                    + ": its schema goes before its name, with a dot, unless it's on the search path", null);
        }
        if (!(", " + columns + ",").contains(", " + owner.keyColumn + ",")) {
            throw new FleetException("the table " + owner.table + " has no column " + owner.keyColumn + ", but "
                    + columns + ": one of them has to be named as that of the keys", null);
        }
        if (!"t".equals(text(TRIGGERS_ENABLED, owner.quotedTable()))) {
            throw new FleetException("the table " + owner.table + " doesn't announce its changes: its triggers aren't"
                    + " there, or not enabled; install() makes them, called once by who owns the table", null);
        }
        checkKey();
    }

    /** Whether a key that is there can be read, if this user may read it. */
    private void checkKey() throws SQLException {
        String sample;
        try {
            sample = text("select max(" + PostgresAnnouncements.quoted(owner.keyColumn) + "::text) from (select * from "
                    + owner.quotedTable() + " limit 1) as one", null);
        } catch (SQLException e) {
            if ("42501".equals(e.getSQLState())) {
                throw new FleetException("the user may not read the table " + owner.table
                        + ": grant select on it to that user", e);
            }
            throw e;
        }
        if (sample != null) {
            owner.key(sample);
        }
    }

    /** Whether what another connection announces comes to this one, with nothing asked meanwhile. */
    private void checkIsTold() throws SQLException {
        wake();
        long end = System.nanoTime() + patience.toNanos();
        while (!isWoken && System.nanoTime() < end) {
            await(Duration.ofNanos(end - System.nanoTime()));
        }
        if (!isWoken) {
            throw new FleetException("what is announced doesn't come to the connection that listens within "
                    + millis(patience) + " ms: it goes through a pooler of transactions, which has to be gone round, or"
                    + " the data source has no second connection", null);
        }
    }

    private boolean is(String query) throws SQLException {
        return "t".equals(text(query, null));
    }

    /** The first column of the first row of a query, as text. */
    private String text(String query, String argument) throws SQLException {
        try (PreparedStatement prepared = connection.prepareStatement(query)) {
            if (argument != null) {
                prepared.setString(1, argument);
            }
            try (ResultSet rows = prepared.executeQuery()) {
                return rows.next() ? rows.getString(1) : null;
            }
        }
    }

    // What is told.

    @Override
    public Told<K> await(Duration time) throws SQLException {
        return read(listener.getNotifications(millis(time)));
    }

    /** An answer comes after what was announced before; none in time is an SQLException. */
    @Override
    public Told<K> probe() throws SQLException {
        statement.execute("");
        return read(listener.getNotifications());
    }

    private Told<K> read(PGNotification[] notifications) {
        Told<K> told = new Told<>();
        for (PGNotification each : notifications == null ? NOTHING : notifications) {
            if (each.getName().equals(ownChannel)) {
                isWoken = true;
            } else {
                owner.read(each.getParameter(), told);
            }
        }
        return told;
    }

    @Override
    public synchronized void wake() {
        try {
            if (waker == null && !isClosed) {
                waker = owner.source.getConnection();
                waker.setAutoCommit(true);
                waker.setNetworkTimeout(Runnable::run, millis(patience));
            }
            if (waker != null) {
                try (Statement announcing = waker.createStatement()) {
                    announcing.execute("notify " + PostgresAnnouncements.quoted(ownChannel));
                }
            }
        } catch (SQLException e) {
            // Whoever is to be woken looks by itself at each beat.
            abort(waker);
            waker = null;
        }
    }

    @Override
    public void close() {
        isClosed = true;
        abort(connection);
        synchronized (this) {
            abort(waker);
            waker = null;
        }
    }

    /** Closes a connection while another thread may wait for it. */
    private static void abort(Connection open) {
        if (open == null) {
            return;
        }
        try {
            open.abort(Runnable::run);
            open.close();
        } catch (SQLException e) {
            // It is of no use any more.
        }
    }
}
