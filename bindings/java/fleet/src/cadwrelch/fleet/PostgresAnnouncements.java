package cadwrelch.fleet;

import java.io.IOException;
import java.io.InputStream;
import java.io.UncheckedIOException;
import java.nio.charset.StandardCharsets;
import java.sql.Connection;
import java.sql.SQLException;
import java.sql.Statement;
import java.time.Duration;
import java.util.Arrays;
import java.util.Map;
import java.util.Objects;
import java.util.UUID;
import java.util.function.Function;
import java.util.function.Supplier;
import java.util.logging.Level;
import java.util.logging.Logger;
import java.util.stream.Collectors;
import javax.sql.DataSource;

/**
 * The changes of a table of PostgreSQL, 14 or later, whose triggers announce each change to all who listen, as it is
 * committed. They name the keys of the rows, or, of over 1,000 rows of a statement and of TRUNCATE, say that any may be
 * changed. Not told are changes while the triggers are disabled, and an ALTER TABLE that rewrites the table. A
 * transaction that is prepared for a two-phase commit can't change the table, since PostgreSQL refuses that.
 *
 * @param <K> the type of the keys
 */
public final class PostgresAnnouncements<K> implements Announcements<K> {
    /** A statement that changes more rows says that any may be changed. */
    static final int KEYS_MAX = 1000;
    private static final int NAME_BYTES_MAX = 63;
    private static final Logger LOG = Logger.getLogger("cadwrelch.fleet");
    private static final Map<Class<?>, Function<String, ?>> READERS = Map.of(String.class, text -> text,
            Integer.class, Integer::valueOf, Long.class, Long::valueOf, UUID.class, UUID::fromString);

    final DataSource source;
    final String table;
    final String keyColumn;
    final String channel;
    private final Function<String, K> reader;
    private Supplier<String> ownOrigin = () -> null;
    private volatile boolean hasWarned;

    /**
     * The changes of a table.
     *
     * @param source connections to the primary, through no pooler of transactions. One is kept as long as the fleet
     *     listens, and another one once {@link Fleet#catchUp} is called: so not a pool that is small
     * @param table its name, or schema and name with a dot between them, as they are written with quotes
     * @param keyColumn the column whose values, as texts, are the cache's keys
     * @param reader makes a key of the text of one
     * @throws IllegalArgumentException if the table's name is over 53 bytes long
     */
    public PostgresAnnouncements(DataSource source, String table, String keyColumn, Function<String, K> reader) {
        this.source = Objects.requireNonNull(source, "source");
        this.table = Objects.requireNonNull(table, "table");
        this.keyColumn = Objects.requireNonNull(keyColumn, "keyColumn");
        this.reader = Objects.requireNonNull(reader, "reader");
        channel = "cadwrelch_" + table;
        if (channel.getBytes(StandardCharsets.UTF_8).length > NAME_BYTES_MAX) {
            throw new IllegalArgumentException("the table's name is too long to be one of a channel: " + table);
        }
    }

    /**
     * The same for keys of a type of the platform.
     *
     * @param source connections to the primary, as above
     * @param table its name
     * @param keyColumn the column of its keys
     * @param keyType String, Integer, Long or UUID
     * @throws IllegalArgumentException also if it is another type
     */
    public PostgresAnnouncements(DataSource source, String table, String keyColumn, Class<K> keyType) {
        this(source, table, keyColumn, readerOf(keyType));
    }

    @SuppressWarnings("unchecked")
    private static <K> Function<String, K> readerOf(Class<K> keyType) {
        Function<String, ?> known = READERS.get(keyType);
        if (known == null) {
            throw new IllegalArgumentException("keys of type " + keyType.getName()
                    + " need a function that makes one of its text");
        }
        return (Function<String, K>) known;
    }

    /**
     * Leaves out what this process has written itself: changes whose transaction has set {@code cadwrelch.own} to this
     * origin, a blank and the key. Otherwise they are told as well, which costs a load after each write, and is right
     * in three cases where this isn't: the reply to a commit is lost, so that the writer fails and the row is changed;
     * a trigger changes further rows in the same transaction and keeps the setting; a trigger changes the row that is
     * written, so that the cache has what was given.
     *
     * @param origin asked for each change; a writer whose end isn't known is to take another one
     */
    public void setOwnOrigin(Supplier<String> origin) {
        ownOrigin = Objects.requireNonNull(origin, "origin");
    }

    /**
     * Makes the triggers of the table, or makes them anew. Once, by whoever owns the table.
     *
     * @throws FleetException if that fails: the message says why
     */
    public void install() {
        try (Connection connection = source.getConnection(); Statement statement = connection.createStatement()) {
            connection.setAutoCommit(false);
            statement.execute(triggers());
            connection.commit();
        } catch (SQLException e) {
            throw new FleetException("the triggers of the table " + table + " can't be made" + because(e.getSQLState()), e);
        }
    }

    private String because(String state) {
        switch (state == null ? "" : state) {
            case "42501":
                return ": the user has to own the table, and may create functions in its schema";
            case "42P01":
            case "3F000":
                return ": there is no such table; its schema goes before it, with a dot, unless it's on the search path";
            case "42703":
                return ": it has no column " + keyColumn + ", which is to be that of its keys";
            default:
                return "";
        }
    }

    private String triggers() {
        Map<String, String> words = Map.of("{table}", quotedTable(), "{key}", quoted(keyColumn), "{function}",
                quoted("cadwrelch_announce_" + table.replace('.', '_')), "{channel}", "'" + channel.replace("'", "''")
                + "'", "{limit}", String.valueOf(KEYS_MAX));
        String text;
        try (InputStream file = PostgresAnnouncements.class.getResourceAsStream("triggers.sql")) {
            text = new String(file.readAllBytes(), StandardCharsets.UTF_8);
        } catch (IOException e) {
            throw new UncheckedIOException(e);
        }
        for (Map.Entry<String, String> word : words.entrySet()) {
            text = text.replace(word.getKey(), word.getValue());
        }
        return text;
    }

    static String quoted(String name) {
        return '"' + name.replace("\"", "\"\"") + '"';
    }

    String quotedTable() {
        return Arrays.stream(table.split("\\.")).map(PostgresAnnouncements::quoted).collect(Collectors.joining("."));
    }

    @Override
    public Channel<K> connect(Duration patience) throws SQLException {
        PostgresChannel<K> opened = new PostgresChannel<>(this, patience);
        try {
            opened.open();
        } catch (SQLException | RuntimeException e) {
            opened.close();
            throw e;
        }
        return opened;
    }

    /** Adds what a notification says: who has changed a key, and the key; or, without a blank, that any may be changed. */
    void read(String text, Told<K> told) {
        int blank = text.indexOf(' ');
        if (blank < 0) {
            told.addEverything();
        } else if (blank == 0 || !text.substring(0, blank).equals(ownOrigin.get())) {
            try {
                told.add(key(text.substring(blank + 1)));
            } catch (FleetException e) {
                told.addEverything();
                LOG.log(hasWarned ? Level.FINE : Level.WARNING, "all keys are forgotten at each such change", e);
                hasWarned = true;
            }
        }
    }

    /** A key, by its text. */
    K key(String text) {
        try {
            return Objects.requireNonNull(reader.apply(text), "the key");
        } catch (RuntimeException e) {
            throw new FleetException("the key '" + text + "' of the table " + table
                    + " can't be read: the column and the function that makes keys of texts have to fit", e);
        }
    }
}
