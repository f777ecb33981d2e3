package cadwrelch.tests;

import java.sql.Connection;
import java.sql.PreparedStatement;
import java.sql.ResultSet;
import java.sql.SQLException;
import java.sql.Statement;
import java.util.Collection;
import java.util.HashMap;
import java.util.Map;
import java.util.concurrent.atomic.AtomicInteger;
import javax.cache.Cache;
import javax.cache.integration.CacheLoader;
import javax.cache.integration.CacheLoaderException;
import javax.cache.integration.CacheWriter;
import javax.cache.integration.CacheWriterException;
import javax.sql.DataSource;
import org.postgresql.ds.PGSimpleDataSource;

/** A table of the PostgreSQL at the port {@code fleet.port}, as the loader and the writer of caches. */
final class Database implements CacheLoader<String, String>, CacheWriter<String, String> {
    static final int PORT = Integer.getInteger("fleet.port", 0);
    private static final AtomicInteger tables = new AtomicInteger();

    final String table = "pages" + tables.incrementAndGet();
    final AtomicInteger loads = new AtomicInteger();
    /** At which a load that has read waits; null: it doesn't. */
    volatile Store.Gate gate;
    /** What marks this process's writes; null: nothing does. */
    volatile String origin;
    private final ThreadLocal<Connection> connections = ThreadLocal.withInitial(() -> {
        try {
            return source(PORT).getConnection();
        } catch (SQLException e) {
            throw new IllegalStateException(e);
        }
    });

    Database() throws SQLException {
        run("drop table if exists " + table);
        run("create table " + table + " (id text primary key, value text)");
    }

    static DataSource source(int port) {
        return source(port, "cadwrelch");
    }

    static DataSource source(int port, String user) {
        PGSimpleDataSource source = new PGSimpleDataSource();
        source.setServerNames(new String[] {"127.0.0.1"});
        source.setPortNumbers(new int[] {port});
        source.setUser(user);
        source.setDatabaseName("postgres");
        source.setConnectTimeout(2);
        return source;
    }

    /** What any client does. */
    void run(String sql) throws SQLException {
        try (Statement statement = connections.get().createStatement()) {
            statement.execute(sql);
        }
    }

    void foreignWrite(String key, String value) throws SQLException {
        run("insert into " + table + " values ('" + key + "', '" + value
                + "') on conflict (id) do update set value = excluded.value");
    }

    /** What is stored, or null. */
    String stored(String key) {
        try (PreparedStatement query =
                connections.get().prepareStatement("select value from " + table + " where id = ?")) {
            query.setString(1, key);
            ResultSet rows = query.executeQuery();
            return rows.next() ? rows.getString(1) : null;
        } catch (SQLException e) {
            throw new CacheLoaderException(e);
        }
    }

    @Override
    public String load(String key) {
        loads.incrementAndGet();
        String value = stored(key);
        Store.Gate here = gate;
        if (here != null) {
            here.pass();
        }
        return value;
    }

    @Override
    public Map<String, String> loadAll(Iterable<? extends String> keys) {
        Map<String, String> found = new HashMap<>();
        keys.forEach(key -> found.put(key, load(key)));
        return found;
    }

    @Override
    public void write(Cache.Entry<? extends String, ? extends String> entry) {
        try (PreparedStatement upsert = connections.get().prepareStatement("insert into " + table
                + " values (?, ?) on conflict (id) do update set value = excluded.value"
                + " returning set_config('cadwrelch.own', ? || ' ' || id, true)")) {
            upsert.setString(1, entry.getKey());
            upsert.setString(2, entry.getValue());
            upsert.setString(3, origin == null ? "" : origin);
            upsert.execute();
        } catch (SQLException e) {
            throw new CacheWriterException(e);
        }
    }

    @Override
    public void writeAll(Collection<Cache.Entry<? extends String, ? extends String>> entries) {
        entries.forEach(this::write);
        entries.clear();
    }

    @Override
    public void delete(Object key) {
        try {
            run("delete from " + table + " where id = '" + key + "'");
        } catch (SQLException e) {
            throw new CacheWriterException(e);
        }
    }

    @Override
    public void deleteAll(Collection<?> keys) {
        keys.forEach(this::delete);
        keys.clear();
    }
}
