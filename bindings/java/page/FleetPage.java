import cadwrelch.fleet.Fleet;
import cadwrelch.fleet.PostgresAnnouncements;
import java.sql.Connection;
import java.sql.Statement;
import java.time.Duration;
import javax.cache.Cache;
import javax.cache.Caching;
import javax.cache.configuration.MutableConfiguration;
import org.postgresql.ds.PGSimpleDataSource;

/** The example of README.md for several instances, over the PostgreSQL at the port fleet.port. */
public class FleetPage {
    public static void main(String[] none) throws Exception {
        PGSimpleDataSource dataSource = new PGSimpleDataSource();
        dataSource.setServerNames(new String[] {"127.0.0.1"});
        dataSource.setPortNumbers(new int[] {Integer.getInteger("fleet.port")});
        dataSource.setUser("cadwrelch");
        dataSource.setDatabaseName("postgres");
        try (Connection connection = dataSource.getConnection(); Statement statement = connection.createStatement()) {
            statement.execute("create table if not exists pages (id text primary key, text text)");
            statement.execute("insert into pages values ('home', 'old') on conflict do nothing");
            Cache<String, String> pages = Caching.getCachingProvider().getCacheManager()
                    .createCache("pages", new MutableConfiguration<>());
            // The examples of the page.
            pages.put("home", "old");
            statement.execute("update pages set text = 'new'");
            if (!fleet.catchUp(Duration.ofSeconds(20)) || pages.containsKey("home")) {
                throw new AssertionError("what another client has written is still cached");
            }
            fleet.close();
        }
    }
}
