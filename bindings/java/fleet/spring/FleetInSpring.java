import cadwrelch.fleet.Fleet;
import java.sql.Connection;
import java.sql.Statement;
import java.time.Duration;
import javax.cache.Cache;
import org.postgresql.ds.PGSimpleDataSource;
import org.springframework.context.support.ClassPathXmlApplicationContext;

/** A fleet that is a bean: it starts and ends with its context. */
public class FleetInSpring {
    @SuppressWarnings("unchecked")
    public static void main(String[] none) throws Exception {
        PGSimpleDataSource database = new PGSimpleDataSource();
        database.setServerNames(new String[] {"127.0.0.1"});
        database.setPortNumbers(new int[] {Integer.getInteger("fleet.port")});
        database.setUser("cadwrelch");
        database.setDatabaseName("postgres");
        try (Connection connection = database.getConnection(); Statement statement = connection.createStatement()) {
            statement.execute("create table if not exists books (id integer primary key, title text)");
            Fleet<Integer> fleet;
            try (ClassPathXmlApplicationContext context = new ClassPathXmlApplicationContext("fleet.xml")) {
                fleet = context.getBean(Fleet.class);
                Cache<Integer, String> titles = context.getBean("titles", Cache.class);
                check("it is live", fleet.awaitLive(Duration.ofSeconds(20)));
                titles.put(7, "old");
                statement.execute("insert into books values (7, 'new') on conflict (id) do update set title = 'new'");
                check("what another client has written is forgotten",
                        fleet.catchUp(Duration.ofSeconds(20)) && !titles.containsKey(7));
            }
            check("it ends with its context", fleet.state() == Fleet.State.CLOSED);
        }
    }

    private static void check(String what, boolean it) {
        if (!it) {
            throw new AssertionError(what);
        }
    }
}
