package cadwrelch.tests;

import static cadwrelch.tests.Check.equal;
import static cadwrelch.tests.Check.holds;
import static cadwrelch.tests.Check.thrown;

import cadwrelch.fleet.Announcements;
import cadwrelch.fleet.Fleet;
import cadwrelch.fleet.FleetException;
import cadwrelch.fleet.PostgresAnnouncements;
import cadwrelch.fleet.Told;
import cadwrelch.jcache.CadwrelchConfiguration;
import cadwrelch.jcache.Invalidation;
import cadwrelch.tests.Background.Work;
import cadwrelch.tests.Check.Test;
import java.lang.reflect.Proxy;
import java.sql.Connection;
import java.time.Duration;
import java.util.ArrayList;
import java.util.Collections;
import java.util.List;
import java.util.Random;
import java.util.Set;
import java.util.TreeSet;
import java.util.concurrent.Callable;
import java.util.concurrent.atomic.AtomicInteger;
import javax.cache.Cache;
import javax.sql.DataSource;
import org.postgresql.PGConnection;

/** Caches before one PostgreSQL, whose triggers announce what anybody writes. */
final class Fleets {
    private Fleets() {}

    private static final Duration LONG = Duration.ofSeconds(20);

    /** A cache over a table, and its fleet, which has started. */
    private static final class Instance implements AutoCloseable {
        final Cache<String, String> cache;
        final Fleet<String> fleet;
        final List<Fleet.State> states = Collections.synchronizedList(new ArrayList<>());

        Instance(Database database) {
            this(database, announcements(database, Database.PORT));
        }

        Instance(Database database, Announcements<String> announcements) {
            this(database, announcements, Duration.ZERO);
        }

        Instance(Database database, Announcements<String> announcements, Duration grace) {
            cache = cacheOf(database);
            fleet = new Fleet<>(cache, announcements);
            fleet.setOnState(states::add);
            fleet.setGrace(grace);
            fleet.start();
            awaitLive();
        }

        void awaitLive() {
            try {
                holds("changes are announced", fleet.awaitLive(LONG));
            } catch (InterruptedException e) {
                throw new IllegalStateException(e);
            }
        }

        @Override
        public void close() {
            fleet.close();
            cache.close();
        }
    }

    private static Cache<String, String> cacheOf(Database database) {
        CadwrelchConfiguration<String, String> configuration = new CadwrelchConfiguration<>();
        configuration.setTypes(String.class, String.class)
                .setReadThrough(true).setCacheLoaderFactory(() -> database)
                .setWriteThrough(true).setCacheWriterFactory(() -> database);
        return Caches.create(configuration);
    }

    private static PostgresAnnouncements<String> announcements(Database database, int port) {
        return new PostgresAnnouncements<>(Database.source(port), database.table, "id", String.class);
    }

    private static Database installed() throws Exception {
        Database database = new Database();
        announcements(database, Database.PORT).install();
        return database;
    }

    /** Waits until something is so, at most as long as for any work. */
    private static boolean until(Callable<Boolean> it) throws Exception {
        long end = System.nanoTime() + LONG.toNanos();
        while (!it.call() && System.nanoTime() < end) {
            Thread.sleep(5);
        }
        return it.call();
    }

    @Test
    static void whatOthersWriteIsSeen() throws Exception {
        Database database = installed();
        try (Instance one = new Instance(database); Instance other = new Instance(database)) {
            one.cache.put("a", "1");
            holds("an instance sees what another one puts", until(() -> "1".equals(other.cache.get("a"))));
            database.run("update " + database.table + " set value = '2'");
            holds("and what any client writes", until(() -> "2".equals(other.cache.get("a"))));
            holds("so does the other", until(() -> "2".equals(one.cache.get("a"))));
            one.fleet.catchUp(LONG);
            int loads = database.loads.get();
            equal("what nobody writes stays cached", "2", one.cache.get("a"));
            equal("and isn't asked for", loads, database.loads.get());
            database.run("update " + database.table + " set id = 'b' where id = 'a'");
            holds("both keys of a row that gets another one are told",
                    until(() -> one.cache.get("a") == null && "2".equals(one.cache.get("b"))));
            database.run("insert into " + database.table + " select 'k' || i, 'new' from generate_series(1, 2000) i");
            holds("of many rows it is told that any may be changed",
                    until(() -> one.fleet.stats().get("everythingTold") > 0));
            equal("a row of them", "new", one.cache.get("k7"));
            database.run("truncate " + database.table);
            holds("a truncation is told", until(() -> one.cache.get("k7") == null));
        }
    }

    @Test
    static void whatWasReadBeforeTheStartIsForgotten() throws Exception {
        Database database = installed();
        database.foreignWrite("a", "old");
        Cache<String, String> cache = cacheOf(database);
        equal("without a fleet a cache reads", "old", cache.get("a"));
        database.foreignWrite("a", "new");
        equal("and hears of nothing", "old", cache.get("a"));
        Fleet<String> fleet = new Fleet<>(cache, announcements(database, Database.PORT));
        fleet.start();
        holds("it begins", fleet.awaitLive(LONG));
        equal("what was read before is forgotten", "new", cache.get("a"));
        thrown("a fleet is started once", IllegalStateException.class, fleet::start);
        equal("which changes nothing", false, cache.unwrap(Invalidation.class).isSuspended());
        thrown("and set before", IllegalStateException.class, () -> fleet.setBeat(Duration.ofSeconds(1)));
        fleet.close();
        fleet.close();
        equal("a fleet that is closed leaves its cache suspended", true,
                cache.unwrap(Invalidation.class).isSuspended());
        equal("and says so", Fleet.State.CLOSED, fleet.state());
        cache.close();
    }

    @Test
    static void aLoadThatHasReadBeforeAChange() throws Exception {
        Database database = installed();
        database.foreignWrite("a", "old");
        try (Instance it = new Instance(database)) {
            Store.Gate gate = new Store<String, String>().shut();
            database.gate = gate;
            Work<String> load = Background.start(() -> it.cache.get("a"));
            gate.awaitCall();
            database.gate = null;
            database.foreignWrite("a", "new");
            holds("this instance is told", it.fleet.catchUp(LONG));
            Work<String> late = Background.start(() -> it.cache.get("a"));
            holds("a get that begins then doesn't join the load", late.awaitSleep());
            gate.open();
            equal("the load is answered", "old", load.result());
            equal("the late get has the change", "new", late.result());
            equal("which stays cached", "new", it.cache.get("a"));
        }
    }

    @Test
    static void whoWasToldByTheWriterCatchesUp() throws Exception {
        Database database = installed();
        try (Instance it = new Instance(database)) {
            int older = 0;
            for (int i = 0; i < 200; i++) {
                database.foreignWrite("a", "v" + i);
                holds("it catches up", it.fleet.catchUp(LONG));
                older += it.cache.get("a").equals("v" + i) ? 0 : 1;
            }
            equal("after catchUp no get is older", 0, older);
        }
    }

    @Test
    static void aConnectionThatIsEnded() throws Exception {
        Database database = installed();
        database.foreignWrite("a", "old");
        try (Instance it = new Instance(database)) {
            it.cache.get("a");
            database.run("select pg_terminate_backend(pid) from pg_stat_activity where pid <> pg_backend_pid()"
                    + " and query like '%listen%' or query = ''");
            database.foreignWrite("a", "new");
            holds("nothing that is lost stays", until(() -> "new".equals(it.cache.get("a"))));
            it.awaitLive();
            holds("it was told to the user", until(() -> it.states.equals(
                    List.of(Fleet.State.LIVE, Fleet.State.SUSPENDED, Fleet.State.LIVE))));
            equal("and counted", List.of(2L, 1L),
                    List.of(it.fleet.stats().get("connections"), it.fleet.stats().get("losses")));
            holds("with its cause", it.fleet.failure() != null);
        }
    }

    @Test
    static void aConnectionThatIsSilent() throws Exception {
        Database database = installed();
        database.foreignWrite("a", "old");
        try (StallingProxy proxy = new StallingProxy(Database.PORT);
                Instance it = new Instance(database, announcements(database, proxy.port()))) {
            it.cache.get("a");
            proxy.isStalled = true;
            database.foreignWrite("a", "new");
            long began = System.nanoTime();
            holds("a silent connection is given up", until(() -> "new".equals(it.cache.get("a"))));
            long millis = (System.nanoTime() - began) / 1_000_000;
            // Beat and patience are two seconds; the rest is a busy machine's.
            holds("after " + millis + " ms, that is its beat and its patience", millis < 6000);
            equal("nothing is kept then", true, it.cache.unwrap(Invalidation.class).isSuspended());
            proxy.isStalled = false;
            it.awaitLive();
        }
    }

    @Test
    static void grace() throws Exception {
        Database database = installed();
        try (StallingProxy proxy = new StallingProxy(Database.PORT);
                Instance it = new Instance(database, announcements(database, proxy.port()), Duration.ofSeconds(2))) {
            database.foreignWrite("a", "old");
            it.fleet.catchUp(LONG);
            it.cache.get("a");
            proxy.isStalled = true;
            holds("the loss is seen", until(() -> !it.fleet.isLive()));
            equal("with a grace the cache goes on", false, it.cache.unwrap(Invalidation.class).isSuspended());
            holds("until that is over", until(() -> it.cache.unwrap(Invalidation.class).isSuspended()));
            proxy.isStalled = false;
            it.awaitLive();
            equal("then it keeps again", false, it.cache.unwrap(Invalidation.class).isSuspended());
        }
    }

    @Test
    static void ownWrites() throws Exception {
        Database database = installed();
        database.origin = "J1";
        PostgresAnnouncements<String> announcements = announcements(database, Database.PORT);
        announcements.setOwnOrigin(() -> database.origin);
        try (Instance it = new Instance(database, announcements)) {
            it.cache.put("a", "mine");
            it.fleet.catchUp(LONG);
            int loads = database.loads.get();
            equal("an own write stays cached, if that is asked for", "mine", it.cache.get("a"));
            equal("and isn't loaded", loads, database.loads.get());
            database.foreignWrite("a", "theirs");
            it.fleet.catchUp(LONG);
            equal("another's is forgotten", "theirs", it.cache.get("a"));
        }
    }

    // What has to be so.

    private static void refused(String wanted, Announcements<String> announcements) {
        Cache<String, String> cache = Caches.plain(String.class, String.class);
        Fleet<String> fleet = new Fleet<>(cache, announcements);
        fleet.setPatience(Duration.ofMillis(700));
        FleetException error = thrown(wanted, FleetException.class, fleet::start);
        holds(wanted + " is said: " + error, error != null && error.getMessage().contains(wanted));
        equal("the cache stays suspended", true, cache.unwrap(Invalidation.class).isSuspended());
        fleet.close();
        cache.close();
    }

    @Test
    static void premises() throws Exception {
        DataSource source = Database.source(Database.PORT);
        Database bare = new Database();
        refused("there is no table nowhere", new PostgresAnnouncements<>(source, "nowhere", "id", String.class));
        refused("but id, value", new PostgresAnnouncements<>(source, bare.table, "key", String.class));
        refused("install() makes them", new PostgresAnnouncements<>(source, bare.table, "id", String.class));
        announcements(bare, Database.PORT).install();
        bare.run("alter table " + bare.table + " disable trigger cadwrelch_update");
        refused("not enabled", announcements(bare, Database.PORT));
        announcements(bare, Database.PORT).install();
        bare.foreignWrite("seven", "7");
        refused("the key 'seven'", new PostgresAnnouncements<>(source, bare.table, "id", text -> "" + Integer.valueOf(text)));
        refused("there is no connection", announcements(bare, 1));
        refused("a pooler of transactions", new PostgresAnnouncements<>(deaf(source), bare.table, "id", String.class));
        bare.run("drop role if exists guest");
        bare.run("create role guest login");
        DataSource guest = Database.source(Database.PORT, "guest");
        refused("grant select", new PostgresAnnouncements<>(guest, bare.table, "id", String.class));
        thrown("a cache of another provider", NullPointerException.class, () -> new Fleet<String>(null, null));
        FleetException error = thrown("install() by another user", FleetException.class,
                () -> new PostgresAnnouncements<>(guest, bare.table, "id", String.class).install());
        holds("it says who may: " + error, error.getMessage().contains("has to own the table"));
        thrown("a type without a reader", IllegalArgumentException.class,
                () -> new PostgresAnnouncements<>(source, bare.table, "id", Object.class));
        thrown("a time of nothing", IllegalArgumentException.class, () -> new Fleet<>(
                Caches.plain(String.class, String.class), announcements(bare, 1)).setBeat(Duration.ZERO));
    }

    /** Connections to which no announcement comes, as through a pooler of transactions. */
    private static DataSource deaf(DataSource source) {
        ClassLoader loader = Fleets.class.getClassLoader();
        return (DataSource) Proxy.newProxyInstance(loader, new Class<?>[] {DataSource.class}, (of, method, no) -> {
            Connection connection = source.getConnection();
            Object silent = Proxy.newProxyInstance(loader, new Class<?>[] {PGConnection.class}, (me, its, values) -> {
                Thread.sleep(20);
                return null;
            });
            return Proxy.newProxyInstance(loader, new Class<?>[] {Connection.class}, (me, its, values) ->
                    its.getName().equals("unwrap") ? silent : its.invoke(connection, values));
        });
    }

    @Test
    static void stress() throws Exception {
        Database database = installed();
        equal("at rest all that is cached is the store's", Set.of(),
                staleAfterStress(database, announcements(database, Database.PORT)));
    }

    /** What shows that the test above would find what is wrong. */
    @Test
    static void stressWithoutAnnouncements() throws Exception {
        Database database = installed();
        Announcements<String> heard = announcements(database, Database.PORT);
        Set<String> stale = staleAfterStress(database, patience -> new Deaf(heard.connect(patience)));
        holds("if nothing is told values are stale", !stale.isEmpty());
    }

    /** A channel that tells nothing. */
    private static final class Deaf implements Announcements.Channel<String> {
        private final Announcements.Channel<String> heard;

        Deaf(Announcements.Channel<String> heard) {
            this.heard = heard;
        }

        @Override
        public Told<String> await(Duration time) throws Exception {
            heard.await(time);
            return new Told<>();
        }

        @Override
        public Told<String> probe() throws Exception {
            heard.probe();
            return new Told<>();
        }

        @Override
        public void wake() {
            heard.wake();
        }

        @Override
        public void close() {
            heard.close();
        }
    }

    /** Two instances and a client write at once: which cached keys are not the store's afterwards. */
    private static Set<String> staleAfterStress(Database database, Announcements<String> announcements)
            throws Exception {
        try (Instance one = new Instance(database, announcements); Instance other = new Instance(database, announcements)) {
            AtomicInteger values = new AtomicInteger();
            long end = System.nanoTime() + Duration.ofSeconds(Integer.getInteger("fleet.seconds", 4)).toNanos();
            List<Work<Integer>> all = new ArrayList<>();
            for (Instance each : List.of(one, other)) {
                all.addAll(Background.startMany(2, () -> calls(each.cache, values, end)));
            }
            Work<Integer> client = Background.start(() -> {
                int writes = 0;
                while (System.nanoTime() < end) {
                    database.foreignWrite("k" + writes++ % 8, "sql" + values.incrementAndGet());
                    Thread.sleep(3);
                }
                return writes;
            });
            int calls = Background.results(all).stream().mapToInt(Integer::intValue).sum();
            int writes = client.result();
            Set<String> wrong = new TreeSet<>();
            for (Instance each : List.of(one, other)) {
                holds("it catches up", each.fleet.catchUp(LONG));
                each.cache.forEach(entry -> {
                    if (!entry.getValue().equals(database.stored(entry.getKey()))) {
                        wrong.add(entry.getKey());
                    }
                });
            }
            System.out.println(calls + " calls, " + writes + " writes of a client, " + one.fleet.stats());
            return wrong;
        }
    }

    private static int calls(Cache<String, String> cache, AtomicInteger values, long end) throws Exception {
        Random random = new Random(Thread.currentThread().getId());
        int calls = 0;
        while (System.nanoTime() < end) {
            String key = "k" + random.nextInt(8);
            if (random.nextInt(10) == 0) {
                cache.put(key, "v" + values.incrementAndGet());
            } else {
                cache.get(key);
            }
            calls++;
            Thread.sleep(0, 300_000);
        }
        return calls;
    }
}
