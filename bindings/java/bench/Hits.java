import com.github.benmanes.caffeine.cache.Caffeine;
import java.io.Serializable;
import java.lang.management.ManagementFactory;
import java.net.URI;
import java.util.Arrays;
import java.util.LinkedHashMap;
import java.util.Map;
import java.util.Properties;
import java.util.concurrent.TimeUnit;
import java.util.function.Function;
import javax.cache.Cache;
import javax.cache.CacheManager;
import javax.cache.Caching;
import javax.cache.configuration.MutableConfiguration;
import javax.cache.expiry.CreatedExpiryPolicy;
import javax.cache.expiry.Duration;
import net.sf.ehcache.Ehcache;
import net.sf.ehcache.Element;
import net.sf.ehcache.config.CacheConfiguration;

/**
 * What a get that finds its entry takes, with statistics and an expiry of an hour, and by value of an object of three fields, beside Caffeine
 * and Ehcache. Nanoseconds of a thread's processor time a call; of four threads, those of the clock, too. Of each the least of some rounds,
 * which take turns, so that what else the machine does is the same for all.
 *
 * <p>usage: Hits [SECONDS], how long each round is, by default 0.3
 */
public final class Hits {
    private static final int KEYS = 1024;
    private static final int ROUNDS = 12;

    /** Three fields, as most values have. */
    static final class Account implements Serializable {
        private static final long serialVersionUID = 1;
        private final long id;
        private final String owner;
        private final double balance;

        Account(long id) {
            this.id = id;
            this.owner = "owner " + id;
            this.balance = id / 4.0;
        }
    }

    private static final Long[] IDS = new Long[KEYS];
    private static volatile Object last;

    private Hits() {}

    private static Cache<Long, Account> provider(boolean isByValue, boolean isTimed) {
        Properties properties = new Properties();
        properties.setProperty("cadwrelch.stripes", "16");
        properties.setProperty("cadwrelch.capacity", "16384");
        CacheManager manager =
                Caching.getCachingProvider().getCacheManager(URI.create("hits:" + isByValue + isTimed), null, properties);
        MutableConfiguration<Long, Account> configuration =
                new MutableConfiguration<Long, Account>().setStoreByValue(isByValue).setStatisticsEnabled(isTimed);
        if (isTimed) {
            configuration.setExpiryPolicyFactory(CreatedExpiryPolicy.factoryOf(new Duration(TimeUnit.HOURS, 1)));
        }
        Cache<Long, Account> cache = manager.createCache("hits", configuration);
        for (Long id : IDS) {
            cache.put(id, new Account(id));
        }
        return cache;
    }

    private static Function<Long, Object> caffeine() {
        com.github.benmanes.caffeine.cache.Cache<Long, Account> cache =
                Caffeine.newBuilder().maximumSize(4 * KEYS).expireAfterWrite(1, TimeUnit.HOURS).recordStats().build();
        for (Long id : IDS) {
            cache.put(id, new Account(id));
        }
        return cache::getIfPresent;
    }

    private static Function<Long, Object> ehcache() {
        Ehcache cache = net.sf.ehcache.CacheManager.create().addCacheIfAbsent(
                new net.sf.ehcache.Cache(new CacheConfiguration("hits", 4 * KEYS).timeToLiveSeconds(3600).statistics(true)));
        for (Long id : IDS) {
            cache.put(new Element(id, new Account(id)));
        }
        return cache::get;
    }

    /** What a call of each thread takes: processor time, and time of the clock. */
    private static double[] round(Function<Long, Object> get, int threads, double seconds) throws InterruptedException {
        double[][] each = new double[threads][];
        Thread[] all = new Thread[threads];
        for (int t = 0; t < threads; t++) {
            int own = t;
            all[t] = new Thread(() -> each[own] = timed(get, own * 257, seconds));
            all[t].start();
        }
        for (Thread thread : all) {
            thread.join();
        }
        return new double[] {Arrays.stream(each).mapToDouble(it -> it[0]).average().getAsDouble(),
            Arrays.stream(each).mapToDouble(it -> it[1]).average().getAsDouble()};
    }

    private static double[] timed(Function<Long, Object> get, int from, double seconds) {
        long begun = System.nanoTime();
        long processor = ManagementFactory.getThreadMXBean().getCurrentThreadCpuTime();
        long spent = 0;
        long calls = 0;
        while (spent < seconds * 1e9) {
            for (int i = 0; i < KEYS; i++) {
                Object found = get.apply(IDS[(i + from) % KEYS]);
                if (found == null) {
                    throw new IllegalStateException("no entry");
                }
                last = found;
            }
            calls += KEYS;
            spent = System.nanoTime() - begun;
        }
        processor = ManagementFactory.getThreadMXBean().getCurrentThreadCpuTime() - processor;
        return new double[] {(double) processor / calls, (double) spent / calls};
    }

    public static void main(String[] words) throws Exception {
        double seconds = words.length > 0 ? Double.parseDouble(words[0]) : 0.3;
        Arrays.setAll(IDS, i -> 1000L * i);
        Map<String, Function<Long, Object>> all = new LinkedHashMap<>();
        all.put("the provider, plain", provider(false, false)::get);
        all.put("the provider, statistics, expiry", provider(false, true)::get);
        all.put("Caffeine, statistics, expiry", caffeine());
        all.put("Ehcache, statistics, expiry", ehcache());
        all.put("the provider by value, statistics, expiry", provider(true, true)::get);
        for (int threads : new int[] {1, 4}) {
            Map<String, double[]> least = new LinkedHashMap<>();
            for (int i = 0; i < ROUNDS; i++) {
                for (Map.Entry<String, Function<Long, Object>> one : all.entrySet()) {
                    least.merge(one.getKey(), round(one.getValue(), threads, seconds),
                            (a, b) -> new double[] {Math.min(a[0], b[0]), Math.min(a[1], b[1])});
                }
            }
            least.forEach((name, nanos) -> System.out.printf("%d thread(s), %s: %.0f%s%n", threads, name, nanos[0],
                    threads == 1 ? "" : String.format(", by the clock %.0f", nanos[1])));
        }
        System.exit(0);
    }
}
