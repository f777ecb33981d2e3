package cadwrelch.tests;

import static cadwrelch.tests.Check.equal;
import static cadwrelch.tests.Check.holds;
import static cadwrelch.tests.Check.thrown;

import java.time.Duration;
import java.util.List;
import java.util.Properties;
import javax.cache.Cache;
import javax.cache.CacheException;
import javax.cache.CacheManager;
import javax.cache.configuration.MutableConfiguration;
import cadwrelch.jcache.CadwrelchConfiguration;
import cadwrelch.tests.Check.Test;

/** How many entries a cache has room for, and what says so. */
final class Sizes {
    private Sizes() {}

    /** Puts keys of a step, and says how many are cached then. */
    private static int kept(Cache<Integer, Integer> cache, int keys, int step) {
        for (int i = 0; i < keys; i++) {
            cache.put(i * step, i);
        }
        int[] kept = new int[1];
        cache.forEach(entry -> kept[0]++);
        return kept[0];
    }

    private static CacheManager manager(String... namesAndValues) {
        Properties properties = new Properties();
        for (int i = 0; i < namesAndValues.length; i += 2) {
            properties.setProperty("cadwrelch." + namesAndValues[i], namesAndValues[i + 1]);
        }
        return Caches.manager(properties);
    }

    @Test
    static void aSmallCacheHoldsExactlyItsCapacity() {
        for (int capacity : new int[] {1, 2, 7, 100, 511}) {
            CacheManager manager = manager("capacity", String.valueOf(capacity));
            Cache<Integer, Integer> cache = manager.createCache("small", new MutableConfiguration<>());
            equal("as many keys as the capacity " + capacity + " are all kept", capacity, kept(cache, capacity, 16));
            equal("and of more just as many", capacity, kept(cache, 3 * capacity, 10));
            manager.close();
        }
    }

    @Test
    static void aLargerCacheHoldsNearlyItsCapacity() {
        for (int capacity : new int[] {512, 1000, 10_000, 70_001}) {
            for (int step : new int[] {1, 16, 4096}) {
                CacheManager manager = manager("capacity", String.valueOf(capacity));
                Cache<Integer, Integer> cache = manager.createCache("large", new MutableConfiguration<>());
                int kept = kept(cache, capacity, step);
                holds("of " + capacity + " keys in steps of " + step + " at least 95 of 100 are kept: " + kept,
                        kept >= capacity * 0.95 && kept <= capacity);
                manager.close();
            }
            CacheManager manager = manager("capacity", String.valueOf(capacity));
            Cache<Integer, Integer> cache = manager.createCache("full", new MutableConfiguration<>());
            equal("and of three times as many all stripes are full: the capacity is the whole cache's", capacity,
                    kept(cache, 3 * capacity, 1));
            manager.close();
        }
    }

    @Test
    @SuppressWarnings("unchecked")
    static void theDefaultsGoTogether() {
        for (int[] it : new int[][] {{0, 16, 65_536}, {1, 1, 4096}, {20, 20, 65_536}, {4096, 4096, 65_536}}) {
            CadwrelchConfiguration<Integer, Integer> configuration = new CadwrelchConfiguration<>();
            CadwrelchConfiguration<Integer, Integer> of = Caches.create(it[0] == 0 ? configuration
                    : configuration.setStripes(it[0])).getConfiguration(CadwrelchConfiguration.class);
            equal("with " + it[0] + " stripes set a cache has", List.of(it[1], it[2]),
                    List.of(of.getStripes(), of.getCapacity()));
        }
    }

    /** How many of 100 keys a new cache of this name keeps. */
    private static int sizeOf(CacheManager manager, String name, CadwrelchConfiguration<Integer, Integer> configuration) {
        Cache<Integer, Integer> cache = manager.createCache(name, configuration);
        int kept = kept(cache, 100, 1);
        cache.close();
        return kept;
    }

    @Test
    static void eachCacheHasItsOwn() {
        CacheManager manager = manager("capacity", "50", "titles.capacity", "7", "a.b.capacity", "9", "titles.stripes", "2");
        equal("a cache has the capacity of the manager's properties", 50,
                sizeOf(manager, "other", new CadwrelchConfiguration<>()));
        equal("or that of the property with its name", 7, sizeOf(manager, "titles", new CadwrelchConfiguration<>()));
        equal("which may have dots", 9, sizeOf(manager, "a.b", new CadwrelchConfiguration<>()));
        equal("or that of its configuration, which comes first", 5,
                sizeOf(manager, "titles", new CadwrelchConfiguration<Integer, Integer>().setCapacity(5)));
        System.setProperty("cadwrelch.shelf.capacity", "3");
        System.setProperty("cadwrelch.titles.capacity", "4");
        try {
            equal("a system property says it, too", 3, sizeOf(manager, "shelf", new CadwrelchConfiguration<>()));
            equal("after the manager's", 7, sizeOf(manager, "titles", new CadwrelchConfiguration<>()));
        } finally {
            System.clearProperty("cadwrelch.shelf.capacity");
            System.clearProperty("cadwrelch.titles.capacity");
        }
        manager.close();
    }

    @Test
    @SuppressWarnings("unchecked")
    static void aConfigurationIsCopiedAndAnswered() {
        CadwrelchConfiguration<Integer, Integer> configuration =
                new CadwrelchConfiguration<Integer, Integer>().setCapacity(3).setStripes(1).setHistory(100);
        configuration.setTypes(Integer.class, Integer.class);
        Cache<Integer, Integer> cache = Caches.create(configuration);
        configuration.setCapacity(9);
        equal("a cache has the size that its configuration had", 3, kept(cache, 20, 1));
        Cache<Integer, Integer> copy = Caches.create(cache.getConfiguration(CadwrelchConfiguration.class));
        equal("and its configuration makes another one of that size", 3, kept(copy, 20, 1));
        CadwrelchConfiguration<Integer, Integer> of = manager("capacity", "1000", "absent_for", "2 m")
                .createCache("told", new CadwrelchConfiguration<Integer, Integer>()
                        .setRefreshAfter(Duration.ofHours(1))
                        .setReadThrough(true)
                        .setCacheLoaderFactory(Store::new))
                .getConfiguration(CadwrelchConfiguration.class);
        equal("a cache's configuration says what the cache has, whatever has said so",
                List.of(1000, 3, 260, Duration.ofHours(1), Duration.ofMinutes(2)), List.of(of.getCapacity(),
                        of.getStripes(), of.getHistory(), of.getRefreshAfter(), of.getAbsentFor()));
    }

    /** That a cache isn't made, and what the text says. */
    private static void checkRefused(String rule, CacheManager manager, CadwrelchConfiguration<Object, Object> configuration,
            String... words) {
        CacheException refused = thrown(rule + " is CacheException", CacheException.class,
                () -> manager.createCache("refused", configuration));
        for (String word : words) {
            holds("whose text says " + word + ": " + refused, String.valueOf(refused).contains(word));
        }
    }

    @Test
    static void whatDoesNotGoTogetherIsRefused() {
        CadwrelchConfiguration<Object, Object> none = new CadwrelchConfiguration<>();
        checkRefused("a configuration of fewer entries than stripes", manager("stripes", "16"),
                new CadwrelchConfiguration<>().setCapacity(8), "capacity of the configuration is '8'",
                "from 16 to 65536 with 16 stripes");
        thrown("and properties, when the manager is made", CacheException.class,
                () -> manager("stripes", "16", "titles.capacity", "8"));
        thrown("reloads without a loader are IllegalArgumentException", IllegalArgumentException.class,
                () -> Caches.create(new CadwrelchConfiguration<>().setRefreshAfter(Duration.ofHours(1))));
        thrown("and so is what is absent without read-through", IllegalArgumentException.class,
                () -> Caches.create(new CadwrelchConfiguration<>().setAbsentFor(Duration.ofHours(1))));
        thrown("a setter refuses what is out of its limits", IllegalArgumentException.class, () -> none.setCapacity(0));
        thrown("or of another kind", IllegalArgumentException.class, () -> none.setRefreshAfter(Duration.ZERO));
        System.setProperty("cadwrelch.capacty", "9");
        try {
            CacheException refused = thrown("a system property that isn't there is CacheException",
                    CacheException.class, () -> manager());
            holds("whose text names it: " + refused, String.valueOf(refused).contains("cadwrelch.capacty"));
        } finally {
            System.clearProperty("cadwrelch.capacty");
        }
    }
}
