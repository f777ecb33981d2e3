package cadwrelch.tests;

import static cadwrelch.tests.Check.equal;
import static cadwrelch.tests.Check.holds;
import static cadwrelch.tests.Check.thrown;

import java.lang.management.ManagementFactory;
import java.time.Duration;
import java.util.Iterator;
import java.util.List;
import java.util.Map;
import java.util.Set;
import java.util.concurrent.TimeUnit;
import javax.cache.Cache;
import javax.cache.CacheException;
import javax.cache.CacheManager;
import javax.cache.configuration.MutableConfiguration;
import javax.cache.expiry.CreatedExpiryPolicy;
import javax.management.MBeanServer;
import javax.management.ObjectName;
import cadwrelch.jcache.CadwrelchConfiguration;
import cadwrelch.jcache.Inside;
import cadwrelch.tests.Check.Test;

/** What a cache counts, and its two beans, as JMX shows them. */
final class Statistics {
    private Statistics() {}

    private static final MBeanServer BEANS = ManagementFactory.getPlatformMBeanServer();

    /** A cache that counts, and its beans. */
    private static final class Scene {
        final Cache<Long, String> cache;

        Scene(MutableConfiguration<Long, String> configuration) {
            cache = Caches.create(configuration.setStatisticsEnabled(true).setManagementEnabled(true));
        }

        Scene() {
            this(new MutableConfiguration<Long, String>().setTypes(Long.class, String.class));
        }

        ObjectName bean(String type) throws Exception {
            return beanOf(cache, type);
        }

        long count(String attribute) throws Exception {
            return ((Number) BEANS.getAttribute(bean("CacheStatistics"), attribute)).longValue();
        }

        /** That hits, misses, puts and removals are these. */
        void check(String rule, long hits, long misses, long puts, long removals) throws Exception {
            equal(rule, List.of(hits, misses, puts, removals),
                    List.of(count("CacheHits"), count("CacheMisses"), count("CachePuts"), count("CacheRemovals")));
        }
    }

    /** The name of a bean, as the standard has it (CacheManager.enableStatistics). */
    private static ObjectName beanOf(Cache<?, ?> cache, String type) throws Exception {
        String manager = cache.getCacheManager().getURI().toString().replace(':', '.');
        return new ObjectName("javax.cache:type=" + type + ",CacheManager=" + manager + ",Cache=" + cache.getName());
    }

    @Test
    static void countsGetsAndPuts() throws Exception {
        Scene scene = new Scene();
        Cache<Long, String> cache = scene.cache;
        scene.check("a new cache has counted nothing", 0, 0, 0, 0);
        cache.put(1L, "a");
        scene.check("put is a put", 0, 0, 1, 0);
        cache.get(1L);
        cache.get(2L);
        scene.check("get is a hit or a miss", 1, 1, 1, 0);
        cache.containsKey(1L);
        cache.containsKey(2L);
        scene.check("containsKey is neither", 1, 1, 1, 0);
        cache.getAndPut(1L, "b");
        scene.check("getAndPut is a hit and a put", 2, 1, 2, 0);
        cache.getAndPut(3L, "c");
        scene.check("or a miss and a put", 2, 2, 3, 0);
        cache.putIfAbsent(1L, "x");
        scene.check("putIfAbsent of a key that is there is a hit", 3, 2, 3, 0);
        cache.putIfAbsent(4L, "d");
        scene.check("of a new one a miss and a put", 3, 3, 4, 0);
    }

    @Test
    static void countsReplaces() throws Exception {
        Scene scene = new Scene();
        Cache<Long, String> cache = scene.cache;
        cache.put(1L, "b");
        cache.replace(1L, "zz", "n");
        scene.check("replace(key, old, new) with another old value is a hit", 1, 0, 1, 0);
        cache.replace(1L, "b", "n");
        scene.check("one that replaces is a hit and a put", 2, 0, 2, 0);
        cache.replace(9L, "b", "n");
        scene.check("one of a missing key is a miss", 2, 1, 2, 0);
        cache.replace(1L, "o");
        scene.check("replace(key, value) is a hit and a put", 3, 1, 3, 0);
        cache.replace(9L, "o");
        scene.check("or a miss", 3, 2, 3, 0);
        cache.getAndReplace(1L, "p");
        scene.check("getAndReplace is a hit and a put", 4, 2, 4, 0);
        cache.getAndReplace(9L, "p");
        scene.check("or a miss", 4, 3, 4, 0);
    }

    @Test
    static void countsRemoves() throws Exception {
        Scene scene = new Scene();
        Cache<Long, String> cache = scene.cache;
        cache.putAll(Map.of(1L, "a", 2L, "b", 3L, "c"));
        cache.remove(1L);
        scene.check("remove is a removal", 0, 0, 3, 1);
        cache.remove(1L);
        scene.check("of a missing key it is nothing", 0, 0, 3, 1);
        cache.getAndRemove(2L);
        scene.check("getAndRemove is a hit and a removal", 1, 0, 3, 2);
        cache.getAndRemove(2L);
        scene.check("or a miss", 1, 1, 3, 2);
        cache.remove(3L, "no");
        scene.check("remove(key, old) with another old value is a hit", 2, 1, 3, 2);
        cache.remove(3L, "c");
        scene.check("one that removes is a hit and a removal", 3, 1, 3, 3);
        cache.remove(3L, "c");
        scene.check("one of a missing key is a miss", 3, 2, 3, 3);
    }

    @Test
    static void countsProcessors() throws Exception {
        Scene scene = new Scene();
        Cache<Long, String> cache = scene.cache;
        cache.invoke(1L, (entry, arguments) -> null);
        scene.check("invoke of a missing key is a miss", 0, 1, 0, 0);
        cache.put(1L, "a");
        cache.invoke(1L, (entry, arguments) -> null);
        scene.check("and of one that is there a hit", 1, 1, 1, 0);
        cache.invoke(1L, (entry, arguments) -> {
            entry.setValue("u");
            return null;
        });
        scene.check("with setValue also a put", 2, 1, 2, 0);
        cache.invoke(1L, (entry, arguments) -> {
            entry.remove();
            return null;
        });
        scene.check("with remove also a removal", 3, 1, 2, 1);
        cache.invokeAll(Set.of(1L, 2L), (entry, arguments) -> {
            entry.setValue("v");
            return null;
        });
        scene.check("invokeAll counts each key", 3, 3, 4, 1);
    }

    @Test
    static void countsCallsOfManyKeys() throws Exception {
        Scene scene = new Scene();
        Cache<Long, String> cache = scene.cache;
        cache.putAll(Map.of(1L, "a", 2L, "b", 3L, "c"));
        scene.check("putAll is a put for each key", 0, 0, 3, 0);
        cache.getAll(Set.of(1L, 2L, 7L));
        scene.check("getAll a hit or a miss for each", 2, 1, 3, 0);
        for (Iterator<Cache.Entry<Long, String>> each = cache.iterator(); each.hasNext();) {
            each.next();
            each.remove();
        }
        scene.check("an iterator is a hit for each entry, and its remove() a removal", 5, 1, 3, 3);
        cache.put(1L, "a");
        cache.clear();
        scene.check("clear is nothing", 5, 1, 4, 3);
        cache.putAll(Map.of(1L, "a", 2L, "b"));
        cache.removeAll(Set.of(1L, 9L));
        scene.check("removeAll(keys) is a removal for each entry that is there", 5, 1, 6, 4);
        cache.removeAll();
        scene.check("and so is removeAll()", 5, 1, 6, 5);
    }

    @Test
    static void countsLoadsAndFailures() throws Exception {
        Store<Long, String> store = new Store<>();
        store.map.put(1L, "one");
        Scene scene = new Scene(Caches.over(store));
        scene.cache.get(1L);
        scene.check("a get that loads is a miss, and no put", 0, 1, 0, 0);
        store.fault = new IllegalStateException("down");
        try {
            scene.cache.put(1L, "x");
        } catch (CacheException e) {
            scene.check("a put that fails is none", 0, 1, 0, 0);
        }
        thrown("a getAndPut that fails", CacheException.class, () -> scene.cache.getAndPut(1L, "x"));
        thrown("and a replace", CacheException.class, () -> scene.cache.replace(1L, "x"));
        scene.check("a call whose writer fails is no get either", 0, 1, 0, 0);
        try {
            scene.cache.remove(1L);
        } catch (CacheException e) {
            scene.check("nor is a remove that fails a removal", 0, 1, 0, 0);
        }
    }

    @Test
    static void countsWhatTheStandardDoesNot() throws Exception {
        Store<Long, String> store = new Store<>();
        store.map.put(1L, "one");
        long[] now = new long[1];
        CadwrelchConfiguration<Long, String> configuration =
                new CadwrelchConfiguration<Long, String>().setClock(() -> now[0]).setAbsentFor(Duration.ofSeconds(30));
        configuration.setReadThrough(true)
                .setCacheLoaderFactory(() -> store)
                .setExpiryPolicyFactory(CreatedExpiryPolicy.factoryOf(javax.cache.expiry.Duration.ONE_MINUTE));
        Scene scene = new Scene(configuration);
        scene.cache.get(1L);
        scene.cache.getAll(Set.of(1L, 2L));
        scene.cache.get(2L);
        scene.check("what is known to be absent is a miss", 1, 3, 0, 0);
        equal("the size is without it", 1L, scene.count("CacheSize"));
        now[0] += TimeUnit.MINUTES.toNanos(1);
        scene.cache.containsKey(2L);
        store.fault = new IllegalStateException("down");
        thrown("a load that fails", CacheException.class, () -> scene.cache.get(1L));
        equal("an entry that a call has found expired is counted", 1L, scene.count("CacheExpirations"));
        equal("and each call of the loader", 3L, scene.count("LoaderCalls"));
        equal("also those that fail", 1L, scene.count("LoaderFailures"));
        holds("with the time that they took", (Float) BEANS.getAttribute(scene.bean("CacheStatistics"),
                "AverageLoadTime") > 0);
        equal("so the cache is empty", 0L, scene.count("CacheSize"));
    }

    @Test
    static void countsEvictions() throws Exception {
        CacheManager manager = Caches.manager(1, 10);
        Cache<Long, String> cache =
                Caches.create(manager, new MutableConfiguration<Long, String>().setStatisticsEnabled(true));
        for (long key = 0; key < 100; key++) {
            cache.put(key, "a");
        }
        equal("each entry that a full stripe has evicted is counted", 90L,
                BEANS.getAttribute(beanOf(cache, "CacheStatistics"), "CacheEvictions"));
        manager.close();
    }

    @Test
    static void countsAsTheCoreDoes() throws Exception {
        Scene scene = new Scene();
        Cache<Long, String> cache = scene.cache;
        cache.put(1L, "a");
        cache.get(1L);
        cache.get(2L);
        cache.containsKey(1L);
        cache.getAndPut(1L, "b");
        cache.getAndPut(3L, "c");
        cache.putIfAbsent(1L, "x");
        cache.putIfAbsent(4L, "d");
        cache.replace(1L, "no", "n");
        cache.replace(1L, "b", "n");
        cache.replace(9L, "b", "n");
        cache.replace(1L, "o");
        cache.replace(9L, "o");
        cache.getAndReplace(1L, "p");
        cache.getAndReplace(9L, "p");
        cache.remove(4L);
        cache.remove(4L);
        cache.getAndRemove(3L);
        cache.remove(1L, "no");
        cache.remove(1L, "p");
        cache.invoke(1L, (entry, arguments) -> null);
        cache.invoke(1L, (entry, arguments) -> {
            entry.setValue("u");
            return null;
        });
        cache.invoke(1L, (entry, arguments) -> {
            entry.remove();
            return null;
        });
        List<Long> core = Inside.coreCounts(cache);
        scene.check("the host counts hits, misses, puts and removals as the core does", core.get(0), core.get(1),
                core.get(2), core.get(3));
    }

    @Test
    static void showsSharesAndTimes() throws Exception {
        Scene scene = new Scene();
        scene.cache.put(1L, "a");
        for (int i = 0; i < 3; i++) {
            scene.cache.get(1L);
        }
        scene.cache.get(2L);
        scene.cache.remove(1L);
        ObjectName bean = scene.bean("CacheStatistics");
        equal("gets are hits and misses", 4L, scene.count("CacheGets"));
        equal("the share of hits is in percent", 75f, BEANS.getAttribute(bean, "CacheHitPercentage"));
        equal("and that of misses", 25f, BEANS.getAttribute(bean, "CacheMissPercentage"));
        for (String time : List.of("AverageGetTime", "AveragePutTime", "AverageRemoveTime")) {
            float micros = (Float) BEANS.getAttribute(bean, time);
            holds(time + " is in microseconds, and not negative", micros >= 0 && micros < 10_000_000);
        }
        BEANS.invoke(bean, "clear", new Object[0], new String[0]);
        scene.check("clear of the bean begins anew", 0, 0, 0, 0);
        equal("a share of nothing is 0", 0f, BEANS.getAttribute(bean, "CacheHitPercentage"));
        equal("and so is a time", 0f, BEANS.getAttribute(bean, "AverageGetTime"));
    }

    @Test
    static void showsTheConfiguration() throws Exception {
        Scene scene = new Scene(Caches.over(new Store<Long, String>()).setTypes(Long.class, String.class));
        ObjectName bean = scene.bean("CacheConfiguration");
        equal("KeyType is the configured class", "java.lang.Long", BEANS.getAttribute(bean, "KeyType"));
        equal("and ValueType", "java.lang.String", BEANS.getAttribute(bean, "ValueType"));
        List<String> options =
                List.of("ReadThrough", "WriteThrough", "StoreByValue", "StatisticsEnabled", "ManagementEnabled");
        for (String option : options) {
            equal(option + " is as configured", true, BEANS.getAttribute(bean, option));
        }
    }

    @Test
    static void beansComeAndGo() throws Exception {
        CacheManager manager = Caches.manager();
        Cache<Long, String> cache = Caches.create(new MutableConfiguration<>());
        String name = cache.getName();
        checkBeans("without the options there is no bean", cache, false, false);
        manager.enableStatistics(name, true);
        checkBeans("enableStatistics shows one", cache, true, false);
        manager.enableStatistics(name, true);
        manager.enableManagement(name, true);
        checkBeans("and enableManagement another", cache, true, true);
        cache.put(1L, "a");
        equal("which counts from then on", 1L, BEANS.getAttribute(beanOf(cache, "CacheStatistics"), "CachePuts"));
        manager.enableStatistics(name, false);
        checkBeans("enableStatistics hides it again", cache, false, true);
        cache.close();
        checkBeans("and close the other", cache, false, false);
    }

    @Test
    static void aBeanIsOfOneCache() throws Exception {
        MutableConfiguration<Long, String> counting = new MutableConfiguration<Long, String>()
                .setStatisticsEnabled(true);
        Cache<Long, String> first = Caches.manager().createCache("one:bean", counting);
        Cache<Long, String> second = Caches.manager().createCache("one.bean", counting);
        second.close();
        checkBeans("a cache takes no bean of another one out, whose bean has the same name", second, true, false);
        first.close();
        checkBeans("but its own", second, false, false);
        Inside.showStatistics(first);
        checkBeans("and a cache that is closed has none", second, false, false);
    }

    private static void checkBeans(String rule, Cache<?, ?> cache, boolean statistics, boolean configuration)
            throws Exception {
        equal(rule, List.of(statistics, configuration), List.of(BEANS.isRegistered(beanOf(cache, "CacheStatistics")),
                BEANS.isRegistered(beanOf(cache, "CacheConfiguration"))));
    }

    @Test
    static void countsNothingIfItIsNotToldTo() throws Exception {
        Cache<Long, String> cache = Caches.create(new MutableConfiguration<>());
        cache.put(1L, "a");
        Caches.manager().enableStatistics(cache.getName(), true);
        equal("statistics count from when they are enabled", 0L,
                BEANS.getAttribute(beanOf(cache, "CacheStatistics"), "CachePuts"));
    }
}
