package cadwrelch.tests;

import static cadwrelch.tests.Check.equal;
import static cadwrelch.tests.Check.holds;
import static cadwrelch.tests.Check.thrown;

import java.util.Collection;
import java.util.HashMap;
import java.util.LinkedHashMap;
import java.util.LinkedHashSet;
import java.util.List;
import java.util.Map;
import java.util.Set;
import java.util.concurrent.CountDownLatch;
import java.util.concurrent.atomic.AtomicReference;
import javax.cache.Cache;
import javax.cache.CacheException;
import javax.cache.CacheManager;
import javax.cache.configuration.MutableConfiguration;
import javax.cache.integration.CacheLoader;
import javax.cache.integration.CacheLoaderException;
import javax.cache.integration.CacheWriter;
import javax.cache.integration.CacheWriterException;
import javax.cache.processor.EntryProcessorException;
import cadwrelch.jcache.Inside;
import cadwrelch.tests.Background.Work;
import cadwrelch.tests.Check.Test;

/**
 * Loaders, writers and processors that call the cache: at other keys they may, and at their own they don't wait for
 * themselves.
 */
final class Reentrancy {
    private Reentrancy() {}

    /** What a loader does with the cache and its key. */
    private interface Loading {
        Integer load(Cache<Integer, Integer> cache, Integer key);
    }

    /** A cache whose loader calls it. */
    private static Cache<Integer, Integer> loadingBy(CacheManager manager, Loading loading) {
        AtomicReference<Cache<Integer, Integer>> cache = new AtomicReference<>();
        CacheLoader<Integer, Integer> loader = new CacheLoader<>() {
            @Override
            public Integer load(Integer key) {
                return loading.load(cache.get(), key);
            }

            @Override
            public Map<Integer, Integer> loadAll(Iterable<? extends Integer> keys) {
                Map<Integer, Integer> found = new HashMap<>();
                keys.forEach(key -> found.put(key, load(key)));
                return found;
            }
        };
        cache.set(Caches.create(manager,
                new MutableConfiguration<Integer, Integer>().setReadThrough(true).setCacheLoaderFactory(() -> loader)));
        return cache.get();
    }

    private static Throwable rootOf(Throwable it) {
        return it.getCause() == null ? it : rootOf(it.getCause());
    }

    /** That a call fails by IllegalStateException, whatever it is wrapped in, and doesn't wait for itself. */
    private static void checkRefused(String rule, Class<? extends CacheException> wrapped, Check.Body call) {
        CacheException failed = thrown(rule, wrapped, () -> Background.start(call).result());
        holds(rule + ": by IllegalStateException", failed != null && rootOf(failed) instanceof IllegalStateException);
    }

    @Test
    static void aLoaderAtItsOwnKey() throws Exception {
        Cache<Integer, Integer> get = loadingBy(Caches.manager(), Cache::get);
        checkRefused("a loader that gets its own key fails", CacheLoaderException.class, () -> get.get(1));
        checkRefused("again, so nothing is left", CacheLoaderException.class, () -> get.get(1));
        checkRefused("also by getAll", CacheLoaderException.class, () -> get.getAll(Set.of(1)));
        Cache<Integer, Integer> put = loadingBy(Caches.manager(), (cache, key) -> cache.getAndPut(key, 1));
        checkRefused("and one that puts it", CacheLoaderException.class, () -> put.get(1));
        Background.start(() -> put.put(1, 5)).result();
        equal("the key is free then", 5, put.get(1));
        Cache<Integer, Integer> contains = loadingBy(Caches.manager(), (cache, key) -> cache.containsKey(key) ? 1 : 2);
        equal("containsKey waits for nobody, so it may ask for its own key", 2, contains.get(1));
    }

    @Test
    static void aLoaderAtOtherKeys() {
        Cache<Integer, Integer> cache = loadingBy(Caches.manager(), (it, key) -> key == 0 ? 0 : it.get(key - 1) + key);
        equal("a loader may get other keys, which are loaded by themselves", 55, cache.get(10));
        equal("and are cached", 45, cache.get(9));
    }

    /** A writer that calls its cache. */
    private static final class CallingWriter implements CacheWriter<Integer, Integer> {
        private final AtomicReference<Cache<Integer, Integer>> cache = new AtomicReference<>();
        private final AtomicReference<Integer> seen = new AtomicReference<>();

        @Override
        public void write(Cache.Entry<? extends Integer, ? extends Integer> entry) {
            if (entry.getKey() == 1) {
                seen.set(cache.get().get(1));
            } else {
                cache.get().put(entry.getKey(), 7);
            }
        }

        @Override
        public void writeAll(Collection<Cache.Entry<? extends Integer, ? extends Integer>> entries) {
            entries.forEach(this::write);
            entries.clear();
        }

        @Override
        public void delete(Object key) {}

        @Override
        public void deleteAll(Collection<?> keys) {
            keys.clear();
        }
    }

    @Test
    static void aWriterAtItsOwnKey() throws Exception {
        CallingWriter writer = new CallingWriter();
        Cache<Integer, Integer> cache =
                Caches.create(new MutableConfiguration<Integer, Integer>().setWriteThrough(true)
                        .setCacheWriterFactory(() -> writer));
        writer.cache.set(cache);
        Background.start(() -> cache.put(1, 10)).result();
        equal("a writer that gets its own key finds what is cached: nothing yet", null, writer.seen.get());
        Background.start(() -> cache.put(1, 11)).result();
        equal("and then the value before", 10, writer.seen.get());
        checkRefused("a writer that puts its own key fails", CacheWriterException.class, () -> cache.put(2, 20));
        checkRefused("also of putAll", CacheWriterException.class, () -> cache.putAll(Map.of(2, 20)));
        holds("and nothing is cached", !cache.containsKey(2));
    }

    @Test
    static void aProcessorAtItsOwnKey() throws Exception {
        Cache<Integer, Integer> cache = Caches.plain(Integer.class, Integer.class);
        cache.put(1, 10);
        checkRefused("a processor that puts its own key fails", EntryProcessorException.class,
                () -> cache.invoke(1, (entry, arguments) -> cache.getAndPut(1, 11)));
        checkRefused("and one that invokes another processor at it", EntryProcessorException.class,
                () -> cache.invoke(1, (entry, arguments) -> cache.invoke(1, (again, none) -> 1)));
        equal("the entry stays", 10, cache.get(1));
        equal("a processor may get its own key: what is cached", 10,
                Background.start(() -> cache.invoke(1, (entry, arguments) -> cache.get(1))).result());
        cache.invoke(1, (entry, arguments) -> {
            cache.put(2, entry.getValue() + 1);
            return null;
        });
        equal("and may put others", 11, cache.get(2));
    }

    @Test
    static void aCallOfManyKeysAtItsOwnKey() throws Exception {
        Store<Integer, Integer> store = new Store<>();
        Cache<Integer, Integer> cache = Caches.through(store, Integer.class, Integer.class);
        Map<Integer, Integer> entries = new LinkedHashMap<>();
        entries.put(1, 10);
        entries.put(2, 20);
        entries.put(3, 30);
        checkRefused("a processor that puts its own key among others fails", EntryProcessorException.class,
                () -> cache.invoke(2, (entry, arguments) -> {
                    cache.putAll(entries);
                    return null;
                }));
        equal("the writer wasn't asked", 0, store.calls() + store.batches());
        Background.start(() -> cache.putAll(entries)).result();
        equal("what it had reserved is free, and nothing is left out", 3, Inside.compare(cache));
    }

    @Test
    static void aCallOfManyKeysThatHasJoinedALoad() throws Exception {
        Store<Integer, Integer> store = new Store<>();
        store.map.putAll(Map.of(1, 10, 2, 20));
        Cache<Integer, Integer> cache = Caches.through(store, Integer.class, Integer.class);
        Store.Gate gate = store.shut();
        Work<Integer> slow = Background.start(() -> cache.get(1));
        gate.awaitCall();
        Set<Integer> keys = new LinkedHashSet<>(List.of(1, 2));
        checkRefused("a processor that gets its own key among others, one of which is loaded, fails",
                EntryProcessorException.class, () -> cache.invoke(2, (entry, arguments) -> cache.getAll(keys)));
        holds("while that load goes on", !slow.isDone());
        store.open();
        equal("which then ends", 10, slow.result());
        equal("and nothing is left out", 1, Inside.compare(cache));
    }

    @Test
    static void twoLoadersThatWantEachOthersKey() throws Exception {
        CountDownLatch both = new CountDownLatch(2);
        Cache<Integer, Integer> cache = loadingBy(Caches.manager(), (it, key) -> {
            both.countDown();
            Background.await(both);
            return it.get(3 - key);
        });
        List<Work<Integer>> gets = List.of(Background.start(() -> cache.get(1)), Background.start(() -> cache.get(2)));
        for (Work<Integer> get : gets) {
            CacheException failed =
                    thrown("two loaders that want each other's key end", CacheException.class, get::result);
            holds("by IllegalStateException", failed != null && rootOf(failed) instanceof IllegalStateException);
        }
        checkFree(cache);
    }

    @Test
    static void aRowOfLoadersThatIsTooLongForItsStripe() throws Exception {
        CacheManager manager = Caches.manager(1, 4096);
        Cache<Integer, Integer> cache = loadingBy(manager, (it, key) -> key >= 100 ? 1 : it.get(key + 1) + 1);
        checkRefused("a thread whose loaders have reserved 64 keys of a stripe can't reserve another",
                CacheLoaderException.class,
                () -> cache.get(0));
        checkFree(cache);
        equal("a shorter row is loaded", 61, Background.start(() -> cache.get(40)).result());
        manager.close();
    }

    @Test
    static void aRowOfLoadersOverManyStripes() throws Exception {
        CacheManager manager = Caches.manager(64, 4096);
        Cache<Integer, Integer> cache = loadingBy(manager, (it, key) -> key >= 1000 ? 1 : it.get(key + 1) + 1);
        equal("a row of a thousand loaders is loaded, on a stack that is large enough", 1001,
                Background.start(64 << 20, () -> cache.get(0)).result());
        manager.close();
    }

    private static void checkFree(Cache<Integer, Integer> cache) throws Exception {
        Background.start(() -> {
            for (int key = 0; key < 200; key++) {
                cache.put(key, key);
            }
        }).result();
        cache.clear();
        holds("each key is free then", !cache.iterator().hasNext());
    }
}
