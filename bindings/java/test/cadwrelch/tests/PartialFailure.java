package cadwrelch.tests;

import static cadwrelch.tests.Check.equal;
import static cadwrelch.tests.Check.same;
import static cadwrelch.tests.Check.thrown;

import java.util.Collection;
import java.util.HashMap;
import java.util.LinkedHashMap;
import java.util.List;
import java.util.Map;
import java.util.Set;
import java.util.TreeMap;
import javax.cache.Cache;
import javax.cache.CacheException;
import javax.cache.configuration.MutableConfiguration;
import javax.cache.integration.CacheWriter;
import javax.cache.integration.CacheWriterException;
import cadwrelch.tests.Background.Work;
import cadwrelch.tests.Check.Test;

/**
 * Calls of many keys that fail in part. A writer of many keys removes from the collection what it has written (JSR 107,
 * CacheWriter.writeAll): what is left in it has failed, and only that.
 */
final class PartialFailure {
    private PartialFailure() {}

    @Test
    static void removeAllRemovesWhatWasDeleted() {
        Store<Integer, String> store = new Store<>();
        Cache<Integer, String> cache = Caches.through(store, Integer.class, String.class);
        cache.putAll(Map.of(11, "a", 13, "c"));
        store.refused = Set.of(11);
        CacheWriterException failed =
                thrown("removeAll whose writer leaves keys is CacheWriterException", CacheWriterException.class,
                () -> cache.removeAll(Set.of(11, 13, 99)));
        equal("with its cause", "in part", failed.getCause().getMessage());
        equal("what was deleted is removed, and only that", Map.of(11, "a"), contents(cache));
        equal("the store has the same", Map.of(11, "a"), store.map);
        thrown("the same of removeAll()", CacheWriterException.class, cache::removeAll);
        equal("which leaves what failed", Map.of(11, "a"), contents(cache));
        store.refused = Set.of();
        cache.removeAll();
        equal("until the writer takes it", Map.of(), contents(cache));
        equal("and the store", Map.of(), store.map);
    }

    @Test
    static void aWriterMayThrowAfterItHasWrittenAll() {
        Store<Integer, String> store = new Store<>();
        IllegalStateException fault = new IllegalStateException("late");
        Cache<Integer, String> cache =
                Caches.create(Caches.over(store).setCacheWriterFactory(() -> new LateWriter(fault)));
        CacheWriterException failed =
                thrown("a writer that throws with nothing left is CacheWriterException", CacheWriterException.class,
                () -> cache.putAll(Map.of(1, "a", 2, "b")));
        same("with its cause", fault, failed.getCause());
        equal("but what it has taken out of the collection was written, and is cached", Map.of(1, "a", 2, "b"),
                contents(cache));
    }

    /** A writer that writes all, and throws then. */
    private static final class LateWriter implements CacheWriter<Integer, String> {
        private final RuntimeException fault;

        LateWriter(RuntimeException fault) {
            this.fault = fault;
        }

        @Override
        public void write(Cache.Entry<? extends Integer, ? extends String> entry) {}

        @Override
        public void writeAll(Collection<Cache.Entry<? extends Integer, ? extends String>> entries) {
            entries.clear();
            throw fault;
        }

        @Override
        public void delete(Object key) {}

        @Override
        public void deleteAll(Collection<?> keys) {
            keys.clear();
            throw fault;
        }
    }

    @Test
    static void whatIsReservedIsGivenBackIfNobodyWasAsked() throws Exception {
        Store<Integer, Object> store = new Store<>();
        Cache<Integer, Object> cache =
                Caches.create(new MutableConfiguration<Integer, Object>().setWriteThrough(true)
                        .setCacheWriterFactory(() -> store));
        Map<Integer, Object> entries = new LinkedHashMap<>();
        entries.put(1, "a");
        entries.put(2, new Object());
        entries.put(3, "c");
        thrown("putAll with a value that can't be copied is CacheException", CacheException.class,
                () -> cache.putAll(entries));
        equal("the writer wasn't asked", 0, store.calls() + store.batches());
        Background.start(() -> cache.putAll(Map.of(1, "x", 2, "y", 3, "z"))).result();
        equal("and each key is free", Map.of(1, "x", 2, "y", 3, "z"), cache.getAll(Set.of(1, 2, 3)));
    }

    @Test
    static void aCallThatIsStoppedTellsWhatFailedBefore() throws Exception {
        Store<Integer, Integer> store = new Store<>();
        Cache<Integer, Integer> cache =
                Caches.create(Caches.manager(1, 4096), Caches.over(store).setTypes(Integer.class, Integer.class));
        Map<Integer, Integer> entries = new HashMap<>();
        for (int key = 0; key < 65; key++) {
            entries.put(key, key);
        }
        Store.Gate gate = store.shut();
        Work<Void> put = Background.start(() -> cache.putAll(entries));
        gate.awaitCall();
        store.fault = new IllegalStateException("down");
        cache.close();
        store.open();
        IllegalStateException stopped = thrown("putAll whose cache is closed before its second round says so",
                IllegalStateException.class, put::result);
        equal("and what the writer has thrown in the first one", List.of(store.fault),
                List.of(stopped.getSuppressed()));
    }

    private static <V> Map<Integer, V> contents(Cache<Integer, V> cache) {
        Map<Integer, V> contents = new HashMap<>();
        cache.forEach(entry -> contents.put(entry.getKey(), entry.getValue()));
        return new TreeMap<>(contents);
    }
}
