package cadwrelch.tests;

import static cadwrelch.tests.Check.equal;
import static cadwrelch.tests.Check.holds;

import java.time.Duration;
import java.util.ArrayList;
import java.util.Collection;
import java.util.HashMap;
import java.util.Iterator;
import java.util.List;
import java.util.Map;
import java.util.Random;
import java.util.Set;
import java.util.concurrent.ConcurrentHashMap;
import java.util.concurrent.ExecutionException;
import java.util.concurrent.ExecutorService;
import java.util.concurrent.Executors;
import java.util.concurrent.ThreadLocalRandom;
import java.util.concurrent.TimeUnit;
import java.util.concurrent.atomic.AtomicBoolean;
import java.util.concurrent.atomic.AtomicInteger;
import java.util.concurrent.atomic.AtomicLong;
import javax.cache.Cache;
import javax.cache.CacheException;
import javax.cache.CacheManager;
import javax.cache.expiry.CreatedExpiryPolicy;
import javax.cache.integration.CacheLoader;
import javax.cache.integration.CacheWriter;
import javax.cache.integration.CompletionListenerFuture;
import cadwrelch.jcache.CadwrelchConfiguration;
import cadwrelch.jcache.Inside;
import cadwrelch.tests.Background.Work;
import cadwrelch.tests.Check.Test;

/**
 * Random calls of many threads, of few keys, over a store that fails now and then. After them host and core agree at
 * each key, what is cached is what the store has, and nothing is left out. The property {@code stress.calls} says how
 * many calls each thread makes.
 */
final class Stress {
    private Stress() {}

    private static final int CALLS = Integer.getInteger("stress.calls", 5000);
    private static final int KEYS = 16;

    /**
     * A store that fails each 97th time that it is read, and each 89th time that it is written, and sees two calls at
     * one key.
     */
    private static final class FailingStore implements CacheLoader<Integer, Long>, CacheWriter<Integer, Long> {
        final Map<Integer, Long> map = new ConcurrentHashMap<>();
        /** How often a call came to a key while another one was there. */
        final AtomicInteger collisions = new AtomicInteger();
        private final Set<Object> within = ConcurrentHashMap.newKeySet();
        private final AtomicLong turns = new AtomicLong();

        private void failEach(int times) {
            if (turns.incrementAndGet() % times == 0) {
                throw new IllegalStateException("turn " + turns);
            }
        }

        private void enter(Object key) {
            if (!within.add(key)) {
                collisions.incrementAndGet();
            }
            if (ThreadLocalRandom.current().nextInt(50) == 0) {
                Thread.yield();
            }
        }

        private void leave(Object key) {
            within.remove(key);
        }

        private Long read(Integer key) {
            enter(key);
            try {
                return map.get(key);
            } finally {
                leave(key);
            }
        }

        @Override
        public Long load(Integer key) {
            failEach(97);
            return read(key);
        }

        @Override
        public Map<Integer, Long> loadAll(Iterable<? extends Integer> keys) {
            Map<Integer, Long> found = new HashMap<>();
            keys.forEach(key -> found.put(key, read(key)));
            failEach(97);
            return found;
        }

        @Override
        public void write(Cache.Entry<? extends Integer, ? extends Long> entry) {
            enter(entry.getKey());
            try {
                failEach(89);
                map.put(entry.getKey(), entry.getValue());
            } finally {
                leave(entry.getKey());
            }
        }

        @Override
        public void delete(Object key) {
            enter(key);
            try {
                failEach(89);
                map.remove(key);
            } finally {
                leave(key);
            }
        }

        @Override
        public void writeAll(Collection<Cache.Entry<? extends Integer, ? extends Long>> entries) {
            for (Iterator<Cache.Entry<? extends Integer, ? extends Long>> each = entries.iterator(); each.hasNext();) {
                write(each.next());
                each.remove();
            }
        }

        @Override
        public void deleteAll(Collection<?> keys) {
            for (Iterator<?> each = keys.iterator(); each.hasNext();) {
                delete(each.next());
                each.remove();
            }
        }
    }

    /** A call, at a key and with a value. */
    private interface Move {
        void play(Cache<Integer, Long> cache, int key, long value) throws Exception;
    }

    private static int next(int key) {
        return (key + 1) % KEYS;
    }

    private static void loadAll(Cache<Integer, Long> cache, int key, boolean replace) throws Exception {
        CompletionListenerFuture loaded = new CompletionListenerFuture();
        cache.loadAll(Set.of(key, next(key)), replace, loaded);
        try {
            loaded.get(30, TimeUnit.SECONDS);
        } catch (ExecutionException e) {
            throw new CacheException(e);
        }
    }

    private static Long process(Cache<Integer, Long> cache, int key, long value) {
        return cache.invoke(key, (entry, arguments) -> {
            if (value == 0) {
                throw new IllegalStateException("processor");
            } else if (value == 1) {
                entry.remove();
            } else if (value > 2) {
                entry.setValue(value);
            }
            return entry.getValue();
        });
    }

    private static final List<Move> READS = List.of(
            (cache, key, value) -> cache.get(key),
            (cache, key, value) -> cache.containsKey(key),
            (cache, key, value) -> cache.getAll(Set.of(key, next(key), next(next(key)))));

    private static final List<Move> WRITES = List.of(
            (cache, key, value) -> cache.put(key, value),
            (cache, key, value) -> cache.getAndPut(key, value),
            (cache, key, value) -> cache.putIfAbsent(key, value),
            (cache, key, value) -> cache.remove(key),
            (cache, key, value) -> cache.remove(key, value),
            (cache, key, value) -> cache.getAndRemove(key),
            (cache, key, value) -> cache.replace(key, value),
            (cache, key, value) -> cache.replace(key, value, value + 1),
            (cache, key, value) -> cache.getAndReplace(key, value),
            (cache, key, value) -> cache.putAll(Map.of(key, value, next(key), value + 1)),
            (cache, key, value) -> cache.removeAll(Set.of(key, next(key))),
            Stress::process,
            (cache, key, value) -> cache.invokeAll(Set.of(key, next(key)), (entry, arguments) -> {
                entry.setValue(value);
                return null;
            }),
            (cache, key, value) -> loadAll(cache, key, value % 2 == 0));

    /** The rare ones: they are chosen less often. */
    private static final List<Move> SWEEPS =
            List.of((cache, key, value) -> cache.clear(), (cache, key, value) -> cache.removeAll());

    private static List<Move> allMoves() {
        List<Move> all = new ArrayList<>();
        for (int i = 0; i < 10; i++) {
            all.addAll(READS);
            all.addAll(WRITES);
        }
        all.addAll(SWEEPS);
        return all;
    }

    /** A cache of two stripes over a failing store, and how often a call of it has failed. */
    private static final class Scene {
        final FailingStore store = new FailingStore();
        final CacheManager manager;
        final Cache<Integer, Long> cache;
        final AtomicInteger faults = new AtomicInteger();

        Scene(int capacity) {
            this(capacity, new CadwrelchConfiguration<>());
        }

        Scene(int capacity, CadwrelchConfiguration<Integer, Long> configuration) {
            manager = Caches.manager(2, capacity);
            cache = Caches.create(manager, configuration.setTypes(Integer.class, Long.class)
                    .setReadThrough(true)
                    .setWriteThrough(true)
                    .setCacheLoaderFactory(() -> store)
                    .setCacheWriterFactory(() -> store)
                    .setStatisticsEnabled(true));
        }

        /** Plays random moves on threads. */
        void play(int threads, List<Move> moves) throws Exception {
            List<Work<Void>> all = new ArrayList<>();
            for (int thread = 0; thread < threads; thread++) {
                Random random = new Random(31L * thread + 7);
                all.add(Background.start(() -> {
                    for (int i = 0; i < CALLS; i++) {
                        play(moves.get(random.nextInt(moves.size())), random.nextInt(KEYS), random.nextInt(5));
                    }
                }));
            }
            Background.results(all);
        }

        private void play(Move move, int key, long value) throws Exception {
            try {
                move.play(cache, key, value);
            } catch (CacheException e) {
                faults.incrementAndGet();
            }
        }

        /** A get, which is made again if the store fails. */
        Long getAtLast(int key) {
            try {
                return cache.get(key);
            } catch (CacheException e) {
                return cache.get(key);
            }
        }

        /** What holds after any calls. */
        void check() {
            holds("the store has failed now and then", faults.get() > 0);
            equal("loader and writer were never called twice at once at a key", 0, store.collisions.get());
            Map<Integer, Long> contents = new HashMap<>();
            cache.forEach(entry -> contents.put(entry.getKey(), entry.getValue()));
            equal("host and core agree", contents.size(), Inside.compare(cache));
            Map<Integer, Long> stored = new HashMap<>(store.map);
            stored.keySet().retainAll(contents.keySet());
            equal("what is cached is what the store has", stored, contents);
            manager.close();
        }
    }

    @Test
    static void eightThreadsWithRoomForAll() throws Exception {
        Scene scene = new Scene(64);
        scene.play(8, allMoves());
        scene.check();
    }

    @Test
    static void eightThreadsThatEvict() throws Exception {
        Scene scene = new Scene(4);
        scene.play(8, allMoves());
        scene.check();
    }

    @Test
    static void sixteenThreadsThatEvict() throws Exception {
        Scene scene = new Scene(3);
        scene.play(16, allMoves());
        scene.check();
    }

    @Test
    static void eightThreadsBesideReloadsExpiryAndAbsentKeys() throws Exception {
        // Time goes on by a tenth of a millisecond each time that somebody looks, until all calls have ended.
        AtomicLong now = new AtomicLong();
        AtomicBoolean isFrozen = new AtomicBoolean();
        ExecutorService threads = Executors.newFixedThreadPool(3);
        CadwrelchConfiguration<Integer, Long> configuration = new CadwrelchConfiguration<Integer, Long>()
                .setClock(() -> isFrozen.get() ? now.get() : now.addAndGet(100_000))
                .setRefreshAfter(Duration.ofMillis(2))
                .setAbsentFor(Duration.ofMillis(6))
                .setExecutor(threads);
        configuration.setExpiryPolicyFactory(CreatedExpiryPolicy.factoryOf(
                new javax.cache.expiry.Duration(TimeUnit.MILLISECONDS, 30)));
        Scene scene = new Scene(6, configuration);
        scene.play(8, allMoves());
        threads.shutdown();
        holds("reloads end", threads.awaitTermination(30, TimeUnit.SECONDS));
        isFrozen.set(true);
        for (int key = 0; key < KEYS; key++) {
            equal("each get answers what the store has", scene.store.map.get(key), scene.getAtLast(key));
        }
        equal("loader and writer were never called twice at once at a key", 0, scene.store.collisions.get());
        holds("host and core agree", Inside.compare(scene.cache) <= KEYS);
        scene.manager.close();
    }

    @Test
    static void incrementsThatCameBackAreAllThere() throws Exception {
        Scene scene = new Scene(4);
        AtomicLong[] added = new AtomicLong[KEYS];
        for (int key = 0; key < KEYS; key++) {
            added[key] = new AtomicLong();
        }
        List<Move> moves = new ArrayList<>(READS);
        moves.add((cache, key, value) -> {
            cache.invoke(key, (entry, arguments) -> {
                Long old = entry.getValue();
                entry.setValue(old == null ? 1 : old + 1);
                return null;
            });
            added[key].incrementAndGet();
        });
        scene.play(16, moves);
        Map<Integer, Long> expected = new HashMap<>();
        for (int key = 0; key < KEYS; key++) {
            expected.put(key, added[key].get());
        }
        equal("each increment that came back is in the store, and no other", expected, scene.store.map);
        scene.check();
    }
}
