package cadwrelch.tests;

import static cadwrelch.tests.Check.equal;
import static cadwrelch.tests.Check.holds;

import java.util.ArrayList;
import java.util.Collections;
import java.util.HashMap;
import java.util.LinkedHashMap;
import java.util.LinkedHashSet;
import java.util.List;
import java.util.Map;
import java.util.Set;
import java.util.function.BiConsumer;
import javax.cache.Cache;
import javax.cache.CacheManager;
import cadwrelch.tests.Background.Work;
import cadwrelch.tests.Check.Test;

/** Calls of many keys in rounds: a stripe reserves 64 keys at a time. And calls of many threads at one key. */
final class ManyKeys {
    private ManyKeys() {}

    private static Map<Integer, Integer> squares(int count) {
        Map<Integer, Integer> squares = new HashMap<>();
        for (int i = 0; i < count; i++) {
            squares.put(i, i * i);
        }
        return squares;
    }

    @Test
    static void aThousandKeysOverTwoStripes() {
        CacheManager manager = Caches.manager(2, 4096);
        Store<Integer, Integer> store = new Store<>();
        Cache<Integer, Integer> cache =
                Caches.create(manager, Caches.over(store).setTypes(Integer.class, Integer.class));
        Map<Integer, Integer> squares = squares(1000);
        cache.putAll(squares);
        equal("putAll of 1,000 keys writes each", squares, store.map);
        equal("and not key by key", 0, store.writes.get());
        holds("in at most 16 batches, of 64 keys a stripe", store.writeAlls.get() <= 16);
        cache.clear();
        equal("getAll of 1,000 keys loads each", squares, cache.getAll(squares.keySet()));
        holds("in batches", store.loads.get() == 0 && store.loadAlls.get() <= 16);
        cache.removeAll();
        equal("removeAll() of 1,000 keys deletes each", Map.of(), store.map);
        holds("in batches", store.deletes.get() == 0 && store.deleteAlls.get() <= 16);
        holds("and the cache is empty", !cache.iterator().hasNext());
        manager.close();
    }

    @Test
    static void manyThreadsAtOneMissingKey() throws Exception {
        CacheManager manager = Caches.manager(1, 4096);
        Store<Integer, Integer> store = new Store<>();
        store.map.put(5, 55);
        Cache<Integer, Integer> cache =
                Caches.create(manager, Caches.over(store).setTypes(Integer.class, Integer.class));
        for (int key = 100; key < 300; key++) {
            cache.put(key, key);
        }
        Store.Gate gate = store.shut();
        List<Work<Integer>> gets = Background.startMany(400, () -> cache.get(5));
        gate.awaitCall();
        for (Work<Integer> get : gets) {
            get.awaitSleep();
        }
        int hits = 0;
        for (int key = 100; key < 300; key++) {
            hits += cache.get(key) == key ? 1 : 0;
        }
        equal("while 400 threads wait for one load, other keys of its stripe are hit", 200, hits);
        store.open();
        equal("each of them has what was found", Collections.nCopies(400, 55), Background.results(gets));
        equal("there was one load", 1, store.loads.get());
        manager.close();
    }

    @Test
    static void overlappingCallsInOppositeOrder() throws Exception {
        Store<Integer, Integer> store = new Store<>();
        CacheManager manager = Caches.manager(2, 4096);
        Cache<Integer, Integer> cache =
                Caches.create(manager, Caches.over(store).setTypes(Integer.class, Integer.class));
        List<Work<Void>> all = new ArrayList<>();
        for (int thread = 0; thread < 8; thread++) {
            Map<Integer, Integer> entries = new LinkedHashMap<>();
            for (int i = 0; i < 20; i++) {
                entries.put(thread % 2 == 0 ? i : 19 - i, thread);
            }
            all.add(Background.start(() -> {
                for (int i = 0; i < 100; i++) {
                    cache.putAll(entries);
                }
            }));
        }
        Background.results(all);
        equal("putAlls that overlap end, and the cache has what the store has", store.map, cache.getAll(entries(20)));
        manager.close();
    }

    private static Set<Integer> entries(int count) {
        return squares(count).keySet();
    }

    /** Calls of many keys that write, by their names. Each does the same at each of its keys. */
    private static final Map<String, BiConsumer<Cache<Integer, Integer>, List<Integer>>> WRITES = Map.of(
            "putAll", (cache, keys) -> {
                Map<Integer, Integer> entries = new LinkedHashMap<>();
                keys.forEach(key -> entries.put(key, -key));
                cache.putAll(entries);
            },
            "removeAll", (cache, keys) -> cache.removeAll(new LinkedHashSet<>(keys)),
            "invokeAll", (cache, keys) -> cache.invokeAll(new LinkedHashSet<>(keys), (entry, arguments) -> {
                entry.setValue(-entry.getKey());
                return null;
            }));

    private static final List<List<Integer>> ORDERS =
            List.of(List.of(42, 1, 2), List.of(42, 43, 44), List.of(43, 42, 44), List.of(42, 43, 58));

    @Test
    static void noRoundWaitsForAKey() throws Exception {
        for (boolean isCached : new boolean[] {false, true}) {
            for (Map.Entry<String, BiConsumer<Cache<Integer, Integer>, List<Integer>>> write : WRITES.entrySet()) {
                for (List<Integer> keys : ORDERS) {
                    writeBesideASlowPut(write.getKey(), write.getValue(), keys, isCached);
                }
            }
        }
    }

    private static void writeBesideASlowPut(String name, BiConsumer<Cache<Integer, Integer>, List<Integer>> write,
            List<Integer> keys, boolean isCached) throws Exception {
        Store<Integer, Integer> store = new Store<>();
        Cache<Integer, Integer> cache = Caches.through(store, Integer.class, Integer.class);
        keys.forEach(key -> store.map.put(key, 0));
        if (isCached) {
            cache.getAll(new LinkedHashSet<>(keys));
        }
        Store.Gate gate = store.shut();
        Work<Void> slow = Background.start(() -> cache.put(42, 1));
        gate.awaitCall();
        store.passBy();
        Work<Void> all = Background.start(() -> write.accept(cache, keys));
        all.awaitSleep();
        List<Integer> others = new ArrayList<>(keys);
        others.remove(Integer.valueOf(42));
        String rule = name + " of " + keys + (isCached ? ", which are cached," : "") + " beside a slow put of 42";
        equal(rule + " tells the writer of all others, in one call, in their order", others, store.lastBatch);
        gate.open();
        slow.result();
        all.result();
        equal(rule + " writes that key when it is free", List.of(42), store.lastBatch);
        equal(rule + " leaves the same in cache and store", store.map, cache.getAll(new LinkedHashSet<>(keys)));
        cache.close();
    }

    @Test
    static void clearTakesOutWhatItCanBeforeItWaits() throws Exception {
        Store<Integer, Integer> store = new Store<>();
        Cache<Integer, Integer> cache = Caches.through(store, Integer.class, Integer.class);
        cache.putAll(squares(20));
        Store.Gate gate = store.shut();
        Work<Void> slow = Background.start(() -> cache.put(3, 1));
        gate.awaitCall();
        store.passBy();
        Work<Void> clear = Background.start(cache::clear);
        clear.awaitSleep();
        List<Integer> left = new ArrayList<>();
        cache.forEach(entry -> left.add(entry.getKey()));
        equal("clear waits for the key that is written when all others are out", List.of(3), left);
        gate.open();
        slow.result();
        clear.result();
        holds("and takes that out, too", !cache.iterator().hasNext());
        cache.close();
    }

    @Test
    static void theCallersOrderIsKept() {
        Store<Integer, Integer> store = new Store<>();
        Cache<Integer, Integer> cache = Caches.through(store, Integer.class, Integer.class);
        List<Integer> order = List.of(7, 100, 3, 55, 16, 1, 2);
        WRITES.forEach((name, write) -> {
            write.accept(cache, order);
            equal(name + " tells the writer of the keys in the caller's order", order, store.lastBatch);
        });
        cache.clear();
        order.forEach(key -> store.map.put(key, key));
        Map<Integer, Integer> found = cache.getAll(new LinkedHashSet<>(order));
        equal("getAll tells the loader so, too", order, store.lastBatch);
        equal("and answers in that order", order, new ArrayList<>(found.keySet()));
        equal("as invokeAll does", order, new ArrayList<>(cache.invokeAll(new LinkedHashSet<>(order),
                (entry, arguments) -> entry.getKey()).keySet()));
        cache.close();
    }
}
