package cadwrelch.tests;

import static cadwrelch.tests.Check.equal;
import static cadwrelch.tests.Check.holds;
import static cadwrelch.tests.Check.same;
import static cadwrelch.tests.Check.thrown;

import java.util.Iterator;
import java.util.Map;
import java.util.Set;
import javax.cache.Cache;
import javax.cache.integration.CacheWriterException;
import cadwrelch.tests.Background.Work;
import cadwrelch.tests.Check.Test;

/** Which calls ask the writer, before anything is cached; and what a writer that fails leaves. */
final class WriteThrough {
    private WriteThrough() {}

    /** What a test has: an empty store, and a cache over it. */
    private static final class Scene {
        final Store<Integer, String> store = new Store<>();
        final Cache<Integer, String> cache = Caches.create(Caches.over(store).setTypes(Integer.class, String.class));

        /** That the store has this value at key 1, or none, and was asked so often, and that the cache has the same. */
        void check(String rule, String value, int writes, int deletes) {
            equal(rule, value, store.map.get(1));
            equal(rule + ": the cache has the same", value != null, cache.containsKey(1));
            equal(rule + ": writes, deletes", writes + ", " + deletes, store.writes + ", " + store.deletes);
        }
    }

    /** The table of cases that all languages share has a delete here. */
    @Test
    static void aNewEntryThatAProcessorRemovesAgain() {
        Scene scene = new Scene();
        scene.cache.invoke(1, (entry, arguments) -> {
            entry.setValue("x");
            entry.remove();
            return null;
        });
        scene.check("of an entry that wasn't there nobody is asked", null, 0, 0);
    }

    @Test
    static void anIteratorDeletes() {
        Scene scene = new Scene();
        scene.cache.put(1, "b");
        Iterator<Cache.Entry<Integer, String>> entries = scene.cache.iterator();
        entries.next();
        entries.remove();
        scene.check("remove() of an iterator deletes", null, 1, 1);
    }

    @Test
    static void aWriterThatFailsLeavesAllAsItWas() {
        Scene scene = new Scene();
        scene.cache.put(1, "a");
        RuntimeException fault = new UnsupportedOperationException("down");
        scene.store.fault = fault;
        checkFailure(scene, "put", () -> scene.cache.put(1, "b"));
        checkFailure(scene, "getAndPut", () -> scene.cache.getAndPut(1, "b"));
        checkFailure(scene, "replace(key, value)", () -> scene.cache.replace(1, "b"));
        checkFailure(scene, "replace(key, old, new)", () -> scene.cache.replace(1, "a", "b"));
        checkFailure(scene, "getAndReplace", () -> scene.cache.getAndReplace(1, "b"));
        checkFailure(scene, "remove", () -> scene.cache.remove(1));
        checkFailure(scene, "remove(key, old)", () -> scene.cache.remove(1, "a"));
        checkFailure(scene, "getAndRemove", () -> scene.cache.getAndRemove(1));
        checkFailure(scene, "putIfAbsent", () -> scene.cache.putIfAbsent(2, "b"));
        checkFailure(scene, "putAll", () -> scene.cache.putAll(Map.of(1, "b", 2, "c")));
        checkFailure(scene, "removeAll(keys)", () -> scene.cache.removeAll(Set.of(1, 2)));
        checkFailure(scene, "removeAll()", scene.cache::removeAll);
        checkFailure(scene, "invoke with setValue", () -> scene.cache.invoke(1, (entry, arguments) -> {
            entry.setValue("b");
            return null;
        }));
        CacheWriterException own = new CacheWriterException("its own");
        scene.store.fault = own;
        same("a CacheWriterException is thrown as it is", own,
                thrown("by a put", CacheWriterException.class, () -> scene.cache.put(1, "b")));
        scene.store.fault = null;
        scene.cache.put(1, "z");
        equal("the key is free then", "z", scene.cache.get(1));
    }

    private static void checkFailure(Scene scene, String what, Check.Body call) {
        CacheWriterException failed =
                thrown(what + " of a writer that throws is CacheWriterException", CacheWriterException.class, call);
        same("with what it has thrown as its cause", scene.store.fault, failed.getCause());
        equal("the cache is as before", Map.of(1, "a"), scene.cache.getAll(Set.of(1)));
        equal("and the store", Map.of(1, "a"), scene.store.map);
    }

    @Test
    static void aSlowWriterHoldsNobodyElse() throws Exception {
        Scene scene = new Scene();
        for (int key = 100; key < 200; key++) {
            scene.cache.put(key, "v");
        }
        Store.Gate gate = scene.store.shut();
        Work<Void> slow = Background.start(() -> scene.cache.put(1, "slow"));
        gate.awaitCall();
        int right = 0;
        for (int key = 100; key < 200; key++) {
            right += "v".equals(scene.cache.get(key)) ? 1 : 0;
        }
        equal("while a writer is slow, gets of other keys answer at once, in each stripe", 100, right);
        holds("the put still runs", !slow.isDone());
        scene.store.open();
        slow.result();
        equal("and ends", "slow", scene.cache.get(1));
    }
}
