package cadwrelch.tests;

import static cadwrelch.tests.Check.equal;
import static cadwrelch.tests.Check.holds;
import static cadwrelch.tests.Check.same;
import static cadwrelch.tests.Check.thrown;

import java.util.HashMap;
import java.util.Map;
import java.util.Set;
import java.util.concurrent.ExecutionException;
import java.util.concurrent.TimeUnit;
import javax.cache.Cache;
import javax.cache.configuration.MutableConfiguration;
import javax.cache.integration.CacheLoader;
import javax.cache.integration.CacheLoaderException;
import javax.cache.integration.CompletionListenerFuture;
import cadwrelch.tests.Background.Work;
import cadwrelch.tests.Check.Test;

/** Which calls ask the loader, what they leave, and what a loader that fails leaves. */
final class ReadThrough {
    private ReadThrough() {}

    /** What a test has: a store with 1=one and 2=two, and a cache over it. */
    private static final class Scene {
        final Store<Integer, String> store = new Store<>();
        final Cache<Integer, String> cache;

        Scene() {
            store.map.put(1, "one");
            store.map.put(2, "two");
            cache = Caches.create(new MutableConfiguration<Integer, String>()
                    .setTypes(Integer.class, String.class)
                    .setReadThrough(true)
                    .setCacheLoaderFactory(() -> store));
        }

        /** What loadAll comes to. */
        void loadAll(Set<Integer> keys, boolean replace) throws Exception {
            CompletionListenerFuture loaded = new CompletionListenerFuture();
            cache.loadAll(keys, replace, loaded);
            loaded.get(30, TimeUnit.SECONDS);
        }
    }

    @Test
    static void aLoaderMayAnswerNullForAKey() throws Exception {
        Scene scene = new Scene();
        Map<Integer, String> withNull = new HashMap<>();
        withNull.put(5, null);
        Cache<Integer, String> cache = overAll(keys -> withNull);
        equal("getAll takes a null of loadAll as nothing found", Map.of(), cache.getAll(Set.of(5)));
        CompletionListenerFuture loaded = new CompletionListenerFuture();
        cache.loadAll(Set.of(5), true, loaded);
        equal("and so does loadAll", null, loaded.get(30, TimeUnit.SECONDS));
        holds("nothing is cached", !cache.containsKey(5));
        scene.cache.close();
    }

    @Test
    static void aLoaderMayAnswerForOtherKeys() {
        Cache<Integer, String> cache = overAll(keys -> Map.of(1, "one", 7, "seven"));
        equal("getAll answers for the keys that it was asked for", Map.of(1, "one"), cache.getAll(Set.of(1, 2)));
        holds("and caches no other", !cache.containsKey(7) && !cache.containsKey(2));
    }

    /** What a loader answers for many keys. */
    private interface Many {
        Map<Integer, String> load(Iterable<? extends Integer> keys);
    }

    private static Cache<Integer, String> overAll(Many many) {
        CacheLoader<Integer, String> loader = new CacheLoader<>() {
            @Override
            public String load(Integer key) {
                throw new AssertionError("asked for one key");
            }

            @Override
            public Map<Integer, String> loadAll(Iterable<? extends Integer> keys) {
                return many.load(keys);
            }
        };
        return Caches.create(new MutableConfiguration<Integer, String>().setReadThrough(true)
                .setCacheLoaderFactory(() -> loader));
    }

    @Test
    static void aLoaderThatFailsIsTheCause() {
        Scene scene = new Scene();
        scene.store.fault = new UnsupportedOperationException("down");
        CacheLoaderException one =
                thrown("get of a loader that throws is CacheLoaderException", CacheLoaderException.class,
                () -> scene.cache.get(1));
        same("its cause is what the loader has thrown", scene.store.fault, one.getCause());
        CacheLoaderException many =
                thrown("and so is getAll", CacheLoaderException.class, () -> scene.cache.getAll(Set.of(1, 2)));
        same("with its cause", scene.store.fault, many.getCause());
        scene.store.fault = new CacheLoaderException("its own");
        same("a CacheLoaderException is thrown as it is", scene.store.fault,
                thrown("by a get", CacheLoaderException.class, () -> scene.cache.get(1)));
        scene.store.fault = null;
        holds("a failed load caches nothing", !scene.cache.containsKey(1));
        equal("and leaves the key free", "one", scene.cache.get(1));
    }

    @Test
    static void loadAllTellsItsListenerOfAFailure() {
        Scene scene = new Scene();
        scene.store.fault = new IllegalStateException("down");
        ExecutionException failed =
                thrown("loadAll of a loader that throws ends with an exception", ExecutionException.class,
                () -> scene.loadAll(Set.of(1), true));
        holds("which is CacheLoaderException", failed.getCause() instanceof CacheLoaderException);
        same("of what the loader has thrown", scene.store.fault, failed.getCause().getCause());
    }

    @Test
    static void aSlowLoadHoldsNobodyElse() throws Exception {
        Scene scene = new Scene();
        for (int key = 100; key < 200; key++) {
            scene.cache.put(key, "v" + key);
        }
        Store.Gate gate = scene.store.shut();
        Work<String> slow = Background.start(() -> scene.cache.get(1));
        gate.awaitCall();
        int right = 0;
        for (int key = 100; key < 200; key++) {
            right += ("v" + key).equals(scene.cache.get(key)) ? 1 : 0;
            scene.cache.put(key, "w");
        }
        equal("while a loader is slow, gets and puts of other keys are done at once, in each stripe", 100, right);
        holds("and containsKey of the key itself", !scene.cache.containsKey(1));
        holds("the load still runs", !slow.isDone());
        scene.store.open();
        equal("it ends", "one", slow.result());
    }
}
