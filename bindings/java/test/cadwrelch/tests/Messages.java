package cadwrelch.tests;

import static cadwrelch.tests.Check.equal;
import static cadwrelch.tests.Check.holds;
import static cadwrelch.tests.Check.thrown;

import java.util.LinkedHashMap;
import java.util.Map;
import java.util.Set;
import java.util.TreeSet;
import java.util.concurrent.ExecutionException;
import javax.cache.Cache;
import javax.cache.integration.CacheLoaderException;
import javax.cache.integration.CompletionListenerFuture;
import cadwrelch.tests.Check.Test;

/** What exceptions say: the key, its text cut, and the cache. */
final class Messages {
    private Messages() {}

    /** A call, and what its exception says. */
    private static final class Said {
        final Check.Body call;
        final String text;

        Said(Check.Body call, String text) {
            this.call = call;
            this.text = text;
        }
    }

    @Test
    static void failuresNameKeyAndCache() {
        Store<String, String> store = new Store<>();
        store.fault = new IllegalStateException("down");
        Cache<String, String> cache = Caches.through(store);
        String name = cache.getName();
        String at = " (key k, cache " + name + ")";
        Set<String> six = new TreeSet<>(Set.of("1", "2", "3", "4", "5", "6"));
        Map<String, Said> said = new LinkedHashMap<>();
        said.put("get", new Said(() -> cache.get("k"), "the loader failed" + at));
        said.put("put", new Said(() -> cache.put("k", "v"), "the writer failed" + at));
        said.put("remove", new Said(() -> cache.remove("k"), "the writer failed" + at));
        said.put("getAll", new Said(() -> cache.getAll(Set.of("k")), "the loader failed" + at));
        said.put("getAll of six", new Said(() -> cache.getAll(six),
                "the loader failed (6 keys: 1, 2, 3, 4, 5, .., cache " + name + ")"));
        said.put("putAll", new Said(() -> cache.putAll(Map.of("k", "v")), "the writer failed" + at));
        said.put("invoke", new Said(() -> cache.invoke("k", (entry, arguments) -> {
            throw new IllegalStateException("its own");
        }), "the processor failed" + at));
        said.put("invoke that loads", new Said(() -> cache.invoke("k", (entry, arguments) -> entry.getValue()),
                "the processor failed" + at));
        said.put("a long key", new Said(() -> cache.get("long\n".repeat(100)),
                "the loader failed (key " + "long ".repeat(20) + ".., cache " + name + ")"));
        said.forEach((call, it) -> {
            RuntimeException failed = thrown(call + " fails", RuntimeException.class, it.call);
            equal(call + " says key and cache", it.text, failed == null ? null : failed.getMessage());
        });
        cache.close();
        RuntimeException closed = thrown("a closed cache", IllegalStateException.class, () -> cache.get("k"));
        equal("says its name", "the cache " + name + " is closed", closed.getMessage());
    }

    @Test
    static void callsOfTheirOwnKeyNameIt() {
        Map<Integer, String> said = new LinkedHashMap<>();
        Store<Integer, String> store = new Store<>();
        Cache<Integer, String> cache = Caches.through(store);
        cache.invoke(5, (entry, arguments) -> {
            RuntimeException refused = thrown("a put of the own key", IllegalStateException.class, () -> cache.put(5, "v"));
            said.put(5, refused.getMessage());
            return null;
        });
        equal("names it", "a loader, writer or processor calls the cache at the key that it was called for (key 5, cache "
                + cache.getName() + ")", said.get(5));
    }

    @Test
    static void aLoadAllThatAnswersNullSaysSo() throws Exception {
        Store<Integer, String> store = new Store<>();
        store.answersNull = true;
        Cache<Integer, String> cache = Caches.through(store);
        CacheLoaderException failed = thrown("getAll whose loadAll answers null is CacheLoaderException",
                CacheLoaderException.class, () -> cache.getAll(Set.of(1)));
        holds("which says so: " + failed, failed.getMessage().contains("loadAll of the loader " + Store.class.getName()
                + " has answered null") && failed.getMessage().contains("(key 1, cache " + cache.getName() + ")"));
        CompletionListenerFuture loaded = new CompletionListenerFuture();
        cache.loadAll(Set.of(1), true, loaded);
        ExecutionException told = thrown("loadAll tells its listener", ExecutionException.class, loaded::get);
        holds("the same: " + told, told.getCause() instanceof CacheLoaderException);
    }
}
