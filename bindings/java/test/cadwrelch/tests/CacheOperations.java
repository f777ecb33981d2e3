package cadwrelch.tests;

import static cadwrelch.tests.Check.equal;
import static cadwrelch.tests.Check.holds;
import static cadwrelch.tests.Check.thrown;

import java.util.ArrayList;
import java.util.Collections;
import java.util.HashMap;
import java.util.HashSet;
import java.util.Iterator;
import java.util.LinkedHashMap;
import java.util.List;
import java.util.Map;
import java.util.NoSuchElementException;
import java.util.Set;
import java.util.TreeMap;
import java.util.TreeSet;
import javax.cache.Cache;
import javax.cache.CacheManager;
import javax.cache.configuration.MutableConfiguration;
import javax.cache.integration.CompletionListenerFuture;
import cadwrelch.tests.Check.Test;

/** The calls of {@link Cache} without a loader and a writer, as its pages say. */
final class CacheOperations {
    private CacheOperations() {}

    /** A call with its arguments. */
    private interface Use {
        void of(Cache<String, String> cache);
    }

    private static Cache<String, String> strings() {
        return Caches.plain(String.class, String.class);
    }

    @Test
    static void comparesByEquals() {
        Cache<String, String> cache = strings();
        cache.put("a", "1");
        holds("replace(key, old, new) with another old value is false", !cache.replace("a", "9", "2"));
        equal("and leaves the value", "1", cache.get("a"));
        holds("replace(key, old, new) compares by equals", cache.replace("a", new String("1"), "2"));
        equal("and puts the new value", "2", cache.get("a"));
        holds("replace(key, old, new) of a missing key is false", !cache.replace("z", "1", "2"));
        holds("remove(key, old) with another old value is false", !cache.remove("a", "1"));
        holds("and leaves the entry", cache.containsKey("a"));
        holds("remove(key, old) compares by equals", cache.remove("a", new String("2")));
        holds("and removes the entry", !cache.containsKey("a"));
        holds("remove(key, old) of a missing key is false", !cache.remove("a", "2"));
    }

    /** The entries that are listed in turns, a key and a value. */
    private static Map<String, String> contents(String... listed) {
        Map<String, String> contents = new TreeMap<>();
        for (int i = 0; i < listed.length; i += 2) {
            contents.put(listed[i], listed[i + 1]);
        }
        return contents;
    }

    /** The entries that an iterator of the cache finds. */
    private static Map<String, String> contents(Cache<String, String> cache) {
        Map<String, String> contents = new TreeMap<>();
        cache.forEach(entry -> contents.put(entry.getKey(), entry.getValue()));
        return contents;
    }

    @Test
    static void loadsNothingWithoutALoader() throws Exception {
        Cache<String, String> cache = strings();
        CompletionListenerFuture loaded = new CompletionListenerFuture();
        cache.loadAll(Set.of("a"), true, loaded);
        equal("loadAll without a loader completes", null, loaded.get());
        holds("and loads nothing", !cache.containsKey("a"));
        cache.loadAll(Set.of("a"), true, null);
        CompletionListenerFuture empty = new CompletionListenerFuture();
        cache.loadAll(Set.of(), true, empty);
        equal("loadAll of no key completes", null, empty.get());
    }

    @Test
    static void iterates() {
        Cache<String, String> cache = strings();
        holds("an empty cache's iterator has no next", !cache.iterator().hasNext());
        thrown("next() at the end is NoSuchElementException", NoSuchElementException.class, cache.iterator()::next);
        thrown("remove() before a next() is IllegalStateException", IllegalStateException.class,
                cache.iterator()::remove);
        Map<String, String> put = new HashMap<>();
        for (int i = 0; i < 100; i++) {
            put.put("key" + i, "value" + i);
        }
        cache.putAll(put);
        equal("an iterator goes over each entry, once", new TreeMap<>(put), contents(cache));
        for (Iterator<Cache.Entry<String, String>> each = cache.iterator(); each.hasNext();) {
            if (each.next().getKey().endsWith("7")) {
                each.remove();
                thrown("a second remove() is IllegalStateException", IllegalStateException.class, each::remove);
            }
        }
        put.keySet().removeIf(key -> key.endsWith("7"));
        equal("remove() of an iterator removes its last entry alone", new TreeMap<>(put), contents(cache));
    }

    @Test
    static void iteratesWhileTheCacheChanges() {
        Cache<String, String> cache = strings();
        cache.put("a", "1");
        cache.put("b", "2");
        Iterator<Cache.Entry<String, String>> each = cache.iterator();
        String first = each.next().getKey();
        cache.put("c", "3");
        cache.remove(first);
        Set<String> seen = new TreeSet<>();
        each.forEachRemaining(entry -> seen.add(entry.getKey()));
        holds("an iterator goes on while the cache changes", !seen.contains(first) && seen.size() <= 2);
    }

    @Test
    static void keepsLongKeysAndValues() {
        Cache<String, String> cache = Caches.create(new MutableConfiguration<>());
        String key = "k".repeat(5000);
        cache.put(key, "v".repeat(100_000));
        equal("a key and a value may have any length", 100_000, cache.get("k".repeat(5000)).length());
        cache.put("", "");
        equal("an empty key and an empty value are a key and a value", "", cache.get(""));
    }

    @Test
    static void findsKeysByEquals() {
        Cache<Object, String> cache = Caches.create(new MutableConfiguration<>());
        cache.put(List.of("a", 1), "list");
        equal("a key is found by equals and hashCode", "list", cache.get(new ArrayList<>(List.of("a", 1))));
        cache.put(new HashSet<>(Set.of("a", "b", "c")), "set");
        equal("whatever its class is", "set", cache.get(new TreeSet<>(Set.of("c", "b", "a"))));
        equal("a key isn't another one of the same hash", null, cache.get(List.of("b", 1 - 31)));
        cache.put("Aa", "first");
        cache.put("BB", "second");
        equal("two keys of one hash have a value each", "first second", cache.get("Aa") + " " + cache.get("BB"));
    }

    private static Map<String, Use> usesWithNull() {
        Map<String, Use> uses = new LinkedHashMap<>();
        uses.put("get(null)", it -> it.get(null));
        uses.put("getAll(null)", it -> it.getAll(null));
        uses.put("getAll with null", it -> it.getAll(Collections.singleton(null)));
        uses.put("containsKey(null)", it -> it.containsKey(null));
        uses.put("loadAll(null, ..)", it -> it.loadAll(null, true, new CompletionListenerFuture()));
        uses.put("loadAll with null", it -> it.loadAll(Collections.singleton(null), false, null));
        uses.put("put(null, value)", it -> it.put(null, "v"));
        uses.put("put(key, null)", it -> it.put("k", null));
        uses.put("getAndPut(null, value)", it -> it.getAndPut(null, "v"));
        uses.put("getAndPut(key, null)", it -> it.getAndPut("k", null));
        uses.put("putAll(null)", it -> it.putAll(null));
        uses.put("putAll with a null key", it -> it.putAll(Collections.singletonMap(null, "v")));
        uses.put("putAll with a null value", it -> it.putAll(Collections.singletonMap("k", null)));
        uses.put("putIfAbsent(null, value)", it -> it.putIfAbsent(null, "v"));
        uses.put("putIfAbsent(key, null)", it -> it.putIfAbsent("k", null));
        uses.put("remove(null)", it -> it.remove(null));
        uses.put("remove(null, value)", it -> it.remove(null, "v"));
        uses.put("remove(key, null)", it -> it.remove("k", null));
        uses.put("getAndRemove(null)", it -> it.getAndRemove(null));
        uses.put("replace(null, old, new)", it -> it.replace(null, "v", "w"));
        uses.put("replace(key, null, new)", it -> it.replace("k", null, "w"));
        uses.put("replace(key, old, null)", it -> it.replace("k", "v", null));
        uses.put("replace(null, value)", it -> it.replace(null, "v"));
        uses.put("replace(key, null)", it -> it.replace("k", null));
        uses.put("getAndReplace(null, value)", it -> it.getAndReplace(null, "v"));
        uses.put("getAndReplace(key, null)", it -> it.getAndReplace("k", null));
        uses.put("removeAll(null)", it -> it.removeAll(null));
        uses.put("removeAll with null", it -> it.removeAll(Collections.singleton(null)));
        uses.put("invoke(null, processor)", it -> it.invoke(null, (entry, arguments) -> null));
        uses.put("invoke(key, null)", it -> it.invoke("k", null));
        uses.put("invokeAll(null, processor)", it -> it.invokeAll(null, (entry, arguments) -> null));
        uses.put("invokeAll with null", it -> it.invokeAll(Collections.singleton(null), (entry, arguments) -> null));
        uses.put("invokeAll(keys, null)", it -> it.invokeAll(Set.of("k"), null));
        uses.put("deregisterCacheEntryListener(null)", it -> it.deregisterCacheEntryListener(null));
        return uses;
    }

    @Test
    static void refusesNull() {
        Cache<String, String> cache = strings();
        usesWithNull().forEach((name, use) ->
                thrown(name + " is NullPointerException", NullPointerException.class, () -> use.of(cache)));
        equal("and nothing is cached", contents(), contents(cache));
    }

    @Test
    static void refusesCallsOnceItIsClosed() {
        Map<String, Use> uses = new LinkedHashMap<>();
        uses.put("get", it -> it.get("k"));
        uses.put("getAll", it -> it.getAll(Set.of("k")));
        uses.put("containsKey", it -> it.containsKey("k"));
        uses.put("loadAll", it -> it.loadAll(Set.of("k"), true, new CompletionListenerFuture()));
        uses.put("put", it -> it.put("k", "v"));
        uses.put("getAndPut", it -> it.getAndPut("k", "v"));
        uses.put("putAll", it -> it.putAll(Map.of("k", "v")));
        uses.put("putIfAbsent", it -> it.putIfAbsent("k", "v"));
        uses.put("remove(key)", it -> it.remove("k"));
        uses.put("remove(key, old)", it -> it.remove("k", "v"));
        uses.put("getAndRemove", it -> it.getAndRemove("k"));
        uses.put("replace(key, old, new)", it -> it.replace("k", "v", "w"));
        uses.put("replace(key, value)", it -> it.replace("k", "v"));
        uses.put("getAndReplace", it -> it.getAndReplace("k", "v"));
        uses.put("removeAll(keys)", it -> it.removeAll(Set.of("k")));
        uses.put("removeAll()", Cache::removeAll);
        uses.put("clear", Cache::clear);
        uses.put("invoke", it -> it.invoke("k", (entry, arguments) -> null));
        uses.put("invokeAll", it -> it.invokeAll(Set.of("k"), (entry, arguments) -> null));
        uses.put("iterator", Cache::iterator);
        uses.putAll(usesWithNull());
        uses.forEach((name, use) -> {
            Cache<String, String> cache = strings();
            cache.close();
            thrown(name + " of a closed cache is IllegalStateException", IllegalStateException.class,
                    () -> use.of(cache));
        });
    }

    @Test
    @SuppressWarnings({"rawtypes", "unchecked"})
    static void refusesOtherTypesIfTypesAreConfigured() {
        Cache cache = strings();
        thrown("a key of another type is ClassCastException", ClassCastException.class, () -> cache.put(1, "v"));
        thrown("and a value of another type", ClassCastException.class, () -> cache.put("k", 2));
        thrown("also of a get", ClassCastException.class, () -> cache.get(1));
        Cache any = Caches.create(new MutableConfiguration<>());
        any.put(1, "v");
        equal("without configured types each type will do", "v", any.get(1));
    }

    @Test
    static void keepsAsManyEntriesAsItsCapacitySays() {
        CacheManager manager = Caches.manager(2, 10);
        Cache<Integer, Integer> cache = Caches.create(manager, new MutableConfiguration<>());
        for (int i = 0; i < 1000; i++) {
            cache.put(i, i);
        }
        equal("after many puts each stripe is full, and not more", 20, keys(cache).size());
        cache.forEach(entry -> equal("an entry has its own value", entry.getKey(), entry.getValue()));
        manager.close();
    }

    @Test
    static void hasRoomForManyEntries() {
        CacheManager manager = Caches.manager(300, 4096);
        Cache<Integer, Integer> cache = Caches.create(manager, new MutableConfiguration<>());
        int count = 50_000;
        for (int i = 0; i < count; i++) {
            cache.put(i, -i);
        }
        int right = 0;
        for (int i = 0; i < count; i++) {
            Integer value = cache.get(i);
            right += value != null && value == -i ? 1 : 0;
        }
        equal("a cache of 300 stripes keeps 50,000 entries", count, right);
        manager.close();
    }

    private static Set<Integer> keys(Cache<Integer, ?> cache) {
        Set<Integer> keys = new TreeSet<>();
        cache.forEach(entry -> keys.add(entry.getKey()));
        return keys;
    }

    @Test
    static void unwraps() {
        Cache<String, String> cache = strings();
        cache.put("a", "1");
        holds("unwrap(Cache.class) is the cache", cache.unwrap(Cache.class) == cache);
        thrown("unwrap of another class is IllegalArgumentException", IllegalArgumentException.class,
                () -> cache.unwrap(Integer.class));
        Cache.Entry<String, String> entry = cache.iterator().next();
        holds("unwrap(Cache.Entry.class) of an entry is the entry", entry.unwrap(Cache.Entry.class) == entry);
        thrown("and of another class IllegalArgumentException", IllegalArgumentException.class,
                () -> entry.unwrap(Integer.class));
    }
}
