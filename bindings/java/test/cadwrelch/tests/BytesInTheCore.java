package cadwrelch.tests;

import static cadwrelch.tests.Check.equal;
import static cadwrelch.tests.Check.holds;
import static cadwrelch.tests.Check.thrown;

import java.util.List;
import java.util.Map;
import java.util.Properties;
import java.util.Set;
import java.util.TreeSet;
import java.util.UUID;
import javax.cache.Cache;
import javax.cache.CacheManager;
import javax.cache.configuration.MutableConfiguration;
import cadwrelch.tests.Check.Test;

/**
 * Caches whose keys and values are bytes in the core: strings, numbers and UUIDs, by the property {@code
 * cadwrelch.bytes}.
 */
final class BytesInTheCore {
    private BytesInTheCore() {}

    private static CacheManager manager() {
        Properties properties = new Properties();
        properties.setProperty("cadwrelch.bytes", "true");
        return Caches.manager(properties);
    }

    private static <K, V> Cache<K, V> ofTypes(Class<K> key, Class<V> value) {
        return Caches.create(manager(), new MutableConfiguration<K, V>().setTypes(key, value));
    }

    private static <T> void checkKept(Class<T> type, List<T> values) {
        Cache<T, T> cache = ofTypes(type, type);
        for (T value : values) {
            cache.put(value, value);
            equal("a value of " + type.getSimpleName() + " comes back as it was", value, cache.get(value));
        }
        Set<T> seen = new TreeSet<>();
        cache.forEach(entry -> seen.add(entry.getKey()));
        equal("and so do the keys", new TreeSet<>(values), seen);
    }

    @Test
    static void valuesComeBackAsTheyWere() {
        checkKept(Integer.class, List.of(0, 1, -1, Integer.MIN_VALUE, Integer.MAX_VALUE));
        checkKept(Long.class, List.of(0L, 1L, -1L, Long.MIN_VALUE, Long.MAX_VALUE));
        checkKept(UUID.class, List.of(new UUID(0, 0), new UUID(-1, 1), new UUID(Long.MIN_VALUE, Long.MAX_VALUE)));
        checkKept(String.class, List.of("a", "ä", "\u0000", "€", "\uD83D\uDE00", "k".repeat(32), "ß".repeat(16)));
    }

    @Test
    static void valuesMayBeEmptyOrLong() {
        Cache<String, String> cache = ofTypes(String.class, String.class);
        cache.put("a", "");
        equal("a value may be empty", "", cache.get("a"));
        cache.put("a", "v".repeat(256));
        equal("or have 256 bytes", "v".repeat(256), cache.get("a"));
    }

    @Test
    static void whatHasNoBytesOrTooManyIsRefused() {
        Cache<String, String> cache = ofTypes(String.class, String.class);
        cache.put("k", "v");
        checkRefused("a key of 33 bytes", () -> cache.put("k".repeat(33), "v"));
        checkRefused("also of a get", () -> cache.get("ß".repeat(17)));
        checkRefused("an empty key", () -> cache.put("", "v"));
        checkRefused("a value of 257 bytes", () -> cache.put("k", "v".repeat(257)));
        checkRefused("also of a replace", () -> cache.replace("k", "v", "v".repeat(257)));
        checkRefused("a key with a lone surrogate", () -> cache.put("a\uD83D", "v"));
        checkRefused("a value with a lone surrogate", () -> cache.put("k", "\uDE00a"));
        checkRefused("one of many", () -> cache.putAll(Map.of("a", "1", "k".repeat(33), "v")));
        checkRefused("also of loadAll", () -> cache.loadAll(Set.of("k".repeat(33)), false, null));
        equal("what was cached is", Map.of("k", "v"), cache.getAll(Set.of("k", "a")));
    }

    private static void checkRefused(String what, Check.Body call) {
        IllegalArgumentException refused =
                thrown(what + " is IllegalArgumentException", IllegalArgumentException.class, call);
        holds("which names the property: " + refused, refused != null
                && refused.getMessage().contains("cadwrelch.bytes"));
    }

    @Test
    static void whatALoaderFindsIsRefusedToo() {
        Store<String, String> store = new Store<>();
        store.map.put("a", "v".repeat(257));
        Cache<String, String> cache = Caches.create(manager(), Caches.over(store).setTypes(String.class, String.class));
        thrown("a loader's value of 257 bytes fails its load", RuntimeException.class, () -> cache.get("a"));
        store.map.put("a", "short");
        equal("and leaves the key free", "short", cache.get("a"));
    }

    @Test
    static void otherTypesAreObjects() {
        Cache<String, byte[]> cache = ofTypes(String.class, byte[].class);
        String key = "k".repeat(100);
        cache.put(key, new byte[1000]);
        equal("a cache of other types keeps objects, of any length", 1000, cache.get(key).length);
    }
}
