import cadwrelch.jcache.CadwrelchConfiguration;
import cadwrelch.jcache.Invalidation;
import java.net.URI;
import java.time.Duration;
import java.util.Collection;
import java.util.HashMap;
import java.util.Map;
import java.util.Properties;
import java.util.Set;
import java.util.concurrent.ConcurrentHashMap;
import javax.cache.Cache;
import javax.cache.CacheManager;
import javax.cache.Caching;
import javax.cache.configuration.MutableConfiguration;
import javax.cache.integration.CacheLoader;
import javax.cache.integration.CacheWriter;
import javax.cache.integration.CompletionListenerFuture;

/** The examples of README.md, which the gate puts in place of the line that says so. */
public class Page {
    /** A store of record. */
    static final class Store<K, V> implements CacheLoader<K, V>, CacheWriter<K, V> {
        final Map<K, V> rows = new ConcurrentHashMap<>();

        @Override
        public V load(K key) {
            return rows.get(key);
        }

        @Override
        public Map<K, V> loadAll(Iterable<? extends K> keys) {
            Map<K, V> found = new HashMap<>();
            keys.forEach(key -> found.put(key, rows.get(key)));
            return found;
        }

        @Override
        public void write(Cache.Entry<? extends K, ? extends V> entry) {
            rows.put(entry.getKey(), entry.getValue());
        }

        @Override
        public void writeAll(Collection<Cache.Entry<? extends K, ? extends V>> entries) {
            entries.forEach(this::write);
            entries.clear();
        }

        @Override
        public void delete(Object key) {
            rows.remove(key);
        }

        @Override
        public void deleteAll(Collection<?> keys) {
            keys.forEach(this::delete);
            keys.clear();
        }
    }

    private static void check(Object wanted, Object found) {
        if (!wanted.equals(found)) {
            throw new AssertionError(found + " instead of " + wanted);
        }
    }

    /** Records a put, for the command of the page that shows it. */
    private static void record(String folder) {
        Properties properties = new Properties();
        properties.setProperty("cadwrelch.record", folder);
        properties.setProperty("cadwrelch.stripes", "1");
        try (CacheManager manager = Caching.getCachingProvider().getCacheManager(URI.create("recorded"), null, properties)) {
            manager.createCache("pages", new MutableConfiguration<String, String>()).put("home", "text");
        }
    }

    public static void main(String[] folder) throws Exception {
        Store<String, String> store = new Store<>();
        Store<Integer, String> authorStore = new Store<>();
        Store<Integer, String> titleStore = new Store<>();
        authorStore.rows.put(1, "Ann");
        Cache<String, Integer> visits = Caching.getCachingProvider().getCacheManager()
                .createCache("visits", new MutableConfiguration<>());
        // The examples of the page.
        pages.put("home", "text");
        check("text", store.rows.get("home"));
        store.rows.put("home", "theirs");
        changes.invalidate("home");
        check("theirs", pages.get("home"));
        check(1, count);
        check("Ann", authors.get(1));
        check(false, authors.containsKey(2));
        check("titles", manager.getCache("titles").getName());
        record(folder[0]);
    }
}
