package cadwrelch.tests;

import java.net.URI;
import java.util.Properties;
import java.util.concurrent.atomic.AtomicInteger;
import javax.cache.Cache;
import javax.cache.CacheManager;
import javax.cache.Caching;
import javax.cache.configuration.MutableConfiguration;

/** New caches for tests, found as any program finds them: by Caching. */
final class Caches {
    private static final AtomicInteger count = new AtomicInteger();

    private Caches() {}

    /** The manager of the default URI. */
    static CacheManager manager() {
        return Caching.getCachingProvider().getCacheManager();
    }

    /** A new manager whose caches have as many stripes, and each stripe as many entries. */
    static CacheManager manager(int stripes, int capacity) {
        Properties properties = new Properties();
        properties.setProperty("cadwrelch.stripes", String.valueOf(stripes));
        properties.setProperty("cadwrelch.capacity", String.valueOf(stripes * capacity));
        return manager(properties);
    }

    /** A new manager with these properties. */
    static CacheManager manager(Properties properties) {
        return Caching.getCachingProvider()
                .getCacheManager(URI.create("test:" + count.incrementAndGet()), null, properties);
    }

    /** A new cache of the default manager. */
    static <K, V> Cache<K, V> create(MutableConfiguration<K, V> configuration) {
        return create(manager(), configuration);
    }

    static <K, V> Cache<K, V> create(CacheManager manager, MutableConfiguration<K, V> configuration) {
        return manager.createCache("cache" + count.incrementAndGet(), configuration);
    }

    /** A new cache without a loader and a writer. */
    static <K, V> Cache<K, V> plain(Class<K> key, Class<V> value) {
        return create(new MutableConfiguration<K, V>().setTypes(key, value));
    }

    /** Read-through and write-through over a store. */
    static <K, V> MutableConfiguration<K, V> over(Store<K, V> store) {
        return new MutableConfiguration<K, V>()
                .setReadThrough(true)
                .setWriteThrough(true)
                .setCacheLoaderFactory(() -> store)
                .setCacheWriterFactory(() -> store);
    }

    /** A new cache over a store. */
    static <K, V> Cache<K, V> through(Store<K, V> store) {
        return create(over(store));
    }

    /** The same, with configured types. */
    static <K, V> Cache<K, V> through(Store<K, V> store, Class<K> key, Class<V> value) {
        return create(over(store).setTypes(key, value));
    }
}
