package cadwrelch.jcache;

import java.lang.ref.WeakReference;
import java.net.URI;
import java.util.ArrayList;
import java.util.Collections;
import java.util.HashSet;
import java.util.LinkedHashMap;
import java.util.List;
import java.util.Map;
import java.util.Objects;
import java.util.Properties;
import java.util.Set;
import javax.cache.Cache;
import javax.cache.CacheException;
import javax.cache.CacheManager;
import javax.cache.configuration.CompleteConfiguration;
import javax.cache.configuration.Configuration;
import javax.cache.spi.CachingProvider;

/**
 * The caches of a URI and a class loader (JSR 107, "CacheManagers"), with the properties that {@link Settings} names.
 */
final class JcacheManager implements CacheManager {
    private final JcacheProvider provider;
    private final URI uri;
    /** A provider keeps managers as long as their class loaders live, so a manager keeps none alive. */
    private final WeakReference<ClassLoader> loader;
    private final Properties properties;
    /** The provider's own of them, as they were when the manager was made. */
    private final Map<String, String> own;
    /**
     * The caches by their names, and the names of caches that are being made. This map guards both, and {@link
     * #isClosed}.
     */
    private final Map<String, JcacheCache<?, ?>> caches = new LinkedHashMap<>();
    private final Set<String> names = new HashSet<>();
    /** The caches that have properties of their own, and were never made. */
    private final Set<String> unmade;
    private boolean isClosed;

    /**
     * A manager.
     *
     * @throws CacheException if a property is wrong
     */
    JcacheManager(JcacheProvider provider, URI uri, ClassLoader loader, Properties properties) {
        this.provider = provider;
        this.uri = uri;
        this.loader = new WeakReference<>(loader);
        this.properties = properties;
        own = Settings.of(properties);
        unmade = Settings.cacheNames(own);
    }

    private void checkOpen() {
        if (isClosed()) {
            throw new IllegalStateException("the cache manager " + uri + " is closed");
        }
    }

    @Override
    public CachingProvider getCachingProvider() {
        return provider;
    }

    @Override
    public URI getURI() {
        return uri;
    }

    @Override
    public ClassLoader getClassLoader() {
        return loader.get();
    }

    @Override
    public Properties getProperties() {
        return properties;
    }

    // Making caches.

    /**
     * Makes a cache.
     *
     * @throws UnsupportedOperationException if there is no native library for this platform
     * @throws CacheException if there is a cache of this name, if what its configuration and its properties say doesn't
     *     go together, or if its native library or its record can't be opened
     * @throws IllegalArgumentException if its configuration has read-through, write-through or reloads without a
     *     factory, or remembers what is absent without read-through
     * @throws OutOfMemoryError if the memory of the core can't be allocated
     */
    @Override
    public <K, V, C extends Configuration<K, V>> Cache<K, V> createCache(String cacheName, C configuration) {
        checkOpen();
        Objects.requireNonNull(cacheName, "cacheName");
        Objects.requireNonNull(configuration, "configuration");
        CadwrelchConfiguration<K, V> copy = copyOf(configuration);
        Settings settings = new Settings(own, cacheName, copy);
        copy.note(settings);
        NativeLibrary.require(Settings.library(own));
        reserve(cacheName);
        JcacheCache<K, V> cache;
        try {
            cache = new JcacheCache<>(this, cacheName, copy, settings);
        } catch (RuntimeException | Error e) {
            release(cacheName);
            throw e;
        }
        if (!add(cache)) {
            cache.close();
            checkOpen();
        }
        Management.showStatistics(cache, copy.isStatisticsEnabled());
        Management.showConfiguration(cache, copy.isManagementEnabled());
        return cache;
    }

    private static <K, V> CadwrelchConfiguration<K, V> copyOf(Configuration<K, V> configuration) {
        CadwrelchConfiguration<K, V> own;
        if (configuration instanceof CompleteConfiguration) {
            own = new CadwrelchConfiguration<>((CompleteConfiguration<K, V>) configuration);
        } else {
            own = new CadwrelchConfiguration<>();
            own.setTypes(configuration.getKeyType(), configuration.getValueType());
            own.setStoreByValue(configuration.isStoreByValue());
        }
        if (own.isReadThrough() && own.getCacheLoaderFactory() == null) {
            throw new IllegalArgumentException("read-through is on, and there is no factory of a cache loader");
        }
        if (own.isWriteThrough() && own.getCacheWriterFactory() == null) {
            throw new IllegalArgumentException("write-through is on, and there is no factory of a cache writer");
        }
        if (own.getRefreshAfter() != null && own.getCacheLoaderFactory() == null) {
            throw new IllegalArgumentException("refreshAfter is set, and there is no factory of a cache loader");
        }
        if (own.getAbsentFor() != null && !own.isReadThrough()) {
            throw new IllegalArgumentException("absentFor is set, and read-through is off");
        }
        return own;
    }

    /** Reserves a name: a cache is made with no lock held, since its factories are the user's. */
    private void reserve(String cacheName) {
        synchronized (caches) {
            if (!names.add(cacheName)) {
                throw new CacheException("there is a cache " + cacheName);
            }
        }
    }

    private void release(String cacheName) {
        synchronized (caches) {
            names.remove(cacheName);
        }
    }

    /** False: the manager was closed meanwhile. */
    private boolean add(JcacheCache<?, ?> cache) {
        synchronized (caches) {
            if (!isClosed) {
                caches.put(cache.getName(), cache);
                unmade.remove(cache.getName());
            }
            return !isClosed;
        }
    }

    // Finding caches.

    private JcacheCache<?, ?> find(String cacheName) {
        checkOpen();
        Objects.requireNonNull(cacheName, "cacheName");
        synchronized (caches) {
            return caches.get(cacheName);
        }
    }

    @Override
    @SuppressWarnings("unchecked")
    public <K, V> Cache<K, V> getCache(String cacheName, Class<K> keyType, Class<V> valueType) {
        Objects.requireNonNull(keyType, "keyType");
        Objects.requireNonNull(valueType, "valueType");
        JcacheCache<?, ?> cache = find(cacheName);
        if (cache == null) {
            return null;
        }
        Class<?> keys = cache.configuration.getKeyType();
        Class<?> values = cache.configuration.getValueType();
        if (keys != keyType || values != valueType) {
            throw new ClassCastException(
                    "the cache " + cacheName + " is of " + keys.getName() + " and " + values.getName());
        }
        return (Cache<K, V>) cache;
    }

    /** The cache of this name, of whatever types, as JCache 1.1 wants it. */
    @Override
    @SuppressWarnings("unchecked")
    public <K, V> Cache<K, V> getCache(String cacheName) {
        return (Cache<K, V>) find(cacheName);
    }

    @Override
    public Iterable<String> getCacheNames() {
        checkOpen();
        synchronized (caches) {
            return Collections.unmodifiableList(new ArrayList<>(caches.keySet()));
        }
    }

    @Override
    public void destroyCache(String cacheName) {
        JcacheCache<?, ?> cache = find(cacheName);
        if (cache != null) {
            cache.close();
        }
    }

    @Override
    public void enableManagement(String cacheName, boolean enabled) {
        JcacheCache<?, ?> cache = find(cacheName);
        if (cache != null) {
            cache.configuration.setManagementEnabled(enabled);
            Management.showConfiguration(cache, enabled);
        }
    }

    @Override
    public void enableStatistics(String cacheName, boolean enabled) {
        JcacheCache<?, ?> cache = find(cacheName);
        if (cache != null) {
            cache.setStatistics(enabled);
            Management.showStatistics(cache, enabled);
        }
    }

    // Closing.

    /** A cache is closed: its name is free, and its beans are gone. */
    void closed(JcacheCache<?, ?> cache) {
        synchronized (caches) {
            caches.remove(cache.getName(), cache);
            names.remove(cache.getName());
        }
        Management.showStatistics(cache, false);
        Management.showConfiguration(cache, false);
    }

    @Override
    public void close() {
        List<JcacheCache<?, ?>> all;
        synchronized (caches) {
            if (isClosed) {
                return;
            }
            isClosed = true;
            all = new ArrayList<>(caches.values());
        }
        provider.closed(this);
        all.forEach(cache -> Closing.quietly(cache));
        unmade.forEach(name -> Log.warning("there are properties " + "cadwrelch." + name
                + ".*, and no cache " + name + " was made", null));
    }

    @Override
    public boolean isClosed() {
        synchronized (caches) {
            return isClosed;
        }
    }

    @Override
    public <T> T unwrap(Class<T> type) {
        return Unwrap.as(this, type);
    }
}
