package cadwrelch.jcache;

import java.net.URI;
import java.util.ArrayList;
import java.util.HashMap;
import java.util.List;
import java.util.Map;
import java.util.Properties;
import java.util.WeakHashMap;
import javax.cache.CacheException;
import javax.cache.CacheManager;
import javax.cache.configuration.OptionalFeature;
import javax.cache.spi.CachingProvider;

/**
 * A provider of {@code javax.cache} whose caches are stripes of a proved core (JSR 107, "CachingProviders"). Everything
 * above the core is ordinary Java, judged by tests.
 *
 * <p>A manager's properties say how its caches are made; a system property of the same name is the default of each.
 * {@code cadwrelch.NAME.capacity}, and so on, is of the cache NAME alone, and comes first; before all of them comes what
 * a {@link CadwrelchConfiguration} sets.
 *
 * <ul> <li>{@code cadwrelch.capacity}, by default 65,536: the entries that a whole cache has room for, up to 4,096 for
 * each stripe; <li>{@code cadwrelch.stripes}, 1 to 4,096, by default as many as the capacity wants, one for up to 511
 * entries and 16 from 4,096 on: calls at keys of different stripes share no lock; <li>{@code cadwrelch.history}, 16 to
 * 65,536, by default 260: the events that a stripe's history has room for. A call under way needs three, and one that
 * has joined a load one: 260 are enough for as many as there can be; <li>{@code cadwrelch.refresh_after}, as {@code
 * 30s}, a number and one of ms, s, m, h and d; by default never: the age at which a get has an entry loaded again, in
 * the background; <li>{@code cadwrelch.absent_for}, such a time; by default none: for how long it is remembered that
 * the loader has found nothing; <li>{@code cadwrelch.copier} and {@code cadwrelch.key_copier}, the names of public
 * classes that are a {@link java.util.function.UnaryOperator}: what copies values and keys, in place of serialization;
 * <li>{@code cadwrelch.bytes}, true or false, by default false: whether the core has the bytes of keys and values, in
 * caches whose entries neither expire nor age and whose types are of String, Integer, Long and UUID. Then a key has 1 to
 * 32 bytes, and a value 0 to 256; <li>{@code cadwrelch.record}: the folder to which all events of the core are written,
 * for {@link Records}; <li>{@code cadwrelch.library}, of no single cache: the path of the native library, if it isn't
 * to be the jar's. The first cache of the virtual machine loads it. </ul>
 */
public final class JcacheProvider implements CachingProvider {
    private static final URI DEFAULT_URI = URI.create("cadwrelch:default");

    private final Map<ClassLoader, Map<URI, JcacheManager>> managers = new WeakHashMap<>();

    /** A provider without managers. {@link javax.cache.Caching#getCachingProvider()} makes one. */
    public JcacheProvider() {
        // Public for the service loader.
    }

    /**
     * The manager of a URI and a class loader, which is made if there is none.
     *
     * @param uri its name; null: the default URI
     * @param classLoader the class loader of its caches' values; null: the provider's
     * @param properties its properties, if it is made; null: the default ones
     * @throws CacheException if a property {@code cadwrelch.*}, also of the system, is unknown or out of its limits
     */
    @Override
    public synchronized CacheManager getCacheManager(URI uri, ClassLoader classLoader, Properties properties) {
        URI at = uri == null ? getDefaultURI() : uri;
        ClassLoader by = classLoader == null ? getDefaultClassLoader() : classLoader;
        Map<URI, JcacheManager> here = managers.computeIfAbsent(by, it -> new HashMap<>());
        JcacheManager manager = here.get(at);
        if (manager == null) {
            manager = new JcacheManager(this, at, by, properties == null ? getDefaultProperties() : properties);
            here.put(at, manager);
        }
        return manager;
    }

    @Override
    public ClassLoader getDefaultClassLoader() {
        return getClass().getClassLoader();
    }

    @Override
    public URI getDefaultURI() {
        return DEFAULT_URI;
    }

    /** How caches are made unless a manager's properties say otherwise. */
    @Override
    public Properties getDefaultProperties() {
        return Settings.defaults();
    }

    @Override
    public CacheManager getCacheManager(URI uri, ClassLoader classLoader) {
        return getCacheManager(uri, classLoader, null);
    }

    @Override
    public CacheManager getCacheManager() {
        return getCacheManager(null, null, null);
    }

    /** The managers of a class loader, or of all if it is null, of a URI, or of all if it is null. */
    private synchronized List<JcacheManager> those(URI uri, ClassLoader classLoader) {
        List<JcacheManager> those = new ArrayList<>();
        managers.forEach((by, here) -> here.forEach((at, manager) -> {
            if ((classLoader == null || classLoader == by) && (uri == null || uri.equals(at))) {
                those.add(manager);
            }
        }));
        return those;
    }

    @Override
    public void close() {
        those(null, null).forEach(JcacheManager::close);
    }

    @Override
    public void close(ClassLoader classLoader) {
        those(null, classLoader == null ? getDefaultClassLoader() : classLoader).forEach(JcacheManager::close);
    }

    @Override
    public void close(URI uri, ClassLoader classLoader) {
        URI at = uri == null ? getDefaultURI() : uri;
        those(at, classLoader == null ? getDefaultClassLoader() : classLoader).forEach(JcacheManager::close);
    }

    @Override
    public boolean isSupported(OptionalFeature optionalFeature) {
        return optionalFeature == OptionalFeature.STORE_BY_REFERENCE;
    }

    /** A manager is closed: the next one of its URI and class loader is a new one. */
    synchronized void closed(JcacheManager manager) {
        managers.values().forEach(here -> here.remove(manager.getURI(), manager));
    }
}
