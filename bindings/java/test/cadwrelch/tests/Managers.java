package cadwrelch.tests;

import static cadwrelch.tests.Check.equal;
import static cadwrelch.tests.Check.holds;
import static cadwrelch.tests.Check.same;
import static cadwrelch.tests.Check.thrown;

import java.net.URI;
import java.net.URL;
import java.net.URLClassLoader;
import java.util.ArrayList;
import java.util.Collections;
import java.util.Iterator;
import java.util.LinkedHashMap;
import java.util.List;
import java.util.Map;
import java.util.Properties;
import java.util.Set;
import javax.cache.Cache;
import javax.cache.CacheException;
import javax.cache.CacheManager;
import javax.cache.Caching;
import javax.cache.configuration.CacheEntryListenerConfiguration;
import javax.cache.configuration.CompleteConfiguration;
import javax.cache.configuration.Configuration;
import javax.cache.configuration.MutableCacheEntryListenerConfiguration;
import javax.cache.configuration.MutableConfiguration;
import javax.cache.configuration.OptionalFeature;
import javax.cache.event.CacheEntryCreatedListener;
import javax.cache.spi.CachingProvider;
import cadwrelch.tests.Check.Test;

/** The provider, its managers, and what they answer to a wrong configuration. */
final class Managers {
    private Managers() {}

    private static final CachingProvider PROVIDER = Caching.getCachingProvider();

    private static CacheManager named(String uri) {
        return PROVIDER.getCacheManager(URI.create(uri), PROVIDER.getDefaultClassLoader());
    }

    @Test
    static void theProviderIsFound() {
        same("Caching finds one provider", PROVIDER, Caching.getCachingProvider());
        same("also by its name", PROVIDER, Caching.getCachingProvider(PROVIDER.getClass().getName()));
        holds("store by reference is supported", PROVIDER.isSupported(OptionalFeature.STORE_BY_REFERENCE));
        thrown("a provider that isn't there is CacheException", CacheException.class,
                () -> Caching.getCachingProvider("no.Provider"));
    }

    @Test
    static void managersAreByUriAndClassLoader() throws Exception {
        CacheManager manager = named("one");
        same("a URI and a class loader have one manager", manager, named("one"));
        holds("another URI another one", manager != named("other"));
        try (URLClassLoader loader = new URLClassLoader(new URL[0])) {
            CacheManager apart = PROVIDER.getCacheManager(URI.create("one"), loader);
            holds("and another class loader, too", apart != manager);
            same("which it says", loader, apart.getClassLoader());
            PROVIDER.close(loader);
            holds("close(loader) closes its managers alone", apart.isClosed() && !manager.isClosed());
        }
        equal("a manager says its URI", URI.create("one"), manager.getURI());
        same("and its provider", PROVIDER, manager.getCachingProvider());
        same("null for a URI and a class loader are the defaults",
                PROVIDER.getCacheManager(PROVIDER.getDefaultURI(), PROVIDER.getDefaultClassLoader()),
                PROVIDER.getCacheManager(null, null));
        PROVIDER.close(URI.create("one"), PROVIDER.getDefaultClassLoader());
        holds("close(uri, loader) closes one", manager.isClosed() && !named("other").isClosed());
        named("other").close();
    }

    @Test
    static void managersHaveTheirProperties() {
        Properties properties = new Properties();
        properties.setProperty("cadwrelch.capacity", "77");
        CacheManager manager = PROVIDER.getCacheManager(URI.create("properties"), null, properties);
        equal("a manager has the properties that it was made with", "77",
                manager.getProperties().getProperty("cadwrelch.capacity"));
        manager.close();
    }

    @Test
    static void aClosedManagerRefuses() {
        CacheManager manager = named("closed");
        Cache<String, String> cache = manager.createCache("cache", new MutableConfiguration<>());
        manager.close();
        holds("a manager that is closed says so", manager.isClosed());
        holds("and has closed its caches", cache.isClosed());
        manager.close();
        Map<String, Check.Body> uses = new LinkedHashMap<>();
        uses.put("createCache", () -> manager.createCache("a", new MutableConfiguration<>()));
        uses.put("getCache(name)", () -> manager.getCache("cache"));
        uses.put("getCache(name, types)", () -> manager.getCache("cache", String.class, String.class));
        uses.put("getCacheNames", manager::getCacheNames);
        uses.put("destroyCache", () -> manager.destroyCache("cache"));
        uses.put("enableStatistics", () -> manager.enableStatistics("cache", true));
        uses.put("enableManagement", () -> manager.enableManagement("cache", true));
        uses.forEach((name, use) ->
                thrown(name + " of a closed manager is IllegalStateException", IllegalStateException.class, use));
        holds("the provider makes another one then", named("closed") != manager);
        named("closed").close();
    }

    @Test
    static void managersRefuseNull() {
        CacheManager manager = named("null");
        Map<String, Check.Body> uses = new LinkedHashMap<>();
        uses.put("createCache(null, ..)", () -> manager.createCache(null, new MutableConfiguration<>()));
        uses.put("createCache(name, null)", () -> manager.createCache("a", null));
        uses.put("getCache(null)", () -> manager.getCache(null));
        uses.put("getCache(null, types)", () -> manager.getCache(null, String.class, String.class));
        uses.put("getCache(name, null, type)", () -> manager.getCache("a", null, String.class));
        uses.put("getCache(name, type, null)", () -> manager.getCache("a", String.class, null));
        uses.put("destroyCache(null)", () -> manager.destroyCache(null));
        uses.put("enableStatistics(null, ..)", () -> manager.enableStatistics(null, true));
        uses.put("enableManagement(null, ..)", () -> manager.enableManagement(null, true));
        uses.forEach((name, use) -> thrown(name + " is NullPointerException", NullPointerException.class, use));
        equal("getCache of a name that isn't there is null", null, manager.getCache("none"));
        equal("also with types", null, manager.getCache("none", String.class, String.class));
        manager.close();
    }

    @Test
    static void cachesByName() {
        CacheManager manager = named("names");
        Cache<Integer, String> cache =
                manager.createCache("a", new MutableConfiguration<Integer, String>()
                        .setTypes(Integer.class, String.class));
        equal("a cache says its name", "a", cache.getName());
        same("and its manager", manager, cache.getCacheManager());
        same("getCache finds it", cache, manager.getCache("a"));
        same("also by its types", cache, manager.getCache("a", Integer.class, String.class));
        thrown("other types are ClassCastException", ClassCastException.class,
                () -> manager.getCache("a", String.class, String.class));
        thrown("a second cache of a name is CacheException", CacheException.class,
                () -> manager.createCache("a", new MutableConfiguration<>()));
        manager.createCache("b", new MutableConfiguration<>());
        equal("getCacheNames has each name", Set.of("a", "b"), names(manager));
        Iterator<String> names = manager.getCacheNames().iterator();
        names.next();
        thrown("which can't be removed by it", UnsupportedOperationException.class, names::remove);
        manager.destroyCache("a");
        holds("destroyCache closes a cache", cache.isClosed());
        equal("and forgets it", null, manager.getCache("a"));
        manager.destroyCache("a");
        manager.createCache("a", new MutableConfiguration<>());
        manager.getCache("b").close();
        equal("a cache that is closed is forgotten, too", Set.of("a"), names(manager));
        manager.close();
    }

    private static Set<String> names(CacheManager manager) {
        return Set.copyOf(listOf(manager.getCacheNames()));
    }

    @Test
    @SuppressWarnings("unchecked")
    static void configurationsAreCopied() {
        MutableConfiguration<Long, String> configuration = new MutableConfiguration<Long, String>()
                .setTypes(Long.class, String.class);
        Cache<Long, String> cache = Caches.create(configuration);
        configuration.setStatisticsEnabled(true);
        CompleteConfiguration<Long, String> own = cache.getConfiguration(CompleteConfiguration.class);
        holds("a configuration that is changed later changes no cache", !own.isStatisticsEnabled());
        equal("a cache has the types that it was made with", Long.class, own.getKeyType());
        equal("both", String.class, own.getValueType());
        holds("store by value is the default", own.isStoreByValue());
        holds("and neither read-through nor write-through", !own.isReadThrough() && !own.isWriteThrough());
        thrown("a configuration of another class is IllegalArgumentException", IllegalArgumentException.class,
                () -> cache.getConfiguration(OtherConfiguration.class));
    }

    /** A configuration that no cache has. */
    private interface OtherConfiguration extends CompleteConfiguration<Long, String> {}

    @Test
    static void theSimplestConfigurationWillDo() {
        Cache<Long, String> cache = Caches.manager().createCache("simplest", new Configuration<Long, String>() {
            private static final long serialVersionUID = 1;

            @Override
            public Class<Long> getKeyType() {
                return Long.class;
            }

            @Override
            public Class<String> getValueType() {
                return String.class;
            }

            @Override
            public boolean isStoreByValue() {
                return true;
            }
        });
        cache.put(1L, "a");
        equal("a cache may be made of types alone", "a", cache.get(1L));
        cache.close();
    }

    @Test
    static void optionsNeedTheirFactories() {
        thrown("read-through without a loader is IllegalArgumentException", IllegalArgumentException.class,
                () -> Caches.create(new MutableConfiguration<>().setReadThrough(true)));
        thrown("write-through without a writer is IllegalArgumentException", IllegalArgumentException.class,
                () -> Caches.create(new MutableConfiguration<>().setWriteThrough(true)));
    }

    @Test
    static void unwraps() {
        CacheManager manager = Caches.manager();
        same("unwrap(CacheManager.class) is the manager", manager, manager.unwrap(CacheManager.class));
        thrown("of another class it is IllegalArgumentException", IllegalArgumentException.class,
                () -> manager.unwrap(Integer.class));
    }

    @Test
    static void wrongPropertiesAreNamed() {
        checkRefused("stripes", "0", "1 to 4096");
        checkRefused("stripes", "4097", "1 to 4096");
        checkRefused("capacity", "0", "1 to 16777216");
        checkRefused("capacity", "16777217", "1 to 16777216");
        checkRefused("capacity", "many", "1 to 16777216");
        checkRefused("history", "15", "16 to 65536");
        checkRefused("history", "65537", "16 to 65536");
        checkRefused("stripe", "1", "cadwrelch.stripes");
        checkRefused("refresh_after", "10", "one of ms, s, m, h and d");
        checkRefused("absent_for", "0s", "from 1 to");
        checkRefused("bytes", "yes", "true or false");
        checkRefused("titles.capacity", "many", "1 to 16777216");
        checkRefused("titles.capacty", "1", "cadwrelch.NAME.capacity");
        checkRefused("copier", "no.Copier", "UnaryOperator");
        checkRefused("copier", String.class.getName(), "UnaryOperator");
        checkRefused("stripes", 16, "a String");
    }

    /** That a property of this value is refused, with its name and its limits in the text. */
    private static void checkRefused(String property, Object value, String limits) {
        Properties properties = new Properties();
        properties.put("cadwrelch." + property, value);
        CacheException refused = thrown(property + " of " + value + " is CacheException", CacheException.class,
                () -> Caches.create(Caches.manager(properties), new MutableConfiguration<>()));
        String text = String.valueOf(refused);
        holds("whose text names it, and its limits: " + text,
                text.contains("cadwrelch." + property) && text.contains(limits));
    }

    @Test
    static void propertiesAtTheirLimits() {
        checkTaken(1, 1, 16);
        checkTaken(4096, 4096, 16);
        checkTaken(1, 4096, 16);
        checkTaken(1, 1, 65536);
    }

    private static void checkTaken(int stripes, int capacity, int history) {
        Properties properties = new Properties();
        properties.setProperty("cadwrelch.stripes", String.valueOf(stripes));
        properties.setProperty("cadwrelch.capacity", String.valueOf(capacity));
        properties.setProperty("cadwrelch.history", String.valueOf(history));
        CacheManager manager = Caches.manager(properties);
        Cache<Integer, Integer> cache = Caches.create(manager, new MutableConfiguration<>());
        cache.put(1, 2);
        equal(stripes + " stripes of " + capacity + " entries, with histories of " + history, 2, cache.get(1));
        manager.close();
    }

    @Test
    static void theDefaultPropertiesAreWhatCachesHave() {
        Properties defaults = PROVIDER.getDefaultProperties();
        equal("the default properties say how many events a history has", "260",
                defaults.getProperty("cadwrelch.history"));
        defaults.setProperty("cadwrelch.stripes", "1");
        CacheManager manager = Caches.manager(defaults);
        equal("and may be added to", "260", manager.getProperties().getProperty("cadwrelch.history"));
        manager.close();
    }

    @Test
    static void oneOfManyThreadsMakesACache() throws Exception {
        CacheManager manager = named("race");
        for (int i = 0; i < 50; i++) {
            String name = "cache" + i;
            List<Background.Work<Boolean>> all = Background.startMany(4, () -> {
                try {
                    manager.createCache(name, new MutableConfiguration<>());
                    return true;
                } catch (CacheException e) {
                    return false;
                }
            });
            equal("of many threads that make a cache of one name one makes it", 1,
                    Collections.frequency(Background.results(all), true));
        }
        manager.close();
    }

    @Test
    static void cachesByCachingItself() {
        Cache<Integer, String> cache = PROVIDER.getCacheManager()
                .createCache("by caching", new MutableConfiguration<Integer, String>()
                        .setTypes(Integer.class, String.class));
        same("Caching.getCache finds a cache of the default manager", cache,
                Caching.getCache("by caching", Integer.class, String.class));
        thrown("other types are ClassCastException", ClassCastException.class,
                () -> Caching.getCache("by caching", String.class, String.class));
        equal("a name that isn't there is null", null, Caching.getCache("no such cache", Integer.class, String.class));
        cache.close();
    }

    @Test
    static void valuesMayBeOfSubtypes() {
        Cache<Number, Number> cache =
                Caches.create(new MutableConfiguration<Number, Number>().setTypes(Number.class, Number.class));
        cache.put(1, 2L);
        equal("a cache of a type takes its subtypes", 2L, cache.get(1));
        equal("which are other keys if they aren't equal", null, cache.get(1L));
    }

    @Test
    @SuppressWarnings("unchecked")
    static void whatIsEnabledLaterIsInTheConfiguration() {
        CacheManager manager = named("enabled");
        Cache<Integer, String> cache = manager.createCache("a", new MutableConfiguration<>());
        manager.enableStatistics("a", true);
        manager.enableManagement("a", true);
        CompleteConfiguration<Integer, String> own = cache.getConfiguration(CompleteConfiguration.class);
        holds("the configuration says what was enabled since", own.isStatisticsEnabled() && own.isManagementEnabled());
        CacheEntryListenerConfiguration<Integer, String> listener = new MutableCacheEntryListenerConfiguration<>(
                () -> (CacheEntryCreatedListener<Integer, String>) events -> {}, null, false, true);
        cache.registerCacheEntryListener(listener);
        own = cache.getConfiguration(CompleteConfiguration.class);
        equal("and which listeners were registered", List.of(listener),
                listOf(own.getCacheEntryListenerConfigurations()));
        cache.deregisterCacheEntryListener(listener);
        own = cache.getConfiguration(CompleteConfiguration.class);
        equal("or deregistered", List.of(), listOf(own.getCacheEntryListenerConfigurations()));
        manager.close();
    }

    private static <T> List<T> listOf(Iterable<T> all) {
        List<T> list = new ArrayList<>();
        all.forEach(list::add);
        return list;
    }

    @Test
    static void closingTheProviderClosesAll() {
        CacheManager manager = named("all");
        Cache<String, String> cache = manager.createCache("cache", new MutableConfiguration<>());
        PROVIDER.close();
        holds("a provider that is closed closes its managers, and they their caches",
                manager.isClosed() && cache.isClosed());
        holds("and makes new ones", named("all") != manager && !named("all").isClosed());
        PROVIDER.close();
        PROVIDER.close();
    }

    /** The calls to which Spring Boot's spring.cache.jcache.provider and spring.cache.cache-names lead. */
    @Test
    static void asSpringBootCallsIt() {
        CacheManager manager = Caching.getCachingProvider("cadwrelch.jcache.JcacheProvider")
                .getCacheManager(null, Managers.class.getClassLoader(), new Properties());
        Cache<Object, Object> cache = manager.createCache("of Boot", new MutableConfiguration<>());
        cache.put("key", "value");
        equal("its manager and its caches are there", "value", manager.getCache("of Boot").get("key"));
        manager.destroyCache("of Boot");
    }
}
