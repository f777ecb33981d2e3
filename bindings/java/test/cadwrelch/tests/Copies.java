package cadwrelch.tests;

import static cadwrelch.tests.Check.equal;
import static cadwrelch.tests.Check.holds;
import static cadwrelch.tests.Check.same;
import static cadwrelch.tests.Check.thrown;

import java.io.File;
import java.net.URI;
import java.net.URL;
import java.net.URLClassLoader;
import java.nio.file.Files;
import java.nio.file.Path;
import java.time.Instant;
import java.time.LocalDate;
import java.util.List;
import java.util.Properties;
import java.util.concurrent.atomic.AtomicInteger;
import java.util.function.UnaryOperator;
import javax.cache.Cache;
import javax.cache.CacheException;
import javax.cache.CacheManager;
import javax.cache.Caching;
import javax.cache.configuration.MutableConfiguration;
import javax.tools.ToolProvider;
import cadwrelch.jcache.CadwrelchConfiguration;
import cadwrelch.tests.Check.Test;

/** How a cache that stores by value copies, if not by serialization: not at all, or as it is told. */
final class Copies {
    private Copies() {}

    /** A value, and a key, that can be changed, and that serialization can't copy. */
    public static final class Box {
        int content;

        Box(int content) {
            this.content = content;
        }

        @Override
        public boolean equals(Object other) {
            return other instanceof Box && ((Box) other).content == content;
        }

        @Override
        public int hashCode() {
            return content;
        }
    }

    private static final AtomicInteger copies = new AtomicInteger();

    /** Copies boxes. */
    public static final class BoxCopier implements UnaryOperator<Box> {
        @Override
        public Box apply(Box it) {
            copies.incrementAndGet();
            return it.content < 0 ? null : new Box(it.content);
        }
    }

    private static void checkCopies(String rule, Cache<Box, Box> cache) {
        Box key = new Box(1);
        Box value = new Box(2);
        copies.set(0);
        cache.put(key, value);
        key.content = 7;
        value.content = 7;
        Box found = cache.get(new Box(1));
        equal(rule + ": what is changed after its put isn't changed in the cache", 2, found.content);
        found.content = 9;
        equal("nor is what was handed out", 2, cache.get(new Box(1)).content);
        equal("by a copy of the key and three of the value", 4, copies.get());
        holds("values are compared by their own equals", cache.replace(new Box(1), new Box(2), new Box(3)));
        cache.close();
    }

    @Test
    static void copiesAsItIsTold() {
        checkCopies("by a configuration", Caches.create(new CadwrelchConfiguration<Box, Box>()
                .setCopierFactory(BoxCopier::new)
                .setKeyCopierFactory(BoxCopier::new)));
        Properties properties = new Properties();
        properties.setProperty("cadwrelch.boxes.copier", BoxCopier.class.getName());
        properties.setProperty("cadwrelch.boxes.key_copier", BoxCopier.class.getName());
        checkCopies("by properties", Caches.manager(properties).createCache("boxes", new MutableConfiguration<>()));
    }

    @Test
    static void aCopierThatFails() {
        Cache<Integer, Box> cache = Caches.create(
                new CadwrelchConfiguration<Integer, Box>().setCopierFactory(BoxCopier::new));
        CacheException none = thrown("a copier that answers null is CacheException", CacheException.class,
                () -> cache.put(12, new Box(-1)));
        holds("which names copier, key and cache: " + none, none.getMessage().contains(BoxCopier.class.getName())
                && none.getMessage().contains("key 12") && none.getMessage().contains(cache.getName()));
        holds("and nothing is cached", !cache.containsKey(12));
        RuntimeException own = new IllegalStateException("its own");
        Cache<Integer, Box> failing = Caches.create(new CadwrelchConfiguration<Integer, Box>().setCopierFactory(() -> it -> {
            throw own;
        }));
        same("what a copier throws is thrown", own, thrown("by put", RuntimeException.class,
                () -> failing.put(1, new Box(1))));
        holds("and nothing is cached", !failing.containsKey(1));
        thrown("a copier of a cache by reference is CacheException", CacheException.class,
                () -> Caches.create(new CadwrelchConfiguration<Integer, Box>()
                        .setCopierFactory(BoxCopier::new)
                        .setStoreByValue(false)));
    }

    @Test
    static void whatCannotChangeIsNotCopied() {
        Cache<Object, Object> cache = Caches.create(new MutableConfiguration<>());
        for (Object it : List.of(Instant.ofEpochSecond(5), LocalDate.of(2020, 2, 2), new String("text"))) {
            cache.put(1, it);
            same("a " + it.getClass().getName() + " is kept itself, by value, too", it, cache.get(1));
        }
    }

    private static final String RECORDS = "import java.util.List;"
            + "public class Records {"
            + "  public record Account(long id, String owner, Account parent, java.time.Instant since) {}"
            + "  public record Shelf(List<String> books) implements java.io.Serializable {}"
            + "  public static Object account() {"
            + "    return new Account(1, \"ann\", new Account(0, \"bob\", null, null), java.time.Instant.EPOCH); }"
            + "  public static Object shelf() { return new Shelf(new java.util.ArrayList<>(List.of(\"a\"))); }"
            + "  public static Object copied(Object shelf) { return ((Shelf) shelf).books(); }"
            + "}";

    @Test
    static void recordsOfImmutableComponentsAreNotCopied() throws Exception {
        if (Runtime.version().feature() < 16) {
            return;
        }
        Path folder = Files.createTempDirectory("records");
        Path source = folder.resolve("Records.java");
        Files.writeString(source, RECORDS);
        equal("records compile", 0, ToolProvider.getSystemJavaCompiler().run(null, null, null, source.toString()));
        try (URLClassLoader loader = new URLClassLoader(new URL[] {folder.toUri().toURL()})) {
            Class<?> records = loader.loadClass("Records");
            CacheManager manager = Caching.getCachingProvider().getCacheManager(URI.create("of-records"), loader);
            Cache<Object, Object> cache = Caches.create(manager, new MutableConfiguration<>());
            Object account = records.getMethod("account").invoke(null);
            cache.put(account, account);
            same("a record of immutable components is kept itself, by value, too", account, cache.get(account));
            Object shelf = records.getMethod("shelf").invoke(null);
            cache.put(1, shelf);
            holds("one that has a list is copied", cache.get(1) != shelf && cache.get(1).equals(shelf));
            manager.close();
            checkOfAnotherLoader(records);
        } finally {
            for (File file : folder.toFile().listFiles()) {
                file.delete();
            }
            Files.delete(folder);
        }
    }

    /** A value of a class that the manager's class loader doesn't have. */
    private static void checkOfAnotherLoader(Class<?> records) throws Exception {
        Cache<Integer, Object> cache = Caches.create(new MutableConfiguration<>());
        cache.put(1, records.getMethod("shelf").invoke(null));
        CacheException refused = thrown("a value of a class that the manager's class loader doesn't have is CacheException",
                CacheException.class, () -> cache.get(1));
        holds("which names the loader, the way out and the cache: " + refused, refused.getMessage().contains("ClassLoader")
                && refused.getMessage().contains("getCacheManager(uri, classLoader)")
                && refused.getMessage().contains(cache.getName()));
        cache.close();
    }
}
