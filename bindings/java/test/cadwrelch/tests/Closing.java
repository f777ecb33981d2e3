package cadwrelch.tests;

import static cadwrelch.tests.Check.equal;
import static cadwrelch.tests.Check.holds;
import static cadwrelch.tests.Check.thrown;

import java.io.Closeable;
import java.io.IOException;
import java.net.URI;
import java.net.URL;
import java.net.URLClassLoader;
import java.nio.file.Files;
import java.nio.file.Path;
import java.util.List;
import java.util.Map;
import java.util.Set;
import java.util.concurrent.atomic.AtomicInteger;
import java.util.function.Consumer;
import javax.cache.Cache;
import javax.cache.CacheManager;
import javax.cache.Caching;
import javax.cache.configuration.MutableCacheEntryListenerConfiguration;
import javax.cache.configuration.MutableConfiguration;
import javax.cache.event.CacheEntryCreatedListener;
import javax.cache.event.CacheEntryEvent;
import cadwrelch.tests.Background.Work;
import cadwrelch.tests.Check.Test;

/**
 * Caches that are closed, also with calls under way, and what they leave: nothing. All of the heap is to be in memory
 * from the start (-Xms as -Xmx, AlwaysPreTouch), so that what grows is beside it.
 */
final class Closing {
    private Closing() {}

    /** Far less than 200 caches take, and more than a virtual machine needs anew. */
    private static final int LEAK_KILOBYTES = 60_000;

    @Test
    static void callsUnderWayEnd() throws Exception {
        Store<Integer, String> store = new Store<>();
        store.map.put(77, "late");
        Cache<Integer, String> cache = Caches.through(store, Integer.class, String.class);
        Store.Gate gate = store.shut();
        Work<String> loading = Background.start(() -> cache.get(77));
        gate.awaitCall();
        Work<String> joined = Background.start(() -> cache.get(77));
        joined.awaitSleep();
        Work<Void> waiting = Background.start(() -> cache.put(77, "new"));
        waiting.awaitSleep();
        Background.start(cache::close).result();
        holds("close waits for nobody", cache.isClosed() && !loading.isDone());
        thrown("a call that waits to begin is IllegalStateException", IllegalStateException.class, waiting::result);
        thrown("and so is a later one", IllegalStateException.class, () -> cache.get(77));
        store.open();
        equal("a call under way ends", "late", loading.result());
        equal("and so does one that has joined its load", "late", joined.result());
    }

    @Test
    static void whatItWasGivenIsClosed() {
        Store<Integer, String> store = new Store<>();
        Cache<Integer, String> cache = Caches.through(store, Integer.class, String.class);
        cache.close();
        holds("a loader and a writer that are Closeable are closed", store.closed);
        cache.close();
        holds("a second close does nothing", cache.isClosed());
    }

    @Test
    static void whatACacheThatCannotBeMadeWasGivenIsClosed() {
        checkClosed("the factory of its writer", it -> it.setCacheWriterFactory(Closing::broken));
        checkClosed("that of a listener", it -> it.addCacheEntryListenerConfiguration(
                new MutableCacheEntryListenerConfiguration<>(Closing::broken, null, false, true)));
    }

    private static <T> T broken() {
        throw new IllegalStateException("broken");
    }

    private static void checkClosed(String what, Consumer<MutableConfiguration<Integer, String>> breaking) {
        Store<Integer, String> store = new Store<>();
        MutableConfiguration<Integer, String> configuration = Caches.over(store);
        breaking.accept(configuration);
        thrown(what + " throws, and so does createCache", IllegalStateException.class,
                () -> Caches.create(configuration));
        holds("which closes what was made before it", store.closed);
    }

    /** A listener that can't be closed, as its classes are gone. */
    private static final class Undeployed implements CacheEntryCreatedListener<Integer, String>, Closeable {
        @Override
        public void onCreated(Iterable<CacheEntryEvent<? extends Integer, ? extends String>> events) {}

        @Override
        public void close() {
            throw new NoClassDefFoundError("gone");
        }
    }

    @Test
    static void aCloseThatFailsStopsNoOther() {
        CacheManager manager = Caches.manager(1, 10);
        MutableConfiguration<Integer, String> configuration = new MutableConfiguration<Integer, String>()
                .addCacheEntryListenerConfiguration(new MutableCacheEntryListenerConfiguration<>(Undeployed::new, null,
                        false, true));
        List<Cache<Integer, String>> all =
                List.of(manager.createCache("one", configuration), manager.createCache("two", configuration));
        manager.close();
        holds("a manager closes each of its caches, also if what they were given can't be closed",
                all.stream().allMatch(Cache::isClosed));
    }

    @Test
    static void aLoaderMayCloseItsCache() throws Exception {
        Store<Integer, String> store = new Store<>();
        Cache<Integer, String> cache = Caches.through(store, Integer.class, String.class);
        Work<String> call = Background.start(() -> cache.invoke(1, (entry, arguments) -> {
            cache.close();
            return "closed";
        }));
        equal("a processor may close its cache", "closed", call.result());
        holds("which is closed then", cache.isClosed());
    }

    @Test
    static void iteratorsOfAClosedCacheRefuse() {
        Cache<Integer, String> cache = Caches.plain(Integer.class, String.class);
        cache.put(1, "a");
        var each = cache.iterator();
        cache.close();
        thrown("hasNext() of a closed cache's iterator is IllegalStateException", IllegalStateException.class,
                each::hasNext);
        thrown("and next()", IllegalStateException.class, each::next);
    }

    @Test
    static void aCacheOfTheSameNameIsEmpty() {
        CacheManager manager = Caches.manager(1, 10);
        Cache<Integer, String> first = manager.createCache("again", new MutableConfiguration<>());
        first.put(1, "a");
        first.close();
        Cache<Integer, String> second = manager.createCache("again", new MutableConfiguration<>());
        holds("a cache that is made under a closed one's name is another one, and empty",
                second != first && !second.containsKey(1));
        manager.close();
    }

    /** How many kilobytes of this process are in memory. */
    private static long residentKilobytes() throws IOException {
        return Files.readAllLines(Path.of("/proc/self/status")).stream()
                .filter(line -> line.startsWith("VmRSS"))
                .mapToLong(line -> Long.parseLong(line.replaceAll("\\D", "")))
                .findFirst()
                .orElseThrow();
    }

    /** Opens a cache, lets threads call it, and closes it meanwhile. */
    private static void live(CacheManager manager, AtomicInteger ended, AtomicInteger refused) throws Exception {
        Store<Integer, Integer> store = new Store<>();
        for (int key = 0; key < 20; key++) {
            store.map.put(key, key);
        }
        Cache<Integer, Integer> cache = manager.createCache("lives", Caches.over(store));
        List<Work<Boolean>> all = Background.startMany(4, () -> {
            try {
                for (int i = 0; i < 200; i++) {
                    if (cache.get(i % 20) != i % 20) {
                        throw new AssertionError("a wrong value at " + i % 20);
                    }
                }
                ended.incrementAndGet();
                return true;
            } catch (IllegalStateException e) {
                refused.incrementAndGet();
                return false;
            }
        });
        Thread.sleep(0, 200_000);
        cache.close();
        Background.results(all);
    }

    /** Calls of all kinds, of the keys around one. */
    private static void callAllKinds(Cache<Integer, Integer> cache, int key) {
        Set<Integer> keys = Set.of(key, key + 1, key + 2);
        cache.getAll(keys);
        cache.putAll(Map.of(key, 1, key + 1, 2));
        cache.invokeAll(keys, (entry, arguments) -> {
            entry.setValue(3);
            return entry.getKey();
        });
        cache.loadAll(keys, true, null);
        cache.forEach(entry -> {});
        cache.replace(key, 3, 4);
        cache.removeAll(keys);
    }

    @Test
    static void callsOfAllKindsEndWhenTheirCacheIsClosed() throws Exception {
        CacheManager manager = Caches.manager(2, 100);
        int ended = 0;
        for (int i = 0; i < 40; i++) {
            Cache<Integer, Integer> cache = manager.createCache("kinds", Caches.over(new Store<>()));
            List<Work<Boolean>> all = Background.startMany(4, () -> {
                try {
                    for (int key = 0;; key = (key + 1) % 10) {
                        callAllKinds(cache, key);
                    }
                } catch (IllegalStateException e) {
                    return cache.isClosed();
                }
            });
            Thread.sleep(5);
            cache.close();
            for (boolean wasClosed : Background.results(all)) {
                ended += wasClosed ? 1 : 0;
            }
        }
        equal("calls of all kinds end, by IllegalStateException, when their cache is closed", 160, ended);
        manager.close();
    }

    @Test
    static void memoryOfCachesThatNobodyClosesIsFreed() throws Exception {
        // The allocator's own room has its size then.
        forgetMany(200);
        long before = residentKilobytes();
        forgetMany(200);
        long grown = residentKilobytes() - before;
        System.out.println(grown + " kB more after 200 caches that nobody closed");
        holds("caches that nobody can reach leave no memory: " + grown + " kB", grown < LEAK_KILOBYTES);
    }

    private static void forgetMany(int caches) throws InterruptedException {
        for (int i = 1; i <= caches; i++) {
            forget();
            if (i % 10 == 0) {
                collect();
            }
        }
    }

    /** Makes a cache of a class loader of its own, uses it, and leaves it. */
    private static void forget() {
        ClassLoader loader = new URLClassLoader(new URL[0], Closing.class.getClassLoader());
        CacheManager manager = Caching.getCachingProvider().getCacheManager(URI.create("forgotten"), loader);
        Cache<Integer, byte[]> cache = manager.createCache("forgotten", new MutableConfiguration<>());
        for (int key = 0; key < 500; key++) {
            cache.put(key, new byte[100]);
        }
    }

    /** Lets the garbage collector run, and who waits for it. */
    private static void collect() throws InterruptedException {
        for (int i = 0; i < 2; i++) {
            System.gc();
            Thread.sleep(10);
        }
    }

    @Test
    static void memoryStaysOverManyCaches() throws Exception {
        CacheManager manager = Caches.manager();
        AtomicInteger ended = new AtomicInteger();
        AtomicInteger refused = new AtomicInteger();
        for (int i = 0; i < 100; i++) {
            live(manager, ended, refused);
        }
        long before = residentKilobytes();
        for (int i = 0; i < 200; i++) {
            live(manager, ended, refused);
        }
        long grown = residentKilobytes() - before;
        System.out.println(ended + " threads ended, " + refused + " found their cache closed; " + grown
                + " kB more after 200 caches");
        equal("each thread ended or found its cache closed", 1200, ended.get() + refused.get());
        holds("closed caches leave no memory: " + grown + " kB", grown < LEAK_KILOBYTES);
    }
}
