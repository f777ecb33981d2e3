package cadwrelch.tests;

import static cadwrelch.tests.Check.equal;
import static cadwrelch.tests.Check.holds;
import static cadwrelch.tests.Check.thrown;

import cadwrelch.jcache.CadwrelchConfiguration;
import cadwrelch.jcache.Inside;
import cadwrelch.jcache.Invalidation;
import cadwrelch.tests.Background.Work;
import cadwrelch.tests.Check.Test;
import java.util.ArrayList;
import java.util.List;
import java.util.Map;
import java.util.Properties;
import java.util.Random;
import java.util.Set;
import java.util.concurrent.Callable;
import java.util.concurrent.TimeUnit;
import java.util.concurrent.atomic.AtomicLong;
import java.util.stream.Collectors;
import javax.cache.Cache;
import javax.cache.configuration.MutableCacheEntryListenerConfiguration;
import javax.cache.configuration.MutableConfiguration;
import javax.cache.event.CacheEntryRemovedListener;
import javax.cache.expiry.CreatedExpiryPolicy;
import javax.cache.expiry.Duration;
import javax.cache.integration.CacheLoader;

/** What others have changed in the store is forgotten: no call that begins later is answered what was there before. */
final class Invalidating {
    private Invalidating() {}

    /** A loader that has read the store before it is held. */
    private static final class Reader implements CacheLoader<String, String> {
        private final Store<String, String> store;

        Reader(Store<String, String> store) {
            this.store = store;
        }

        @Override
        public String load(String key) {
            String read = store.map.get(key);
            store.load(key);
            return read;
        }

        @Override
        public Map<String, String> loadAll(Iterable<? extends String> keys) {
            return store.loadAll(keys);
        }
    }

    /** A cache of one stripe over a store that has a=old and b=other. */
    private static final class Fixture {
        final Store<String, String> store = new Store<>();
        final Cache<String, String> cache;
        final Invalidation invalidation;
        private final List<Store.Gate> gates = new ArrayList<>();

        Fixture() {
            this(new CadwrelchConfiguration<>());
        }

        Fixture(CadwrelchConfiguration<String, String> configuration) {
            store.map.put("a", "old");
            store.map.put("b", "other");
            configuration.setStripes(1).setCapacity(100).setTypes(String.class, String.class)
                    .setReadThrough(true).setCacheLoaderFactory(() -> new Reader(store))
                    .setWriteThrough(true).setCacheWriterFactory(() -> store);
            cache = Caches.create(configuration);
            invalidation = cache.unwrap(Invalidation.class);
        }

        void foreignWrite(String key, String value) {
            store.map.put(key, value);
            invalidation.invalidate(key);
        }

        /** A call that is held in the store, at the gate that is shut for it alone. */
        <T> Work<T> held(Callable<T> call) {
            Store.Gate gate = store.shut();
            Work<T> work = Background.start(call);
            gate.awaitCall();
            store.passBy();
            gates.add(gate);
            return work;
        }

        Work<Object> heldPut(String value) {
            return held(() -> {
                cache.put("a", value);
                return null;
            });
        }

        void letGo() {
            gates.forEach(Store.Gate::open);
        }

        boolean isCached(String key) {
            return cache.containsKey(key);
        }

        void close() {
            Inside.compare(cache);
            cache.close();
        }
    }

    @Test
    static void anEntryGoesAtOnce() {
        Fixture it = new Fixture();
        List<Object> told = new ArrayList<>();
        CacheEntryRemovedListener<String, String> listener = events -> events.forEach(told::add);
        it.cache.registerCacheEntryListener(
                new MutableCacheEntryListenerConfiguration<>(() -> listener, null, true, true));
        it.cache.get("a");
        it.cache.get("b");
        it.foreignWrite("a", "new");
        equal("an entry that is out of date goes", false, it.isCached("a"));
        equal("and no other", true, it.isCached("b"));
        equal("the writer isn't asked", 0, it.store.writes.get() + it.store.deletes.get());
        equal("nor are listeners told", 0, told.size());
        equal("the loader is, by the next get", "new", it.cache.get("a"));
        it.invalidation.invalidate("nowhere");
        it.invalidation.invalidateAll();
        equal("all go", false, it.isCached("a") || it.isCached("b"));
        it.close();
    }

    @Test
    static void arguments() {
        Fixture it = new Fixture();
        thrown("a key is not null", NullPointerException.class, () -> it.invalidation.invalidate(null));
        thrown("it is of the cache's type", ClassCastException.class, () -> it.invalidation.invalidate(1));
        thrown("no cache of this provider is of another type", IllegalArgumentException.class,
                () -> it.cache.unwrap(List.class));
        it.close();
        // A closed cache has nothing to forget.
        it.invalidation.invalidate("a");
        it.invalidation.invalidateAll();
        it.invalidation.suspend();
        it.invalidation.resume();
    }

    @Test
    static void besideALoad() throws Exception {
        Fixture it = new Fixture();
        Work<String> load = it.held(() -> it.cache.get("a"));
        Work<String> joiner = Background.start(() -> it.cache.get("a"));
        holds("a get joins a load under way", joiner.awaitSleep());
        it.foreignWrite("a", "new");
        Work<String> late = Background.start(() -> it.cache.get("a"));
        Work<Map<String, String>> lateMany = Background.start(() -> it.cache.getAll(Set.of("a", "b")));
        equal("one that only looks is told that nothing is there", false, it.cache.containsKey("a"));
        holds("one that begins after an invalidation waits", late.awaitSleep());
        holds("so does one of many keys", lateMany.awaitSleep());
        equal("other keys don't", false, it.isCached("none"));
        it.letGo();
        equal("the load is answered", "old", load.result());
        equal("so is who had joined it", "old", joiner.result());
        equal("a later one by a load of its own", "new", late.result());
        equal("also of many keys", "new", lateMany.result().get("a"));
        equal("and what it leaves stays", "new", it.cache.get("a"));
        it.close();
    }

    /** A put that has written, and isn't committed: its value is out of date when somebody else has written after it. */
    @Test
    static void besideAPut() throws Exception {
        Fixture it = new Fixture();
        it.cache.get("a");
        Work<Object> put = it.heldPut("mine");
        equal("beside a put an entry is there", "old", it.cache.get("a"));
        it.invalidation.invalidate("a");
        Work<String> get = Background.start(() -> it.cache.get("a"));
        holds("after an invalidation a get waits for its end", get.awaitSleep());
        Work<Void> second = Background.start(() -> it.cache.put("a", "second"));
        holds("so does a put", second.awaitSleep());
        Work<Void> many = Background.start(() -> it.cache.putAll(Map.of("a", "third", "c", "3")));
        holds("and one of many keys", many.awaitSleep());
        equal("which has written its others", "3", it.store.map.get("c"));
        it.letGo();
        put.result();
        String seen = get.result();
        second.result();
        many.result();
        holds("it sees what the store had then: " + seen, Set.of("mine", "second", "third").contains(seen));
        equal("what is cached is the store's", it.store.map.get("a"), it.cache.get("a"));
        it.close();
    }

    @Test
    static void ofAPutNothingStays() throws Exception {
        Fixture it = new Fixture();
        Work<Object> put = it.heldPut("mine");
        it.invalidation.invalidate("a");
        it.letGo();
        put.result();
        it.store.map.put("a", "theirs");
        equal("what a put leaves is dropped, if its key was invalidated", "theirs", it.cache.get("a"));
        it.close();
    }

    @Test
    static void besideAProcessor() throws Exception {
        Fixture it = new Fixture();
        it.cache.get("a");
        String result = it.cache.invoke("a", (entry, none) -> {
            equal("inside of a processor its key may be read", "old", it.cache.get("a"));
            it.foreignWrite("a", "new");
            thrown("but not once it is out of date", IllegalStateException.class, () -> it.cache.get("a"));
            equal("it isn't there", false, it.cache.containsKey("a"));
            return entry.getValue();
        });
        equal("the processor goes on with what it has", "old", result);
        equal("afterwards it's gone", "new", it.cache.get("a"));
        it.close();
    }

    @Test
    static void allBesideALoad() throws Exception {
        Fixture it = new Fixture();
        it.cache.get("b");
        Work<String> load = it.held(() -> it.cache.get("a"));
        it.invalidation.invalidateAll();
        equal("other keys are gone at once", false, it.isCached("b"));
        equal("there is no key", false, it.cache.iterator().hasNext());
        it.letGo();
        load.result();
        equal("and what the load leaves", false, it.isCached("a"));
        it.close();
    }

    @Test
    static void suspendedNothingIsKept() throws Exception {
        Fixture it = new Fixture();
        it.cache.get("a");
        it.invalidation.suspend();
        equal("a cache that is suspended has nothing", false, it.isCached("a"));
        it.cache.get("a");
        it.cache.put("b", "mine");
        it.cache.invoke("c", (entry, none) -> {
            entry.setValue("3");
            return null;
        });
        equal("and keeps nothing", false, it.isCached("a") || it.isCached("b") || it.isCached("c"));
        int loads = it.store.loads.get();
        Work<String> load = it.held(() -> it.cache.get("a"));
        Work<String> joiner = Background.start(() -> it.cache.get("a"));
        joiner.awaitSleep();
        it.letGo();
        equal("loads are shared", "old old 1", load.result() + " " + joiner.result() + " "
                + (it.store.loads.get() - loads));
        it.invalidation.suspend();
        Work<String> before = it.held(() -> it.cache.get("a"));
        it.invalidation.resume();
        it.letGo();
        before.result();
        equal("what was read before it was resumed isn't kept", false, it.isCached("a"));
        equal("it isn't suspended any more", false, it.invalidation.isSuspended());
        it.cache.get("a");
        equal("what is read later is", true, it.isCached("a"));
        it.close();
    }

    /** Without a writer a put is a step of one phase. */
    @Test
    static void suspendedWithoutAWriter() {
        Cache<String, String> cache = Caches.plain(String.class, String.class);
        cache.unwrap(Invalidation.class).suspend();
        cache.put("a", "1");
        equal("a put isn't kept while the cache is suspended", false, cache.containsKey("a"));
        cache.unwrap(Invalidation.class).resume();
        cache.put("a", "1");
        equal("afterwards it is", true, cache.containsKey("a"));
        Inside.compare(cache);
        cache.close();
    }

    /** Answers that are not picked up hold the core's history, and other keys' calls fill it. */
    @Test
    static void withoutRoomInTheHistoryAnEntryIsHidden() throws Exception {
        for (int round = 0; round < 20; round++) {
            CadwrelchConfiguration<String, String> configuration = new CadwrelchConfiguration<>();
            Fixture it = new Fixture(configuration.setHistory(16));
            List<Work<String>> gets = new ArrayList<>();
            gets.add(it.held(() -> it.cache.get("a")));
            for (int i = 0; i < 8; i++) {
                gets.add(Background.start(() -> it.cache.get("a")));
            }
            Work<Void> others = Background.start(() -> {
                for (int i = 0; i < 50; i++) {
                    it.cache.get("b");
                    it.invalidation.invalidate("b");
                    it.store.map.put("b", "b" + i);
                    it.invalidation.invalidate("b");
                    equal("what was told isn't there", "b" + i, it.cache.get("b"));
                }
            });
            it.letGo();
            Background.results(gets);
            others.result();
            it.close();
        }
    }

    @Test
    static void entriesThatExpireOrAge() throws Exception {
        AtomicLong now = new AtomicLong();
        CadwrelchConfiguration<String, String> configuration = new CadwrelchConfiguration<>();
        configuration.setClock(now::get).setRefreshAfter(java.time.Duration.ofSeconds(5))
                .setAbsentFor(java.time.Duration.ofSeconds(60));
        configuration.setExpiryPolicyFactory(CreatedExpiryPolicy.factoryOf(new Duration(TimeUnit.SECONDS, 10)));
        Fixture it = new Fixture(configuration);
        it.cache.get("a");
        equal("nothing is there", null, it.cache.get("none"));
        it.foreignWrite("none", "some");
        equal("what was known to be absent is asked for", "some", it.cache.get("none"));
        Work<Object> put = it.heldPut("mine");
        it.invalidation.invalidate("a");
        now.addAndGet(6_000_000_000L);
        Work<String> get = Background.start(() -> it.cache.get("a"));
        holds("an old entry that is hidden isn't answered", get.awaitSleep());
        it.letGo();
        put.result();
        equal("nor reloaded", "mine", get.result());
        now.addAndGet(60_000_000_000L);
        equal("entries that have expired may be invalidated", "mine", it.cache.get("a"));
        it.invalidation.invalidateAll();
        it.close();
    }

    /** Random calls beside writes of others, each told once it is made: at rest all that is cached is the store's. */
    @Test
    static void stress() throws Exception {
        for (String form : List.of("false", "true")) {
            Properties properties = new Properties();
            properties.setProperty("cadwrelch.bytes", form);
            properties.setProperty("cadwrelch.stripes", "2");
            properties.setProperty("cadwrelch.capacity", "12");
            Store<Integer, Long> store = new Store<>();
            MutableConfiguration<Integer, Long> configuration = Caches.over(store).setTypes(Integer.class, Long.class);
            Cache<Integer, Long> cache = Caches.create(Caches.manager(properties), configuration);
            AtomicLong values = new AtomicLong();
            List<Work<Integer>> all = Background.startMany(4, () -> calls(cache, store, values));
            int calls = Background.results(all).stream().mapToInt(Integer::intValue).sum();
            Set<String> wrong = store.map.keySet().stream()
                    .filter(key -> !store.map.get(key).equals(cache.get(key)))
                    .map(key -> key + ": " + cache.get(key) + ", not " + store.map.get(key))
                    .collect(Collectors.toSet());
            equal("after " + calls + " calls all that is cached is the store's", Set.of(), wrong);
            Inside.compare(cache);
            cache.close();
        }
    }

    private static int calls(Cache<Integer, Long> cache, Store<Integer, Long> store, AtomicLong values) {
        Random random = new Random(Thread.currentThread().getId());
        Invalidation invalidation = cache.unwrap(Invalidation.class);
        int calls = Integer.getInteger("stress.calls", 5000);
        for (int i = 0; i < calls; i++) {
            int key = random.nextInt(20);
            switch (random.nextInt(8)) {
                case 0:
                    store.map.put(key, values.incrementAndGet());
                    invalidation.invalidate(key);
                    break;
                case 1: cache.put(key, values.incrementAndGet()); break;
                case 2: cache.invoke(key, (entry, none) -> entry.getValue()); break;
                case 3: cache.getAll(Set.of(key, 20, 21)); break;
                case 4: change(invalidation, random.nextInt(40)); break;
                default: cache.get(key);
            }
        }
        invalidation.resume();
        return calls;
    }

    private static void change(Invalidation invalidation, int how) {
        if (how == 0) {
            invalidation.suspend();
        } else if (how < 3) {
            invalidation.resume();
        } else if (how < 6) {
            invalidation.invalidateAll();
        }
    }
}
