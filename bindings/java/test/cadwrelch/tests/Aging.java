package cadwrelch.tests;

import static cadwrelch.tests.Check.equal;
import static cadwrelch.tests.Check.holds;

import java.time.Duration;
import java.util.ArrayDeque;
import java.util.ArrayList;
import java.util.LinkedHashMap;
import java.util.List;
import java.util.Map;
import java.util.Properties;
import java.util.Queue;
import java.util.Set;
import java.util.concurrent.TimeUnit;
import java.util.function.Function;
import javax.cache.Cache;
import javax.cache.configuration.MutableCacheEntryListenerConfiguration;
import javax.cache.event.CacheEntryCreatedListener;
import javax.cache.event.CacheEntryEvent;
import javax.cache.event.CacheEntryExpiredListener;
import javax.cache.event.CacheEntryRemovedListener;
import javax.cache.event.CacheEntryUpdatedListener;
import javax.cache.expiry.AccessedExpiryPolicy;
import javax.cache.expiry.CreatedExpiryPolicy;
import javax.cache.expiry.ExpiryPolicy;
import cadwrelch.jcache.CadwrelchConfiguration;
import cadwrelch.jcache.Inside;
import cadwrelch.tests.Background.Work;
import cadwrelch.tests.Check.Test;

/** Entries that are loaded again when they are old, and keys that are known to be absent. The clock is the test's. */
final class Aging {
    private Aging() {}

    private static final Duration AGE = Duration.ofSeconds(10);

    /** A store with 1=one and 2=two, and a cache over it whose clock and whose threads are the test's. */
    private static final class Scene {
        final Store<Integer, String> store = new Store<>();
        final Queue<Runnable> reloads = new ArrayDeque<>();
        long seconds = 1000;
        final CadwrelchConfiguration<Integer, String> configuration = new CadwrelchConfiguration<Integer, String>()
                .setClock(() -> TimeUnit.SECONDS.toNanos(seconds))
                .setExecutor(reloads::add);
        Cache<Integer, String> cache;

        Scene() {
            store.map.put(1, "one");
            store.map.put(2, "two");
            configuration.setReadThrough(true)
                    .setWriteThrough(true)
                    .setStatisticsEnabled(true)
                    .setCacheLoaderFactory(() -> store)
                    .setCacheWriterFactory(() -> store);
        }

        Scene open() {
            cache = Caches.create(configuration);
            return this;
        }

        /** How many reloads were begun, which are made now. */
        int reload() {
            int count = reloads.size();
            while (!reloads.isEmpty()) {
                reloads.remove().run();
            }
            return count;
        }
    }

    private static Scene refreshing() {
        Scene scene = new Scene();
        scene.configuration.setRefreshAfter(AGE);
        return scene;
    }

    @Test
    static void aGetOfAnOldEntryHasItLoadedAgain() {
        Scene scene = refreshing().open();
        equal("a get loads", "one", scene.cache.get(1));
        scene.store.map.put(1, "new");
        scene.seconds += 9;
        equal("an entry that isn't old yet is answered", "one", scene.cache.get(1));
        equal("and nothing else", 0, scene.reload());
        scene.seconds += 1;
        equal("one that is old is answered at once", "one", scene.cache.get(1));
        equal("also by the next get", "one", scene.cache.get(1));
        equal("and loaded again once", 1, scene.reload());
        equal("by load", 2, scene.store.loads.get());
        equal("later gets have what was found", "new", scene.cache.get(1));
        scene.seconds += 9;
        scene.cache.get(1);
        equal("its age is that of its reload", 0, scene.reload());
        scene.seconds += 1;
        scene.cache.getAll(Set.of(1, 2));
        equal("getAll finds out, too", 1, scene.reload());
        scene.seconds += 10;
        scene.cache.containsKey(1);
        scene.cache.put(1, "put");
        scene.cache.get(1);
        equal("containsKey doesn't, and a put makes an entry young", 0, scene.reload());
        equal("the host has what the core has", 2, Inside.compare(scene.cache));
    }

    @Test
    static void aPutWaitsForAReload() throws Exception {
        Scene scene = refreshing().open();
        scene.cache.get(1);
        scene.seconds += 10;
        scene.cache.get(1);
        Store.Gate gate = scene.store.shut();
        Runnable reload = scene.reloads.remove();
        Work<Void> reloading = Background.start(reload::run);
        gate.awaitCall();
        equal("gets have the old value while it is reloaded", "one", scene.cache.get(1));
        Work<Void> put = Background.start(() -> scene.cache.put(1, "newer"));
        holds("a put waits for a reload", put.awaitSleep());
        scene.store.open();
        reloading.result();
        put.result();
        equal("so that doesn't overwrite it", "newer", scene.cache.get(1));
        equal("and the store has the same", "newer", scene.store.map.get(1));
    }

    @Test
    static void aReloadWaitsForNobody() throws Exception {
        Scene scene = refreshing().open();
        scene.cache.get(1);
        scene.seconds += 10;
        scene.cache.get(1);
        Store.Gate gate = scene.store.shut();
        Work<Void> put = Background.start(() -> scene.cache.put(1, "put"));
        gate.awaitCall();
        scene.store.passBy();
        equal("a reload was begun while its key is being written", 1, scene.reload());
        equal("it is left out", 1, scene.store.loads.get());
        gate.open();
        put.result();
        equal("and the put's value is there", "put", scene.cache.get(1));
    }

    @Test
    static void aReloadThatComesToNothingLeavesTheEntry() {
        Scene scene = refreshing().open();
        scene.cache.get(1);
        scene.cache.get(2);
        scene.store.fault = new IllegalStateException("down");
        scene.seconds += 10;
        equal("an entry whose reload fails", "one", scene.cache.get(1));
        equal("was to be loaded", 1, scene.reload());
        equal("and stays", "one", scene.cache.get(1));
        equal("until it is old again", 0, scene.reload());
        scene.store.fault = null;
        scene.store.map.remove(2);
        scene.seconds += 10;
        equal("then it is tried again", "one two", scene.cache.get(1) + " " + scene.cache.get(2));
        equal("of each", 2, scene.reload());
        equal("a reload that finds nothing leaves the entry, too", "two", scene.cache.get(2));
        scene.seconds += 10;
        scene.cache.get(1);
        scene.cache.close();
        equal("a reload of a cache that was closed does nothing", 1, scene.reload());
    }

    @Test
    static void refreshesBesideExpiry() {
        Scene scene = refreshing();
        scene.configuration.setExpiryPolicyFactory(
                CreatedExpiryPolicy.factoryOf(new javax.cache.expiry.Duration(TimeUnit.SECONDS, 30)));
        scene.open();
        scene.cache.get(1);
        scene.store.map.put(1, "new");
        scene.seconds += 29;
        equal("an entry is old before it expires", "one", scene.cache.get(1));
        equal("and reloaded", 1, scene.reload());
        scene.seconds += 1;
        scene.store.map.put(1, "newest");
        equal("an entry that has expired is loaded by the get that meets it", "newest", scene.cache.get(1));
        equal("and no other", 0, scene.reload());
    }

    @Test
    static void anAccessLetsLiveOn() {
        Scene scene = new Scene();
        scene.configuration.setExpiryPolicyFactory(
                AccessedExpiryPolicy.factoryOf(new javax.cache.expiry.Duration(TimeUnit.SECONDS, 30)));
        scene.open();
        scene.cache.get(1);
        for (int i = 0; i < 5; i++) {
            scene.seconds += 29;
            scene.cache.get(1);
        }
        equal("each hit of an accessed policy lets an entry live on", 1, scene.store.loads.get());
        scene.seconds += 30;
        holds("and without one it expires, by the clock of the configuration", !scene.cache.containsKey(1));
    }

    /** A policy whose entries live for ten seconds from their creation, and which is asked of updates at a gate. */
    private static final class Gated implements ExpiryPolicy {
        final Store.Gate gate = new Store.Gate();

        @Override
        public javax.cache.expiry.Duration getExpiryForCreation() {
            return new javax.cache.expiry.Duration(TimeUnit.SECONDS, 10);
        }

        @Override
        public javax.cache.expiry.Duration getExpiryForAccess() {
            return null;
        }

        @Override
        public javax.cache.expiry.Duration getExpiryForUpdate() {
            gate.pass();
            return null;
        }
    }

    @Test
    static void anOldDeadlineIsNotThatOfANewValue() throws Exception {
        Scene scene = new Scene();
        Gated policy = new Gated();
        scene.configuration.setExpiryPolicyFactory(() -> policy);
        scene.open();
        scene.cache.get(1);
        List<Work<Void>> puts = new ArrayList<>();
        for (String value : List.of("new", "newer")) {
            puts.add(Background.start(() -> scene.cache.put(1, value)));
            policy.gate.awaitCall();
            puts.get(puts.size() - 1).awaitSleep();
        }
        scene.seconds += 11;
        equal("a value is there until its policy has been asked, though the one before it would have expired", "newer",
                scene.cache.get(1));
        holds("for containsKey, too", scene.cache.containsKey(1));
        equal("so nobody was asked for it", 1, scene.store.loads.get());
        policy.gate.open();
        Background.results(puts);
        holds("a policy that answers null leaves the deadline as it was", !scene.cache.containsKey(1));
    }

    @Test
    static void theCachesOwnThreadsReload() throws Exception {
        Properties properties = new Properties();
        properties.setProperty("cadwrelch.refresh_after", "10s");
        Scene scene = new Scene();
        scene.configuration.setExecutor(null);
        scene.cache = Caches.create(Caches.manager(properties), scene.configuration);
        scene.cache.get(1);
        scene.seconds += 10;
        Store.Gate gate = scene.store.shut();
        equal("the property says it, and the cache has threads for it", "one", scene.cache.get(1));
        gate.awaitCall();
        scene.store.open();
        scene.cache.close();
    }

    private static Scene remembering() {
        Scene scene = new Scene();
        scene.configuration.setAbsentFor(AGE);
        return scene;
    }

    @Test
    static void whatIsAbsentIsRemembered() {
        Scene scene = remembering().open();
        equal("a get of what isn't there asks", null, scene.cache.get(9));
        equal("and is remembered", null, scene.cache.get(9));
        equal("also by getAll", Map.of(1, "one"), scene.cache.getAll(Set.of(1, 9)));
        holds("containsKey says no", !scene.cache.containsKey(9));
        equal("so nobody was asked but once", List.of(1, 1, List.of(1)),
                List.of(scene.store.loads.get(), scene.store.loadAlls.get(), scene.store.lastBatch));
        scene.seconds += 10;
        scene.store.map.put(9, "nine");
        equal("until its time is over", "nine", scene.cache.get(9));
        equal("what is there isn't forgotten", "one", scene.cache.get(1));
        equal("getAll remembers what it hasn't found", Map.of(), scene.cache.getAll(Set.of(7, 8)));
        equal("for later gets", null, scene.cache.get(7));
        equal("which ask nobody", 2, scene.store.loads.get());
    }

    /** Calls at the key 9, which is absent in the store, and what they answer. */
    private static Map<String, Function<Cache<Integer, String>, Object>> calls() {
        Map<String, Function<Cache<Integer, String>, Object>> calls = new LinkedHashMap<>();
        calls.put("put", it -> {
            it.put(9, "x");
            return "";
        });
        calls.put("getAndPut", it -> String.valueOf(it.getAndPut(9, "x")));
        calls.put("putIfAbsent", it -> it.putIfAbsent(9, "x"));
        calls.put("remove", it -> it.remove(9));
        calls.put("remove if", it -> it.remove(9, "x"));
        calls.put("getAndRemove", it -> String.valueOf(it.getAndRemove(9)));
        calls.put("replace", it -> it.replace(9, "x"));
        calls.put("replace if", it -> it.replace(9, "x", "y"));
        calls.put("getAndReplace", it -> String.valueOf(it.getAndReplace(9, "x")));
        calls.put("containsKey", it -> it.containsKey(9));
        calls.put("get", it -> String.valueOf(it.get(9)));
        calls.put("invoke", it -> it.invoke(9, (entry, arguments) -> entry.exists() + " " + entry.getValue()));
        calls.put("putAll", it -> {
            it.putAll(Map.of(9, "x"));
            return "";
        });
        calls.put("removeAll", it -> {
            it.removeAll();
            return "";
        });
        calls.put("removeAll of it", it -> {
            it.removeAll(Set.of(9));
            return "";
        });
        calls.put("iterator", it -> it.iterator().hasNext());
        return calls;
    }

    /** Notes all events. */
    private static final class AllEvents implements CacheEntryCreatedListener<Integer, String>,
            CacheEntryUpdatedListener<Integer, String>, CacheEntryRemovedListener<Integer, String>,
            CacheEntryExpiredListener<Integer, String> {
        private final List<Object> seen;

        AllEvents(List<Object> seen) {
            this.seen = seen;
        }

        @Override
        public void onCreated(Iterable<CacheEntryEvent<? extends Integer, ? extends String>> events) {
            events.forEach(event -> seen.add(event.getEventType() + " " + event.getKey()));
        }

        @Override
        public void onUpdated(Iterable<CacheEntryEvent<? extends Integer, ? extends String>> events) {
            onCreated(events);
        }

        @Override
        public void onRemoved(Iterable<CacheEntryEvent<? extends Integer, ? extends String>> events) {
            onCreated(events);
        }

        @Override
        public void onExpired(Iterable<CacheEntryEvent<? extends Integer, ? extends String>> events) {
            onCreated(events);
        }
    }

    @Test
    static void otherCallsFindNothingToo() {
        calls().forEach((name, call) -> {
            Scene without = new Scene().open();
            Scene with = remembering().open();
            List<List<Object>> seen = new ArrayList<>();
            for (Scene scene : List.of(without, with)) {
                List<Object> events = new ArrayList<>();
                scene.cache.registerCacheEntryListener(new MutableCacheEntryListenerConfiguration<>(
                        () -> new AllEvents(events), null, false, true));
                scene.cache.get(9);
                Object answer = call.apply(scene.cache);
                List<Object> entries = new ArrayList<>();
                scene.cache.forEach(entry -> entries.add(entry.toString()));
                seen.add(List.of(answer, events, entries, scene.store.map, scene.store.writes.get(),
                        scene.store.deletes.get(), scene.store.batches()));
                Inside.compare(scene.cache);
            }
            equal(name + " at a key that is known to be absent is as at one of which nothing is known: its answer,"
                    + " events, entries, store and asks", seen.get(0), seen.get(1));
        });
    }

    @Test
    static void whatIsAbsentNeitherAgesNorLivesOn() {
        Scene scene = remembering();
        scene.configuration.setRefreshAfter(Duration.ofSeconds(3)).setExpiryPolicyFactory(
                AccessedExpiryPolicy.factoryOf(new javax.cache.expiry.Duration(TimeUnit.SECONDS, 30)));
        scene.open();
        scene.cache.get(9);
        for (int i = 0; i < 9; i++) {
            scene.seconds += 1;
            scene.cache.get(9);
            scene.cache.getAll(Set.of(9));
        }
        equal("what is known to be absent is never reloaded", 0, scene.reload());
        equal("and nobody was asked", 1, scene.store.loads.get());
        scene.seconds += 1;
        scene.cache.get(9);
        equal("until its time is over, which no access makes longer", 2, scene.store.loads.get());
    }

    @Test
    static void clearForgetsWhatIsAbsent() {
        Scene scene = remembering().open();
        scene.cache.get(9);
        scene.cache.clear();
        scene.store.map.put(9, "nine");
        equal("clear forgets what is absent", "nine", scene.cache.get(9));
    }

    @Test
    static void joinedGetsOfAnAbsentKey() throws Exception {
        Scene scene = remembering().open();
        Store.Gate gate = scene.store.shut();
        Work<String> first = Background.start(() -> scene.cache.get(9));
        gate.awaitCall();
        Work<String> second = Background.start(() -> scene.cache.get(9));
        second.awaitSleep();
        scene.store.open();
        equal("the get that loads finds nothing", null, first.result());
        equal("nor does the one that has joined it", null, second.result());
        equal("after one load", 1, scene.store.loads.get());
        equal("which is remembered", null, scene.cache.get(9));
        equal("so there is no other", 1, scene.store.loads.get());
    }

    @Test
    static void whatIsAbsentTakesRoom() {
        Scene scene = remembering();
        scene.configuration.setCapacity(3);
        scene.open();
        for (int key = 10; key < 20; key++) {
            scene.cache.get(key);
        }
        equal("no more is remembered than there is room for", 3, Inside.compare(scene.cache));
        scene.cache.get(19);
        equal("the last ones are", 10, scene.store.loads.get());
    }
}
