package cadwrelch.tests;

import static cadwrelch.tests.Check.equal;
import static cadwrelch.tests.Check.holds;

import java.util.List;
import java.util.Map;
import java.util.Set;
import java.util.concurrent.TimeUnit;
import java.util.concurrent.atomic.AtomicInteger;
import java.util.function.Function;
import javax.cache.Cache;
import javax.cache.configuration.MutableConfiguration;
import javax.cache.expiry.AccessedExpiryPolicy;
import javax.cache.expiry.CreatedExpiryPolicy;
import javax.cache.expiry.Duration;
import javax.cache.expiry.EternalExpiryPolicy;
import javax.cache.expiry.ExpiryPolicy;
import javax.cache.expiry.ModifiedExpiryPolicy;
import javax.cache.expiry.TouchedExpiryPolicy;
import javax.cache.integration.CompletionListenerFuture;
import cadwrelch.tests.Background.Work;
import cadwrelch.tests.Check.Test;

/** When an {@link ExpiryPolicy} is asked, and what becomes of an entry that has expired. */
final class Expiry {
    private Expiry() {}

    private static final Duration SHORT = new Duration(TimeUnit.MILLISECONDS, 40);

    /** A policy that counts how it is asked. */
    private static final class Counting implements ExpiryPolicy {
        private final AtomicInteger creations = new AtomicInteger();
        private final AtomicInteger accesses = new AtomicInteger();
        private final AtomicInteger updates = new AtomicInteger();
        volatile Duration creation = Duration.ETERNAL;
        volatile Duration access;

        @Override
        public Duration getExpiryForCreation() {
            creations.incrementAndGet();
            return creation;
        }

        @Override
        public Duration getExpiryForAccess() {
            accesses.incrementAndGet();
            return access;
        }

        @Override
        public Duration getExpiryForUpdate() {
            updates.incrementAndGet();
            return null;
        }

        /** How often it was asked for a creation, an access and an update since the last time. */
        List<Integer> take() {
            return List.of(creations.getAndSet(0), accesses.getAndSet(0), updates.getAndSet(0));
        }
    }

    private static Cache<Long, String> under(ExpiryPolicy policy) {
        return Caches.create(new MutableConfiguration<Long, String>().setExpiryPolicyFactory(() -> policy));
    }

    private static void sleepLong() throws InterruptedException {
        Thread.sleep(120);
    }

    @Test
    static void asksThePolicyByOperation() {
        Counting policy = new Counting();
        Cache<Long, String> cache = under(policy);
        cache.put(1L, "a");
        equal("put of a new key asks for its creation", List.of(1, 0, 0), policy.take());
        cache.put(1L, "b");
        equal("put of a key that is there asks for its update", List.of(0, 0, 1), policy.take());
        cache.get(1L);
        equal("get asks for its access", List.of(0, 1, 0), policy.take());
        cache.containsKey(1L);
        equal("containsKey asks nothing", List.of(0, 0, 0), policy.take());
        cache.get(9L);
        equal("nor does a get that finds nothing", List.of(0, 0, 0), policy.take());
        cache.getAndPut(1L, "c");
        equal("getAndPut of a key that is there asks for its update", List.of(0, 0, 1), policy.take());
        cache.getAndPut(2L, "c");
        equal("and of a new key for its creation", List.of(1, 0, 0), policy.take());
        cache.replace(1L, "c", "d");
        equal("replace(key, old, new) that replaces asks for the update", List.of(0, 0, 1), policy.take());
        cache.replace(1L, "no", "d");
        equal("and one that doesn't for the access", List.of(0, 1, 0), policy.take());
        cache.replace(1L, "e");
        equal("replace(key, value) asks for the update", List.of(0, 0, 1), policy.take());
        cache.getAndReplace(1L, "f");
        equal("and so does getAndReplace", List.of(0, 0, 1), policy.take());
        cache.replace(9L, "e");
        equal("of a missing key they ask nothing", List.of(0, 0, 0), policy.take());
        cache.remove(1L, "no");
        equal("remove(key, old) that doesn't remove asks for the access", List.of(0, 1, 0), policy.take());
        cache.remove(1L);
        equal("remove asks nothing", List.of(0, 0, 0), policy.take());
        cache.getAndRemove(2L);
        equal("nor does getAndRemove", List.of(0, 0, 0), policy.take());
        cache.putIfAbsent(1L, "a");
        equal("putIfAbsent that puts asks for the creation", List.of(1, 0, 0), policy.take());
        cache.putIfAbsent(1L, "b");
        equal("and one that doesn't asks nothing", List.of(0, 0, 0), policy.take());
    }

    @Test
    static void asksThePolicyForCallsOfManyKeysAndProcessors() {
        Counting policy = new Counting();
        Cache<Long, String> cache = under(policy);
        cache.putAll(Map.of(1L, "a", 2L, "b"));
        equal("putAll asks for each key", List.of(2, 0, 0), policy.take());
        cache.getAll(Set.of(1L, 2L, 9L));
        equal("getAll for the access of each that is there", List.of(0, 2, 0), policy.take());
        cache.forEach(entry -> {});
        equal("an iterator for each entry that it hands out", List.of(0, 2, 0), policy.take());
        cache.invoke(1L, (entry, arguments) -> entry.getValue());
        equal("a processor that gets the value for its access", List.of(0, 1, 0), policy.take());
        cache.invoke(1L, (entry, arguments) -> entry.exists());
        equal("one that doesn't asks nothing", List.of(0, 0, 0), policy.take());
        cache.invoke(1L, (entry, arguments) -> {
            entry.setValue("x");
            return null;
        });
        equal("one that sets it for its update", List.of(0, 0, 1), policy.take());
        cache.invoke(3L, (entry, arguments) -> {
            entry.setValue("x");
            return null;
        });
        equal("or creation", List.of(1, 0, 0), policy.take());
        cache.removeAll();
        equal("removeAll asks nothing", List.of(0, 0, 0), policy.take());
    }

    @Test
    static void asksThePolicyForLoads() throws Exception {
        Store<Long, String> store = new Store<>();
        store.map.putAll(Map.of(1L, "one", 2L, "two", 3L, "three"));
        Counting policy = new Counting();
        Cache<Long, String> cache = Caches.create(Caches.over(store).setExpiryPolicyFactory(() -> policy));
        cache.get(1L);
        equal("a get that loads asks for the creation", List.of(1, 0, 0), policy.take());
        cache.getAll(Set.of(1L, 2L));
        equal("getAll for the access of what is there, and the creation of what it loads", List.of(1, 1, 0),
                policy.take());
        CompletionListenerFuture loaded = new CompletionListenerFuture();
        cache.loadAll(Set.of(2L, 3L), false, loaded);
        loaded.get(30, TimeUnit.SECONDS);
        equal("loadAll for the creation of what it loads", List.of(1, 0, 0), policy.take());
        cache.invoke(9L, (entry, arguments) -> entry.getValue());
        equal("a processor whose load finds nothing asks nothing", List.of(0, 0, 0), policy.take());
    }

    @Test
    static void anEntryOfNoDurationIsNeverThere() {
        Cache<Long, String> cache = under(new CreatedExpiryPolicy(Duration.ZERO));
        cache.put(1L, "a");
        holds("an entry that is created with Duration.ZERO isn't cached", !cache.containsKey(1L));
        equal("so get answers null", null, cache.get(1L));
        holds("and putIfAbsent is true", cache.putIfAbsent(1L, "b"));
        holds("again", cache.putIfAbsent(1L, "c"));
        holds("an iterator finds nothing", !cache.iterator().hasNext());
    }

    @Test
    static void noCallFindsAnEntryThatHasExpired() throws InterruptedException {
        Cache<Long, String> cache = under(new CreatedExpiryPolicy(SHORT));
        for (long key = 0; key < 10; key++) {
            cache.put(key, "a");
        }
        sleepLong();
        equal("get doesn't find an entry that has expired", null, cache.get(0L));
        holds("nor containsKey", !cache.containsKey(1L));
        holds("putIfAbsent puts", cache.putIfAbsent(2L, "again"));
        equal("getAndPut answers null", null, cache.getAndPut(3L, "again"));
        holds("remove is false", !cache.remove(4L));
        holds("replace(key, value) is false", !cache.replace(5L, "again"));
        holds("replace(key, old, new) is false", !cache.replace(6L, "a", "again"));
        holds("remove(key, old) is false", !cache.remove(7L, "a"));
        equal("getAll finds none", Map.of(), cache.getAll(Set.of(8L)));
        holds("a processor finds none", !cache.invoke(9L, (entry, arguments) -> entry.exists()));
        sleepLong();
        holds("nor does an iterator", !cache.iterator().hasNext());
    }

    /** A policy of the standard, and whether an access and an update let an entry live on. */
    private static final class Life {
        final String rule;
        final boolean accesses;
        final boolean updates;
        final Cache<Long, String> cache;

        Life(String rule, Function<Duration, ExpiryPolicy> policy, boolean accesses, boolean updates) {
            this.rule = rule;
            this.accesses = accesses;
            this.updates = updates;
            // Far more than what is between two looks, unless the machine holds this thread.
            cache = under(policy.apply(new Duration(TimeUnit.SECONDS, 1)));
            cache.put(1L, "a");
            cache.put(2L, "a");
        }
    }

    @Test
    static void policiesOfTheStandard() throws InterruptedException {
        List<Life> lives = List.of(
                new Life("created: from its creation alone", CreatedExpiryPolicy::new, false, false),
                new Life("modified: from its last update", ModifiedExpiryPolicy::new, false, true),
                new Life("accessed: from its last access", AccessedExpiryPolicy::new, true, false),
                new Life("touched: from its last access or update", TouchedExpiryPolicy::new, true, true));
        for (int i = 0; i < 14; i++) {
            Thread.sleep(100);
            for (Life life : lives) {
                life.cache.get(1L);
                life.cache.replace(2L, "b" + i);
            }
        }
        for (Life life : lives) {
            equal(life.rule + ", accessed", life.accesses, life.cache.containsKey(1L));
            equal(life.rule + ", updated", life.updates, life.cache.containsKey(2L));
        }
        Thread.sleep(1200);
        for (Life life : lives) {
            holds(life.rule + ", left alone", !life.cache.containsKey(1L) && !life.cache.containsKey(2L));
        }
    }

    @Test
    static void eternalEntriesStay() throws InterruptedException {
        Cache<Long, String> cache = under(new EternalExpiryPolicy());
        cache.put(1L, "a");
        sleepLong();
        equal("an eternal entry stays", "a", cache.get(1L));
    }

    @Test
    static void anExpiredEntryIsLoadedAgain() throws InterruptedException {
        Store<Long, String> store = new Store<>();
        store.map.put(1L, "one");
        Cache<Long, String> cache =
                Caches.create(Caches.over(store).setExpiryPolicyFactory(CreatedExpiryPolicy.factoryOf(SHORT)));
        equal("a get loads", "one", cache.get(1L));
        store.map.put(1L, "changed");
        sleepLong();
        equal("and once the entry has expired it loads again", "changed", cache.get(1L));
        equal("an entry that expires is no delete of the store", 0, store.deletes.get());
    }

    @Test
    static void aPolicyThatFailsLeavesTheEntry() {
        Cache<Long, String> cache = under(new ExpiryPolicy() {
            @Override
            public Duration getExpiryForCreation() {
                throw new IllegalStateException("creation");
            }

            @Override
            public Duration getExpiryForAccess() {
                throw new IllegalStateException("access");
            }

            @Override
            public Duration getExpiryForUpdate() {
                throw new IllegalStateException("update");
            }
        });
        cache.put(1L, "a");
        equal("a policy that throws fails no call: the entry is cached", "a", cache.get(1L));
        cache.put(1L, "b");
        equal("and updated", "b", cache.get(1L));
    }

    @Test
    static void putAllWaitsForAKeyThatHasExpiredWhileItIsReserved() throws Exception {
        Store<Long, String> store = new Store<>();
        Counting policy = new Counting();
        Cache<Long, String> cache = Caches.create(Caches.over(store).setExpiryPolicyFactory(() -> policy));
        cache.put(2L, "old");
        Store.Gate gate = new Store.Gate();
        Work<String> slow = Background.start(() -> cache.invoke(2L, (entry, arguments) -> {
            gate.pass();
            return "done";
        }));
        gate.awaitCall();
        policy.access = Duration.ZERO;
        equal("a get finds an entry whose key is reserved", "old", cache.get(2L));
        equal("once it has expired it isn't there, and a look at it doesn't wait", false, cache.containsKey(2L));
        policy.access = null;
        Map<Long, String> entries = Map.of(1L, "a", 2L, "b", 3L, "c");
        Work<Void> put = Background.start(() -> cache.putAll(entries));
        put.awaitSleep();
        gate.open();
        slow.result();
        put.result();
        equal("putAll waits for it, also if it has expired by that get, and writes it", entries, store.map);
        equal("and caches it", entries, cache.getAll(entries.keySet()));
    }
}
