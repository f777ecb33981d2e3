package cadwrelch.tests;

import static cadwrelch.tests.Check.equal;
import static cadwrelch.tests.Check.holds;

import java.io.IOException;
import java.io.ObjectOutputStream;
import java.io.Serializable;
import javax.cache.Cache;
import javax.cache.CacheManager;
import javax.cache.configuration.MutableCacheEntryListenerConfiguration;
import javax.cache.configuration.MutableConfiguration;
import javax.cache.event.CacheEntryCreatedListener;
import javax.cache.expiry.Duration;
import javax.cache.expiry.ExpiryPolicy;
import cadwrelch.tests.Background.Work;
import cadwrelch.tests.Check.Test;

/**
 * Nothing of the user's runs with a lock held: while it hangs, calls at other keys are done, though the cache has one
 * stripe. Each test has something that hangs at a gate for one key or value.
 */
final class Locks {
    private Locks() {}

    /** The gate of the test that runs; null: nothing hangs. */
    private static volatile Store.Gate gate;

    private static void hang() {
        Store.Gate here = gate;
        if (here != null) {
            here.pass();
        }
    }

    /** A key or a value whose methods hang if it is the slow one. */
    private static final class Slow implements Serializable {
        private static final long serialVersionUID = 1;
        private final String text;
        private final boolean inEquals;
        private final boolean inHashCode;
        private final boolean inWriting;

        private Slow(String text, boolean inEquals, boolean inHashCode, boolean inWriting) {
            this.text = text;
            this.inEquals = inEquals;
            this.inHashCode = inHashCode;
            this.inWriting = inWriting;
        }

        static Slow of(String text) {
            return new Slow(text, false, false, false);
        }

        @Override
        public boolean equals(Object other) {
            if (inEquals) {
                hang();
            }
            return other instanceof Slow && ((Slow) other).text.equals(text);
        }

        @Override
        public int hashCode() {
            if (inHashCode) {
                hang();
            }
            // All have one hash, so that keys are compared.
            return 1;
        }

        private void writeObject(ObjectOutputStream out) throws IOException {
            if (inWriting) {
                hang();
            }
            out.defaultWriteObject();
        }
    }

    /** Makes a call that hangs, and then others at another key of the same stripe. */
    private static <T> void check(String what, Cache<Object, Object> cache, Check.Body slow) throws Exception {
        Object other = Slow.of("other");
        cache.put(other, "old");
        Store.Gate here = new Store<Object, Object>().shut();
        gate = here;
        Work<Void> call = Background.start(slow);
        here.awaitCall();
        gate = null;
        Background.start(() -> {
            cache.put(other, "new");
            equal("while " + what + " hangs, a get of another key is done", "new", cache.get(other));
            cache.put("another", "b");
            equal("also of one of another hash", true, cache.remove("another"));
        }).result();
        holds("and it hangs still", !call.isDone());
        here.open();
        call.result();
        holds("until it goes on", call.isDone());
    }

    private static Cache<Object, Object> oneStripe(MutableConfiguration<Object, Object> configuration) {
        CacheManager manager = Caches.manager(1, 100);
        return Caches.create(manager, configuration);
    }

    @Test
    static void equalsOfAKey() throws Exception {
        Cache<Object, Object> cache = oneStripe(new MutableConfiguration<>());
        cache.put(Slow.of("slow"), "value");
        Slow slow = new Slow("slow", true, false, false);
        check("equals of a key", cache, () -> equal("a key is found by its equals", "value", cache.get(slow)));
    }

    @Test
    static void hashCodeOfAKey() throws Exception {
        Cache<Object, Object> cache = oneStripe(new MutableConfiguration<>());
        Slow slow = new Slow("slow", false, true, false);
        check("hashCode of a key", cache, () -> cache.put(slow, "value"));
        equal("which is found then", "value", cache.get(Slow.of("slow")));
    }

    @Test
    static void equalsOfAValue() throws Exception {
        Cache<Object, Object> cache = oneStripe(new MutableConfiguration<>().setStoreByValue(false));
        Slow cached = new Slow("value", true, false, false);
        cache.put("key", cached);
        check("equals of a value", cache,
                () -> holds("replace compares by equals", cache.replace("key", Slow.of("value"), Slow.of("next"))));
        equal("and replaces", Slow.of("next"), cache.get("key"));
    }

    @Test
    static void serializationOfAValue() throws Exception {
        Cache<Object, Object> cache = oneStripe(new MutableConfiguration<>());
        check("the serialization of a value", cache, () -> cache.put("key", new Slow("value", false, false, true)));
        equal("which is cached then", Slow.of("value"), cache.get("key"));
    }

    @Test
    static void serializationOfAKey() throws Exception {
        Cache<Object, Object> cache = oneStripe(new MutableConfiguration<>());
        check("the serialization of a key", cache, () -> cache.put(new Slow("key", false, false, true), "value"));
        equal("which is cached then", "value", cache.get(Slow.of("key")));
    }

    @Test
    static void anExpiryPolicy() throws Exception {
        ExpiryPolicy policy = new ExpiryPolicy() {
            @Override
            public Duration getExpiryForCreation() {
                hang();
                return Duration.ETERNAL;
            }

            @Override
            public Duration getExpiryForAccess() {
                return null;
            }

            @Override
            public Duration getExpiryForUpdate() {
                return null;
            }
        };
        Cache<Object, Object> cache = oneStripe(new MutableConfiguration<>().setExpiryPolicyFactory(() -> policy));
        check("an expiry policy", cache, () -> cache.put("key", "value"));
        equal("the entry is cached then", "value", cache.get("key"));
    }

    @Test
    static void aListener() throws Exception {
        CacheEntryCreatedListener<Object, Object> listener = events -> events.forEach(event -> {
            if (event.getKey().equals("key")) {
                hang();
            }
        });
        Cache<Object, Object> cache = oneStripe(new MutableConfiguration<>());
        cache.registerCacheEntryListener(new MutableCacheEntryListenerConfiguration<>(() -> listener, null, false,
                true));
        cache.put(Slow.of("other"), "old");
        Store.Gate here = new Store<Object, Object>().shut();
        gate = here;
        Work<Void> call = Background.start(() -> cache.put("key", "value"));
        here.awaitCall();
        gate = null;
        equal("while a synchronous listener hangs, a get of the key is done", "value",
                Background.start(() -> cache.get("key")).result());
        equal("and of another one", "old", Background.start(() -> cache.get(Slow.of("other"))).result());
        here.open();
        call.result();
    }
}
