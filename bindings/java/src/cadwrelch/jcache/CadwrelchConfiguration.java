package cadwrelch.jcache;

import java.time.Duration;
import java.util.concurrent.Executor;
import java.util.function.LongSupplier;
import java.util.function.UnaryOperator;
import javax.cache.configuration.CompleteConfiguration;
import javax.cache.configuration.Factory;
import javax.cache.configuration.MutableConfiguration;

/**
 * The configuration of one cache, with what this provider has beside JSR 107 ("Configuration"). It is handed to {@link
 * javax.cache.CacheManager#createCache}, which copies it. What it doesn't set is as the manager's {@linkplain
 * JcacheProvider properties} say. Its own setters come first in a chain, since those of the standard answer a {@link
 * MutableConfiguration}:
 *
 * <pre>{@code
 * manager.createCache("titles", new CadwrelchConfiguration<Integer, String>()
 *         .setCapacity(5_000)
 *         .setTypes(Integer.class, String.class));
 * }</pre>
 *
 * <p>A setter that is given what is out of its limits throws an IllegalArgumentException, which names it, what was
 * given and the limits, and changes nothing. None waits.
 *
 * @param <K> the type of keys
 * @param <V> the type of values
 */
public class CadwrelchConfiguration<K, V> extends MutableConfiguration<K, V> {
    private static final long serialVersionUID = 1;

    /** 0: it isn't set. */
    int stripes;
    /** Of the whole cache; 0: it isn't set. */
    int capacity;
    /** 0: it isn't set. */
    int history;
    /** Null: it isn't set. */
    Duration refreshAfter;
    /** Null: it isn't set. */
    Duration absentFor;
    /** Null: serialization copies values. */
    Factory<? extends UnaryOperator<V>> copierFactory;
    /** Null: serialization copies keys. */
    Factory<? extends UnaryOperator<K>> keyCopierFactory;
    /** Null: the cache's own threads. */
    transient Executor executor;
    /** Null: {@link System#nanoTime}. */
    transient LongSupplier clock;

    /** A configuration that sets nothing but what {@link MutableConfiguration} sets. */
    public CadwrelchConfiguration() {
        // All is as the manager's properties say.
    }

    /**
     * A copy. Of a configuration of another class it has what the standard says, and sets nothing of this provider's.
     *
     * @param from what is copied
     */
    public CadwrelchConfiguration(CompleteConfiguration<K, V> from) {
        super(from);
        if (from instanceof CadwrelchConfiguration) {
            CadwrelchConfiguration<K, V> own = (CadwrelchConfiguration<K, V>) from;
            stripes = own.stripes;
            capacity = own.capacity;
            history = own.history;
            refreshAfter = own.refreshAfter;
            absentFor = own.absentFor;
            copierFactory = own.copierFactory;
            keyCopierFactory = own.keyCopierFactory;
            executor = own.executor;
            clock = own.clock;
        }
    }

    /** Notes what a cache has, whatever says so. */
    void note(Settings settings) {
        stripes = settings.stripes;
        capacity = settings.capacity;
        history = settings.history;
        boolean isReloaded = settings.refreshAfter != 0 && getCacheLoaderFactory() != null;
        refreshAfter = isReloaded ? Duration.ofNanos(settings.refreshAfter) : null;
        absentFor = settings.absentFor != 0 && isReadThrough() ? Duration.ofNanos(settings.absentFor) : null;
    }

    /**
     * How many entries the whole cache has room for.
     *
     * @return of a cache's configuration, what it has, whatever says so; else what was set, or 0
     */
    public int getCapacity() {
        return capacity;
    }

    /**
     * How many stripes the cache has.
     *
     * @return as {@link #getCapacity}
     */
    public int getStripes() {
        return stripes;
    }

    /**
     * How many events the history of a stripe has room for.
     *
     * @return as {@link #getCapacity}
     */
    public int getHistory() {
        return history;
    }

    /**
     * The age at which an entry is loaded again.
     *
     * @return null: none is
     */
    public Duration getRefreshAfter() {
        return refreshAfter;
    }

    /**
     * For how long it is remembered that the loader has found nothing.
     *
     * @return null: it isn't
     */
    public Duration getAbsentFor() {
        return absentFor;
    }

    /**
     * Sets how many entries the whole cache has room for. A new key evicts the entry of its stripe that was used
     * longest ago.
     *
     * @param entries at least 1, and 1 to 4,096 for each stripe
     * @return this configuration
     */
    public CadwrelchConfiguration<K, V> setCapacity(int entries) {
        capacity = within("capacity", entries, 1, Settings.CAPACITY_MAX);
        return this;
    }

    /**
     * Sets how many stripes the cache has. Calls at keys of different stripes share no lock. If nothing sets it, a
     * cache of up to 511 entries has one stripe, and so is full with exactly its capacity; a larger one has more.
     *
     * @param count 1 to 4,096
     * @return this configuration
     */
    public CadwrelchConfiguration<K, V> setStripes(int count) {
        stripes = within("stripes", count, 1, Settings.STRIPES_MAX);
        return this;
    }

    /**
     * Sets how many events the history of each stripe has room for.
     *
     * @param events 16 to 65,536; with fewer than 260 a slow load that many calls have joined holds other keys of its
     *     stripe
     * @return this configuration
     */
    public CadwrelchConfiguration<K, V> setHistory(int events) {
        history = within("history", events, Settings.HISTORY_MIN, Settings.HISTORY_MAX);
        return this;
    }

    /**
     * Sets the age at which an entry is loaded again: a {@code get} that finds an older one answers it at once, and has
     * it reloaded in the background by {@code load} of the cache's loader. Puts of that key wait for the reload, so it
     * never overwrites a newer value. A reload that fails is logged, and one that finds nothing leaves the entry. The
     * cache has to have a loader; a property says nothing to one without.
     *
     * @param age longer than 0
     * @return this configuration
     */
    public CadwrelchConfiguration<K, V> setRefreshAfter(Duration age) {
        refreshAfter = positive("refreshAfter", age);
        return this;
    }

    /**
     * Sets for how long it is remembered that the loader has found nothing at a key. Meanwhile {@code get}, {@code
     * getAll} and {@code containsKey} answer that there is nothing, and nobody is asked. Any other call at the key
     * forgets it first. It takes the room of an entry. Read-through has to be on; a property says nothing to a cache
     * without.
     *
     * @param time longer than 0
     * @return this configuration
     */
    public CadwrelchConfiguration<K, V> setAbsentFor(Duration time) {
        absentFor = positive("absentFor", time);
        return this;
    }

    /**
     * Sets how values are copied, in place of serialization, in a cache that stores by value. It is called for each
     * value that comes or goes, but for those of immutable types. What it throws fails the call that needs the copy.
     *
     * @param factory makes what copies
     * @return this configuration
     */
    public CadwrelchConfiguration<K, V> setCopierFactory(Factory<? extends UnaryOperator<V>> factory) {
        copierFactory = factory;
        return this;
    }

    /**
     * The same of keys.
     *
     * @param factory makes what copies
     * @return this configuration
     */
    public CadwrelchConfiguration<K, V> setKeyCopierFactory(Factory<? extends UnaryOperator<K>> factory) {
        keyCopierFactory = factory;
        return this;
    }

    /**
     * Sets whose threads reload entries, in place of up to four daemon threads of the cache. It isn't serialized. It
     * should have threads of its own: what reloads in the thread that asks keeps the get that found an old entry.
     *
     * @param newExecutor runs reloads; null: the cache's own threads
     * @return this configuration
     */
    public CadwrelchConfiguration<K, V> setExecutor(Executor newExecutor) {
        executor = newExecutor;
        return this;
    }

    /**
     * Sets the clock by which entries expire and age, for tests. It isn't serialized. It is read with a lock of the
     * cache held, so it must not wait or call the cache.
     *
     * @param nanoseconds a count that never falls; null: {@link System#nanoTime}
     * @return this configuration
     */
    public CadwrelchConfiguration<K, V> setClock(LongSupplier nanoseconds) {
        clock = nanoseconds;
        return this;
    }

    private static int within(String name, int given, int least, int most) {
        if (given < least || given > most) {
            throw new IllegalArgumentException(
                    name + " is " + given + ": it has to be a number from " + least + " to " + most);
        }
        return given;
    }

    private static Duration positive(String name, Duration given) {
        if (given == null || given.isNegative() || given.isZero()) {
            throw new IllegalArgumentException(name + " is " + given + ": it has to be longer than 0");
        }
        return given;
    }
}
