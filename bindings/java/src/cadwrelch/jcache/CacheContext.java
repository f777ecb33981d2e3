package cadwrelch.jcache;

import java.util.Collection;
import java.util.concurrent.locks.ReentrantLock;
import java.util.function.Consumer;
import javax.cache.Cache;
import javax.cache.CacheException;
import javax.cache.configuration.CacheEntryListenerConfiguration;
import javax.cache.configuration.Factory;
import javax.cache.event.CacheEntryListenerException;
import javax.cache.expiry.EternalExpiryPolicy;
import javax.cache.expiry.ExpiryPolicy;

/** What the parts of a cache share: its stripes, what is outside of it, and how it keeps keys and values. */
final class CacheContext<K, V> {
    final Cache<K, V> cache;
    final Copier copier;
    final Outside<K, V> outside;
    /** Null if no entry expires or ages. */
    final Expiry expiry;
    /** Null if no entry ages. */
    private final Refresher refresher;
    final Listeners<K, V> listeners;
    volatile boolean hasStatistics;
    private final Stripe[] stripes;

    /**
     * Makes the parts of a cache: its factories are called, and its stripes opened. The cache need only know its name
     * and its manager yet, and loads a key again when it is told. If that fails, what the cache was given is closed.
     */
    CacheContext(Cache<K, V> cache, CadwrelchConfiguration<K, V> configuration, Settings settings,
            Consumer<Object> reload) {
        this.cache = cache;
        expiry = expiry(configuration, settings);
        copier = copier(configuration, settings);
        hasStatistics = configuration.isStatisticsEnabled();
        listeners = new Listeners<>(cache.getName());
        boolean ages = settings.refreshAfter != 0 && configuration.getCacheLoaderFactory() != null;
        refresher = ages ? new Refresher(cache.getName(), configuration.executor, reload) : null;
        try {
            outside = new Outside<>(configuration, this, settings.absentFor != 0);
            configuration.getCacheEntryListenerConfigurations().forEach(this::addListener);
            stripes = openStripes(settings);
        } catch (RuntimeException | Error e) {
            closeGiven();
            throw e;
        }
    }

    private static Expiry expiry(CadwrelchConfiguration<?, ?> configuration, Settings settings) {
        Factory<ExpiryPolicy> policies = configuration.getExpiryPolicyFactory();
        ExpiryPolicy policy = policies == null ? null : policies.create();
        policy = policy instanceof EternalExpiryPolicy ? null : policy;
        boolean isTimeless = policy == null && settings.refreshAfter == 0 && settings.absentFor == 0;
        return isTimeless ? null : new Expiry(policy, settings, configuration.clock);
    }

    /** Keeps bytes, if the settings say so, the types have bytes, and no entry expires; else objects. */
    private Copier copier(CadwrelchConfiguration<K, V> configuration, Settings settings) {
        ByteCopier bytes = settings.bytes && expiry == null ? ByteCopier.of(configuration) : null;
        return bytes != null ? bytes : ObjectCopier.of(configuration, settings, cache.getCacheManager());
    }

    /** Opens all stripes, or none. */
    private Stripe[] openStripes(Settings settings) {
        Stripe[] opened = new Stripe[settings.stripes];
        try {
            for (int i = 0; i < opened.length; i++) {
                opened[i] = new Stripe(this, settings, i, Recorder.open(cache.getName(), i, settings, copier));
            }
        } catch (RuntimeException | Error e) {
            for (Stripe stripe : opened) {
                if (stripe != null) {
                    stripe.close();
                }
            }
            throw e;
        }
        return opened;
    }

    /** Opens the core's stripe of an index, behind the lock of that stripe. */
    KeyedDesk openDesk(ReentrantLock lock, Settings settings, int index, Counts counts, Recorder recorder) {
        Desk.Shape shape = new Desk.Shape(settings, index, outside, copier instanceof ByteCopier);
        if (shape.hasBytes) {
            return new ByteDesk(new DeskOfBytes(lock, shape), counts, recorder, (ByteCopier) copier,
                    () -> hasStatistics || hasListeners());
        }
        return new ObjectDesk(new Desk(lock, shape), counts, recorder, settings.refreshAfter != 0);
    }

    /** Has an entry loaded again that is old, in the background. No lock is held. */
    void refresh(Object key) {
        if (refresher != null) {
            refresher.later(key);
        }
    }

    /** The stripe of a key with this hash. */
    Stripe stripeOf(int hash) {
        return stripes[(int) ((hash & 0xffffffffL) * stripes.length >>> Integer.SIZE)];
    }

    Stripe[] stripes() {
        return stripes;
    }

    /** What is kept of a value that comes with a key. */
    Object valueIn(Object key, Object value) {
        try {
            return copier.in(value);
        } catch (CacheException e) {
            throw Faults.ofCopy(e, Texts.at(cache.getName(), key));
        }
    }

    /** Copies a key that is to be kept. */
    void copyKey(KeyLookup sought) {
        try {
            sought.copy(copier);
        } catch (CacheException e) {
            throw Faults.ofCopy(e, Texts.at(cache.getName(), sought.key));
        }
    }

    /** What is handed out of a value that is kept. */
    @SuppressWarnings("unchecked")
    V valueOut(Object stored) {
        try {
            return (V) copier.out(stored);
        } catch (CacheException e) {
            throw Faults.ofCopy(e, " (cache " + cache.getName() + ")");
        }
    }

    /** What is handed out of a key that is kept. */
    @SuppressWarnings("unchecked")
    K keyOut(Object key) {
        return (K) copier.key(key);
    }

    boolean hasListeners() {
        return !listeners.isEmpty();
    }

    void addListener(CacheEntryListenerConfiguration<K, V> listener) {
        listeners.add(listener);
    }

    void removeListener(CacheEntryListenerConfiguration<K, V> listener) {
        listeners.remove(listener);
    }

    /** Tells the listeners what has happened in a stripe. No lock is held. */
    void tellListeners(Stripe stripe) {
        if (hasListeners()) {
            stripe.events().tell();
        }
    }

    /**
     * The same of several stripes.
     *
     * @throws CacheEntryListenerException the first that a synchronous listener threw, once all stripes' events are
     *     told
     */
    void tellListeners(Collection<Stripe> touched) {
        CacheEntryListenerException fault = null;
        for (Stripe stripe : touched) {
            try {
                tellListeners(stripe);
            } catch (CacheEntryListenerException e) {
                fault = fault == null ? e : fault;
            }
        }
        if (fault != null) {
            throw fault;
        }
    }

    /** Closes the stripes, and what the cache was given. */
    void close() {
        for (Stripe stripe : stripes) {
            stripe.close();
        }
        closeGiven();
    }

    private void closeGiven() {
        if (outside != null) {
            outside.close();
        }
        if (refresher != null) {
            refresher.close();
        }
        if (expiry != null) {
            expiry.close();
        }
        listeners.close();
    }
}
