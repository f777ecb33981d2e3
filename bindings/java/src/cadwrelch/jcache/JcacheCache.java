package cadwrelch.jcache;

import java.util.ArrayList;
import java.util.Arrays;
import java.util.Collection;
import java.util.Iterator;
import java.util.LinkedHashMap;
import java.util.List;
import java.util.Map;
import java.util.Objects;
import java.util.Set;
import java.util.function.Consumer;
import javax.cache.Cache;
import javax.cache.CacheManager;
import javax.cache.configuration.CacheEntryListenerConfiguration;
import javax.cache.configuration.Configuration;
import javax.cache.integration.CompletionListener;
import javax.cache.processor.EntryProcessor;
import javax.cache.processor.EntryProcessorResult;

/**
 * A cache over stripes of the core: the calls of {@link Cache}. Each call of one key is a call of the core, in phases;
 * one of many keys is made of such. A call waits while another one has reserved its key, and for no other.
 */
final class JcacheCache<K, V> implements Cache<K, V>, Invalidation {
    /**
     * So many keys of {@link #removeAll()} and {@link #clear} are taken out by one call of many keys, and up to those
     * of one stripe more.
     */
    private static final int KEYS_AT_ONCE = 1 << 16;

    final CadwrelchConfiguration<K, V> configuration;
    private final JcacheManager manager;
    private final String name;
    private final CacheContext<K, V> context;
    private final Invocations<K, V> invocations;
    private final BackgroundLoads<K, V> loads;
    private final boolean checksTypes;
    private volatile boolean isClosed;
    private volatile boolean isSuspended;

    /**
     * A cache of a manager. Its configuration is its own.
     *
     * @throws javax.cache.CacheException if its record can't be written
     * @throws OutOfMemoryError if the core's memory can't be allocated
     */
    JcacheCache(JcacheManager manager, String name, CadwrelchConfiguration<K, V> configuration, Settings settings) {
        this.manager = manager;
        this.name = name;
        this.configuration = configuration;
        checksTypes = configuration.getKeyType() != Object.class || configuration.getValueType() != Object.class;
        context = new CacheContext<>(this, configuration, settings, this::reload);
        invocations = new Invocations<>(context, configuration.getValueType());
        loads = new BackgroundLoads<>(context, name);
    }

    private void checkOpen() {
        if (isClosed) {
            throw new IllegalStateException("the cache " + name + " is closed");
        }
    }

    private void checkKey(Object key) {
        Objects.requireNonNull(key, "key");
        if (checksTypes) {
            configuration.getKeyType().cast(key);
        }
    }

    private void checkValue(Object value) {
        Objects.requireNonNull(value, "value");
        if (checksTypes) {
            configuration.getValueType().cast(value);
        }
    }

    private void checkOpenAndKey(K key) {
        checkOpen();
        checkKey(key);
    }

    private void checkAll(K key, V value) {
        checkOpenAndKey(key);
        checkValue(value);
    }

    private void checkKeys(Set<? extends K> keys) {
        checkOpen();
        Objects.requireNonNull(keys, "keys");
        keys.forEach(this::checkKey);
    }

    // Calls of one key.

    /** A whole call, whose arguments are checked: its phases, and whom they ask between. */
    private Call call(int op, K key, V value, V expected) {
        Copier copier = context.copier;
        Call call = new Call(op, copier.lookup(key), value, context.valueIn(key, value), copier.expected(expected));
        Stripe stripe = context.stripeOf(call.lookup.hash);
        do {
            stripe.begin(call, true);
            finish(call, stripe);
        } while (!call.isDone());
        return told(call, stripe);
    }

    /** A call that is done, once listeners are told, and whoever has called is told of a failure. */
    private Call told(Call call, Stripe stripe) {
        context.tellListeners(stripe);
        Faults.throwFailureOf(call);
        return call;
    }

    /** Afterwards the call is done, or told to begin anew. */
    private void finish(Call call, Stripe stripe) {
        switch (call.next) {
            case Native.ASK_LOADER:
                context.outside.load(call);
                stripe.end(call);
                break;
            case Native.WRITE:
            case Native.DELETE:
                context.outside.write(call);
                stripe.end(call);
                break;
            case Native.JOINED:
                stripe.pickUp(call);
                break;
            default:
        }
    }

    /** What is kept of a key's value: a get. Null: it has none. */
    private Object stored(K key) {
        Object stored = hit(key);
        if (stored != null) {
            return stored == Node.ABSENT ? null : stored;
        }
        return call(Native.GET, key, null, null).answer;
    }

    /** Loads an entry again, unless the cache is closed, another call has reserved its key, or there is no room. */
    private void reload(Object key) {
        if (isClosed) {
            return;
        }
        Call call = new Call(Native.RELOAD, context.copier.lookup(context.copier.key(key)));
        Stripe stripe = context.stripeOf(call.lookup.hash);
        stripe.begin(call, false);
        if (call.next != Native.REFUSED) {
            finish(call, stripe);
            told(call, stripe);
        }
    }

    private Object hit(K key) {
        KeyLookup sought = context.copier.lookup(key);
        return context.stripeOf(sought.hash).hit(sought);
    }

    @Override
    public V get(K key) {
        checkOpenAndKey(key);
        return context.valueOut(stored(key));
    }

    @Override
    public boolean containsKey(K key) {
        checkOpenAndKey(key);
        return call(Native.CONTAINS_KEY, key, null, null).isYes();
    }

    @Override
    public void put(K key, V value) {
        checkAll(key, value);
        call(Native.PUT, key, value, null);
    }

    @Override
    public V getAndPut(K key, V value) {
        checkAll(key, value);
        return context.valueOut(call(Native.GET_AND_PUT, key, value, null).answer);
    }

    @Override
    public boolean putIfAbsent(K key, V value) {
        checkAll(key, value);
        return call(Native.PUT_IF_ABSENT, key, value, null).isYes();
    }

    @Override
    public boolean remove(K key) {
        checkOpenAndKey(key);
        return call(Native.REMOVE, key, null, null).isYes();
    }

    @Override
    public boolean remove(K key, V oldValue) {
        checkAll(key, oldValue);
        return call(Native.REMOVE_IF, key, null, oldValue).isYes();
    }

    @Override
    public V getAndRemove(K key) {
        checkOpenAndKey(key);
        return context.valueOut(call(Native.GET_AND_REMOVE, key, null, null).answer);
    }

    @Override
    public boolean replace(K key, V oldValue, V newValue) {
        checkAll(key, oldValue);
        checkValue(newValue);
        return call(Native.REPLACE_IF, key, newValue, oldValue).isYes();
    }

    @Override
    public boolean replace(K key, V value) {
        checkAll(key, value);
        return call(Native.REPLACE, key, value, null).isYes();
    }

    @Override
    public V getAndReplace(K key, V value) {
        checkAll(key, value);
        return context.valueOut(call(Native.GET_AND_REPLACE, key, value, null).answer);
    }

    @Override
    public <T> T invoke(K key, EntryProcessor<K, V, T> entryProcessor, Object... arguments) {
        checkOpenAndKey(key);
        Objects.requireNonNull(entryProcessor, "entryProcessor");
        return invocations.invoke(key, entryProcessor, arguments);
    }

    // Calls of many keys.

    @Override
    public Map<K, V> getAll(Set<? extends K> keys) {
        checkKeys(keys);
        BulkCalls.Result result = BulkCalls.run(context, Native.GET, keys, key -> null);
        if (result.cause != null) {
            throw Faults.ofLoader(result.cause, result.where());
        }
        Map<K, V> found = new LinkedHashMap<>();
        for (Call call : result.calls) {
            if (call.answer != null) {
                found.put(keyOf(call), context.valueOut(call.answer));
            }
        }
        return found;
    }

    @SuppressWarnings("unchecked")
    private K keyOf(Call call) {
        return (K) call.key();
    }

    @Override
    public void putAll(Map<? extends K, ? extends V> map) {
        checkOpen();
        Objects.requireNonNull(map, "map");
        Map<K, V> values = new LinkedHashMap<>(map);
        values.forEach((key, value) -> {
            checkKey(key);
            checkValue(value);
        });
        throwWriterFailure(BulkCalls.run(context, Native.PUT, values.keySet(), values::get));
    }

    @Override
    public void removeAll(Set<? extends K> keys) {
        checkKeys(keys);
        removeEach(keys);
    }

    private void removeEach(Collection<? extends K> keys) {
        throwWriterFailure(BulkCalls.run(context, Native.REMOVE, keys, key -> null));
    }

    private static void throwWriterFailure(BulkCalls.Result result) {
        if (result.cause != null) {
            throw Faults.ofWriter(result.cause, result.where());
        }
    }

    @Override
    public void removeAll() {
        checkOpen();
        takeOut(false, this::removeEach);
    }

    /**
     * Takes each key out of the cache that is cached when its stripe is reached. No writer is asked, and no listener
     * told, but of entries that have expired.
     */
    @Override
    public void clear() {
        checkOpen();
        takeOut(true, keys -> BulkCalls.run(context, Native.CLEAR, keys, key -> null));
    }

    /** Takes all keys out that are cached, some stripes' at a time. */
    private void takeOut(boolean withAbsent, Consumer<List<K>> by) {
        List<K> keys = new ArrayList<>();
        for (Stripe stripe : context.stripes()) {
            stripe.keys(withAbsent).forEach(key -> keys.add(context.keyOut(key)));
            if (keys.size() >= KEYS_AT_ONCE) {
                by.accept(keys);
                keys.clear();
            }
        }
        by.accept(keys);
    }

    // What others have changed in the store.

    @Override
    public void invalidate(Object key) {
        checkKey(key);
        KeyLookup sought = context.copier.lookup(key);
        context.stripeOf(sought.hash).invalidate(sought);
    }

    @Override
    public void invalidateAll() {
        for (Stripe stripe : context.stripes()) {
            stripe.ifOpen(Hiding::invalidateAll);
        }
    }

    @Override
    public void suspend() {
        keep(false);
    }

    @Override
    public void resume() {
        keep(true);
    }

    private void keep(boolean keeps) {
        synchronized (context) {
            isSuspended = true;
            for (Stripe stripe : context.stripes()) {
                stripe.ifOpen(hiding -> hiding.invalidateAll(keeps));
            }
            isSuspended = !keeps;
        }
    }

    @Override
    public boolean isSuspended() {
        return isSuspended;
    }

    @Override
    public long expire() {
        long expired = 0;
        if (context.expiry != null) {
            for (Stripe stripe : context.stripes()) {
                expired += stripe.ifOpen(hiding -> stripe.expire());
            }
            context.tellListeners(Arrays.asList(context.stripes()));
        }
        return expired;
    }

    @Override
    public void loadAll(Set<? extends K> keys, boolean replaceExistingValues, CompletionListener completionListener) {
        checkKeys(keys);
        loads.begin(keys, replaceExistingValues, completionListener);
    }

    @Override
    public <T> Map<K, EntryProcessorResult<T>> invokeAll(Set<? extends K> keys, EntryProcessor<K, V, T> entryProcessor,
            Object... arguments) {
        checkKeys(keys);
        Objects.requireNonNull(entryProcessor, "entryProcessor");
        return invocations.invokeAll(keys, entryProcessor, arguments);
    }

    @Override
    public Iterator<Cache.Entry<K, V>> iterator() {
        checkOpen();
        return new EntryIterator<>(context, this::present, this::remove);
    }

    /**
     * What is kept of a key's value, if it is cached: a get that doesn't load, unless the entry goes between its two
     * looks. A hit isn't made if the entry may expire, or if a history that is recorded is full.
     */
    private Object present(K key) {
        Object stored = hit(key);
        return stored != null || !containsKey(key) ? stored : stored(key);
    }

    // Listeners.

    @Override
    public void registerCacheEntryListener(CacheEntryListenerConfiguration<K, V> listener) {
        checkOpen();
        synchronized (configuration) {
            configuration.addCacheEntryListenerConfiguration(listener);
        }
        try {
            context.addListener(listener);
        } catch (RuntimeException | Error e) {
            unconfigure(listener);
            throw e;
        }
    }

    private void unconfigure(CacheEntryListenerConfiguration<K, V> listener) {
        synchronized (configuration) {
            configuration.removeCacheEntryListenerConfiguration(listener);
        }
    }

    @Override
    public void deregisterCacheEntryListener(CacheEntryListenerConfiguration<K, V> listener) {
        checkOpen();
        Objects.requireNonNull(listener, "listener");
        unconfigure(listener);
        context.removeListener(listener);
    }

    // The cache as a whole.

    @Override
    public <C extends Configuration<K, V>> C getConfiguration(Class<C> type) {
        return Unwrap.as(configuration, type);
    }

    @Override
    public String getName() {
        return name;
    }

    @Override
    public CacheManager getCacheManager() {
        return manager;
    }

    /** Later calls, and those that wait to begin, throw; calls under way end. */
    @Override
    public void close() {
        synchronized (configuration) {
            if (isClosed) {
                return;
            }
            isClosed = true;
        }
        try {
            loads.close();
            context.close();
        } finally {
            manager.closed(this);
        }
    }

    @Override
    public boolean isClosed() {
        return isClosed;
    }

    @Override
    public <T> T unwrap(Class<T> type) {
        return Unwrap.as(this, type);
    }

    boolean hasStatistics() {
        return context.hasStatistics;
    }

    void setStatistics(boolean isOn) {
        configuration.setStatisticsEnabled(isOn);
        context.hasStatistics = isOn;
    }

    LoaderCounts loaderCounts() {
        return context.outside.loaderCounts;
    }

    /** The stripes: what statistics and tests read. */
    Stripe[] stripes() {
        return context.stripes();
    }
}
