package cadwrelch.jcache;

import javax.cache.event.CacheEntryEvent;
import javax.cache.event.EventType;

/** An event as listeners see it: what it hands out are copies, if the cache keeps copies. */
final class CacheEvent<K, V> extends CacheEntryEvent<K, V> {
    private static final long serialVersionUID = 1;

    private final transient CacheContext<K, V> context;
    private final transient Object key;
    private final transient Object stored;
    private final transient Object before;
    /** The thread whose call has made it; null: that has left. The lock of the stripe guards it. */
    transient Thread caller = Thread.currentThread();

    CacheEvent(CacheContext<K, V> context, EventType type, Object key, Object stored, Object before) {
        super(context.cache, type);
        this.context = context;
        this.key = key;
        this.stored = stored;
        this.before = before;
    }

    @Override
    public K getKey() {
        return context.keyOut(key);
    }

    @Override
    public V getValue() {
        return context.valueOut(stored);
    }

    @Override
    public V getOldValue() {
        return isOldValueAvailable() ? context.valueOut(before) : null;
    }

    @Override
    public boolean isOldValueAvailable() {
        return before != null;
    }

    @Override
    public <T> T unwrap(Class<T> type) {
        return Unwrap.as(this, type);
    }
}
